//! The library from Rust, with a code of 002: 12 sections of 239 symbols, shifts 5 to the j. A message is encoded, two sections are lost but for one symbol, and
//! recovery fills them in. Then that symbol is lost as well and has to be fetched, and last a symbol is damaged. Panics if anything is not as it should be.
use fumizhaki::{Plan, Recovery, Refusal};

fn mark(marks: &mut [u8], place: usize) {
    marks[place / 8] |= 1 << (place % 8);
}

fn main() -> Result<(), Refusal> {
    let plan = Plan::powers(12, 239, 5)?;
    let (lengths, figures) = (plan.lengths()?, plan.figures()?);
    println!(
        "{} message symbols, {} parity places, any {} losses in two sections, distance {}",
        lengths.message, figures.parity, figures.pair, figures.distance
    );

    let message: Vec<u8> = (0..lengths.message).map(|i| (i * i + 7 * i + 3) as u8).collect();
    let mut sealed = vec![0; lengths.block];
    plan.encode(&message, &mut sealed)?;

    // Sections 4 and 9, all but the first symbol of section 4.
    let lost: Vec<usize> = [4, 9].into_iter().flat_map(|j| j * plan.t..(j + 1) * plan.t).skip(1).collect();
    let (mut block, mut marks, mut witness) = (sealed.clone(), vec![0; lengths.marks], vec![0; lengths.witness]);
    for place in &lost {
        block[*place] = 0xEE;
        mark(&mut marks, *place);
    }
    assert_eq!(plan.erasure_count(&marks)?, figures.pair);
    assert_eq!(plan.recover(&mut block, &marks, &mut witness)?, Recovery::Recovered);
    assert_eq!(block, sealed);
    let mut read = vec![0; lengths.message];
    plan.message_of(&block, &mut read)?;
    assert_eq!(read, message);
    println!("recovered {}", lost.len());

    // One symbol more: a cycle goes through both sections, and the block is left as it is.
    mark(&mut marks, 4 * plan.t);
    block[4 * plan.t] = 0xEE;
    match plan.recover(&mut block, &marks, &mut witness)? {
        Recovery::Loose(places) => {
            assert_eq!((places.len(), usize::from(places[0])), (2 * plan.t, 4 * plan.t));
            println!("loose {}", places.len());
        }
        other => panic!("loose was expected, not {other:?}"),
    }
    assert_eq!(block[4 * plan.t], 0xEE);

    // What has to be fetched from elsewhere: with these symbols set and their marks taken away the others are recovered.
    let mut list = vec![0; lengths.marks];
    let count = plan.fetch(&marks, &mut list)?;
    let fetched: Vec<usize> = (0..lengths.block).filter(|place| list[place / 8] >> (place % 8) & 1 == 1).collect();
    assert_eq!((count, &fetched), (1, &vec![4 * plan.t]));
    println!("fetch {count}, place {}", fetched[0]);
    fetched.iter().for_each(|place| block[*place] = sealed[*place]);
    marks.iter_mut().zip(&list).for_each(|(marks, list)| *marks &= !list);
    assert_eq!(plan.recover(&mut block, &marks, &mut witness)?, Recovery::Recovered);
    assert_eq!(block, sealed);

    // A damaged symbol and no marks: no codeword agrees, and its top row shows it.
    block[700] ^= 1;
    let found = plan.recover(&mut block, &vec![0; lengths.marks], &mut witness)?;
    assert_eq!(found, Recovery::Crossed(&[(700 % plan.t) as u16]));
    println!("crossed, row {}", 700 % plan.t);
    assert_eq!(plan.message_of(&block, &mut read), Err(Refusal::Crossed));
    Ok(())
}
