//! Plans, blocks and marks to try: at random, but of kinds that reach every outcome at every size.

use crate::prng::Prng;
use crate::reference::{self, Code};
use fumizhaki::Plan;

/// Sizes of accepted plans, by n × t; full is at the bound of 32,768 or close below it. The last is for calls with no accepted plan.
pub const SIZES: [&str; 6] = ["tiny", "small", "medium", "large", "full", "no plan"];
pub const NO_PLAN: usize = 5;

fn dimensions(rng: &mut Prng, size: usize) -> (usize, usize) {
    let bounded = |rng: &mut Prng, most_t: usize, most: usize| {
        let n = if rng.once_in(5) { rng.pick(&[2, 3]) } else { rng.between(2, 32.min(most)) };
        (n, rng.between(1, most_t.min(most / n)))
    };
    match size {
        0 => {
            let n = rng.pick(&[2, 2, 2, 3, 3, 3, 4, 5, 6]);
            (n, rng.between(1, 18 / n))
        }
        1 => bounded(rng, 64, 400),
        2 => bounded(rng, 512, 3_000),
        3 => bounded(rng, 2_048, 30_000),
        _ => rng.pick(&[(32, 1_024), (16, 2_048), (32, 1_023), (29, 1_129), (31, 1_057), (17, 1_927), (24, 1_365), (20, 1_638)]),
    }
}

/// An accepted plan, with anything in the entries past n.
pub fn good_plan(rng: &mut Prng, size: usize) -> Plan {
    if size > 0 && size < 4 && rng.once_in(10) {
        let (_, n, t, shifts) = reference::ruler(rng.between(3, 14));
        if (size == 1) == (t <= 48) {
            return Plan { n, t, shifts };
        }
    }
    let (n, t) = dimensions(rng, size);
    let mut shifts = [0u16; 32];
    shifts.iter_mut().for_each(|p| *p = rng.next() as u16);
    let divisors: Vec<usize> = (1..=t).filter(|d| t % d == 0).collect();
    let (kind, d, a, b) = (rng.below(9), rng.pick(&divisors), rng.below(t), rng.below(t));
    for (j, shift) in shifts[..n].iter_mut().enumerate() {
        let p = match kind {
            0 => a,
            1 => rng.pick(&[a, b]),
            2 => (a + d * rng.below(t)) % t,
            3 => j % t,
            4 => (a + b * j) % t,
            _ => rng.below(t),
        };
        *shift = p as u16;
    }
    if kind == 8 {
        // the last section and the first share the divisor d, the others whatever comes
        shifts[n - 1] = ((usize::from(shifts[0]) + d * rng.below(t)) % t) as u16;
    }
    Plan { n, t, shifts }
}

/// A number of the kind that a test of bounds gets wrong.
pub fn wild(rng: &mut Prng) -> usize {
    const EDGES: [usize; 26] = [
        0,
        1,
        2,
        3,
        14,
        15,
        31,
        32,
        33,
        1_023,
        1_024,
        1_129,
        1_130,
        2_047,
        2_048,
        2_049,
        32_768,
        65_535,
        65_536,
        1 << 31,
        (1 << 32) - 1,
        1 << 32,
        1 << 33,
        1 << 63,
        usize::MAX - 1,
        usize::MAX,
    ];
    match rng.below(4) {
        0 => rng.below(40),
        1 => rng.below(2_100),
        2 => rng.next() as usize >> rng.below(64),
        _ => rng.pick(&EDGES),
    }
}

/// A plan that is refused, by its number 1 or 2.
pub fn bad_plan(rng: &mut Prng, number: u8) -> Plan {
    if number == 2 {
        let size = rng.below(5);
        let mut plan = good_plan(rng, size);
        let j = rng.below(plan.n);
        plan.shifts[j] = rng.pick(&[plan.t as u16, plan.t as u16 + 1, u16::MAX, plan.t as u16 | 1 << 15]);
        return plan;
    }
    loop {
        let mut shifts = [0u16; 32];
        if rng.once_in(2) {
            shifts.iter_mut().for_each(|p| *p = rng.next() as u16);
        }
        let (n, t) = match rng.below(3) {
            0 => (wild(rng), rng.between(1, 1_024)),
            1 => (rng.between(2, 32), wild(rng)),
            _ => (wild(rng), wild(rng)),
        };
        let plan = Plan { n, t, shifts };
        if reference::verdict(&plan) == 1 {
            return plan;
        }
    }
}

/// Symbols of three kinds: all bytes, one bit, mostly 0.
pub fn symbols(rng: &mut Prng, length: usize) -> Vec<u8> {
    let kind = rng.below(4);
    let mut list = rng.bytes(length);
    for s in &mut list {
        match kind {
            0 => *s &= 1,
            1 if *s > 20 => *s = 0,
            _ => (),
        }
    }
    list
}

/// Marked places of many kinds.
pub fn marks(rng: &mut Prng, code: &Code) -> Vec<bool> {
    let (n, t, places) = (code.n, code.t, code.places());
    let mut marked = vec![false; places];
    let two_sections = |rng: &mut Prng| {
        let (i, j) = (rng.below(n), rng.below(n));
        [i * t, j * t].into_iter().flat_map(|c| c..c + t).collect::<Vec<_>>()
    };
    match rng.below(12) {
        // none, all, or all but one
        0 => match rng.below(3) {
            0 => (),
            1 => marked.fill(true),
            _ => {
                marked.fill(true);
                marked[rng.below(places)] = false;
            }
        },
        // a few
        1 | 2 => (0..rng.between(1, 12)).for_each(|_| marked[rng.below(places)] = true),
        // about as many as the rows can settle
        3 => (0..rng.between(1, 2 * t)).for_each(|_| marked[rng.below(places)] = true),
        // a run
        4 => {
            let c = rng.below(places);
            let m = rng.below((places - c).min(2 * t) + 1);
            marked[c..c + m].fill(true);
        }
        // two sections, or part of them
        5 | 6 => {
            let spared = rng.below(3);
            for c in two_sections(rng) {
                marked[c] = true;
            }
            for _ in 0..spared {
                marked[rng.below(places)] = false;
            }
        }
        7 => {
            for c in two_sections(rng) {
                marked[c] = !rng.once_in(4);
            }
        }
        // a set without a cycle, as large as it can be or thinned out; sometimes with one place more
        kind => {
            let mut order: Vec<usize> = (0..places).collect();
            rng.shuffle(&mut order);
            let mut over: Vec<usize> = (0..2 * t).collect();
            let keep_all = rng.once_in(2);
            for c in order {
                let [mut a, mut b] = code.meets[c];
                while over[a] != a {
                    over[a] = over[over[a]];
                    a = over[a];
                }
                while over[b] != b {
                    over[b] = over[over[b]];
                    b = over[b];
                }
                if a != b {
                    over[a] = b;
                    marked[c] = keep_all || !rng.once_in(5);
                }
            }
            if kind == 11 {
                (0..rng.between(1, 3)).for_each(|_| marked[rng.below(places)] = true);
            }
        }
    }
    marked
}

pub fn to_bytes(marked: &[bool]) -> Vec<u8> {
    let mut bytes = vec![0; marked.len().div_ceil(8)];
    (0..marked.len()).filter(|c| marked[*c]).for_each(|c| bytes[c / 8] |= 1 << (c % 8));
    bytes
}

/// A block to recover: a codeword with anything at the marked places, sometimes with damage elsewhere; or anything at all.
pub fn block(rng: &mut Prng, codeword: &[u8], marked: &[bool]) -> Vec<u8> {
    if rng.once_in(16) {
        return symbols(rng, codeword.len());
    }
    let mut block = codeword.to_vec();
    for c in 0..block.len() {
        if marked[c] {
            block[c] = rng.next() as u8;
        }
    }
    let damage = rng.pick(&[0, 0, 0, 0, 1, 1, 2, 3]);
    let by = 1 + rng.below(255) as u8;
    for _ in 0..damage {
        block[rng.below(codeword.len())] ^= by;
    }
    block
}

/// A length that is not `right`.
pub fn wrong_length(rng: &mut Prng, right: usize) -> usize {
    loop {
        let length = match rng.below(6) {
            0 => right + 1,
            1 => right.saturating_sub(1),
            2 => 0,
            3 => 2 * right,
            4 => right / 2,
            _ => rng.below(2 * right + 10),
        };
        if length != right {
            return length;
        }
    }
}
