//! Safe Rust over the C entry points of the recovery library (`libcapi.a`).
//!
//! Every entry of the library tests its own input and has no precondition, so a call needs nothing but slices that are what they say: lengths
//! and contents are judged by the library and refused by a number of document 01's table. What this crate adds is types: a refusal is a
//! [`Refusal`], what recovery found is a [`Recovery`], and each hands out its number again by `number`.
//!
//! A block has n × t symbols; marks have a bit per place, place c in byte c / 8, bit c mod 8, lowest bit first, spare bits 0; a witness list has
//! 2t entries; a message has as many symbols as the plan has message places. [`Plan::lengths`] gives all four. A fetch list is as long as the marks.
//!
//! ```
//! use fumizhaki::{Plan, Recovery};
//!
//! let plan = Plan::of(3, 7, &[0, 1, 3])?;
//! let lengths = plan.lengths()?;
//! let mut block = vec![0; lengths.block];
//! plan.encode(b"recorder", &mut block)?;
//! let whole = block.clone();
//!
//! block[17] ^= 5; // lost: what stands at a marked place influences nothing
//! let mut marks = vec![0; lengths.marks];
//! marks[17 / 8] |= 1 << (17 % 8);
//! let mut witness = vec![0; lengths.witness];
//! assert_eq!(plan.recover(&mut block, &marks, &mut witness)?, Recovery::Recovered);
//! assert_eq!(block, whole);
//! # Ok::<(), fumizhaki::Refusal>(())
//! ```
#![deny(missing_docs)]

use std::fmt;

/// The C entry points as `fumizhaki.h` declares them, for callers that want numbers and counts as they come. All are safe to call with pointers that
/// hold for the lengths beside them and do not overlap.
pub mod sys {
    #![allow(missing_docs)]
    use super::Plan;

    /// A constructor's answer: 0 and the plan, or a refusal and a plan of zeros.
    #[repr(C)]
    #[derive(Clone, Copy, Debug, PartialEq, Eq)]
    pub struct Made {
        pub answer: u8,
        pub plan: Plan,
    }

    extern "C" {
        pub fn fumizhaki_plan_of(n: usize, t: usize, shifts: *const u16, shifts_length: usize) -> Made;
        pub fn fumizhaki_straight(n: usize, t: usize) -> Made;
        pub fn fumizhaki_powers(n: usize, t: usize, q: usize) -> Made;
        pub fn fumizhaki_ruler(n: usize) -> Made;
        pub fn fumizhaki_verdict(plan: Plan) -> u8;
        pub fn fumizhaki_message_count(plan: Plan, count: *mut usize) -> u8;
        pub fn fumizhaki_figures(plan: Plan, parity: *mut usize, pair: *mut usize, neighbour: *mut usize, distance: *mut usize) -> u8;
        pub fn fumizhaki_erasure_count(plan: Plan, marks: *const u8, marks_length: usize, count: *mut usize) -> u8;
        pub fn fumizhaki_recover(
            plan: Plan,
            block: *mut u8,
            block_length: usize,
            marks: *const u8,
            marks_length: usize,
            witness: *mut u16,
            witness_length: usize,
            count: *mut usize,
        ) -> u8;
        pub fn fumizhaki_fetch(plan: Plan, marks: *const u8, marks_length: usize, list: *mut u8, list_length: usize, count: *mut usize) -> u8;
        pub fn fumizhaki_encode(plan: Plan, message: *const u8, message_length: usize, block: *mut u8, block_length: usize) -> u8;
        pub fn fumizhaki_message_of(plan: Plan, block: *const u8, block_length: usize, message: *mut u8, message_length: usize) -> u8;
    }
}

/// n sections of t symbols and the shift of each section. The fields are public: every call tests them, and entries of `shifts` past n
/// influence nothing.
#[repr(C)]
#[derive(Clone, Copy, Debug, PartialEq, Eq)]
pub struct Plan {
    /// number of sections, 2 to 32
    pub n: usize,
    /// symbols per section, 1 to 2,048; n × t is at most 32,768
    pub t: usize,
    /// the first n are the shifts, each below t
    pub shifts: [u16; 32],
}

/// Why a call was turned away, by document 01's table. Each leaves every buffer as it was.
#[derive(Clone, Copy, Debug, PartialEq, Eq)]
pub enum Refusal {
    /// 1: n, t or n × t out of bounds
    Size,
    /// 2: not n shifts, or one is t or more
    Shift,
    /// 3: a lent buffer's length is not the plan's
    Length,
    /// 4: a spare mark bit is 1
    Spare,
    /// 5: the block is no codeword (by [`Plan::message_of`] alone; recovery answers [`Recovery::Crossed`])
    Crossed,
    /// 10: the family has no such plan
    Family,
    /// a number that this crate does not know
    Other(u8),
}

impl Refusal {
    /// The refusal's number in document 01's table.
    pub fn number(self) -> u8 {
        match self {
            Refusal::Size => 1,
            Refusal::Shift => 2,
            Refusal::Length => 3,
            Refusal::Spare => 4,
            Refusal::Crossed => 5,
            Refusal::Family => 10,
            Refusal::Other(number) => number,
        }
    }

    fn of(number: u8) -> Refusal {
        let known = [Refusal::Size, Refusal::Shift, Refusal::Length, Refusal::Spare, Refusal::Crossed, Refusal::Family];
        known.into_iter().find(|refusal| refusal.number() == number).unwrap_or(Refusal::Other(number))
    }
}

impl fmt::Display for Refusal {
    fn fmt(&self, out: &mut fmt::Formatter) -> fmt::Result {
        let word = match self {
            Refusal::Size => "size",
            Refusal::Shift => "shift",
            Refusal::Length => "length",
            Refusal::Spare => "spare",
            Refusal::Crossed => "crossed",
            Refusal::Family => "family",
            Refusal::Other(_) => "unknown",
        };
        write!(out, "refused {} {word}", self.number())
    }
}

impl std::error::Error for Refusal {}

/// What recovery found. The list is the used part of the lent witness list; all entries past it are 0.
#[derive(Clone, Copy, Debug, PartialEq, Eq)]
pub enum Recovery<'w> {
    /// 0: one codeword agrees with the unmarked symbols, and the block is that codeword now
    Recovered,
    /// 5: none agrees; these rows cannot all be made 0 by any filling. The block is as it was.
    Crossed(&'w [u16]),
    /// 6: two or more agree; these marked places are a cycle, the lowest first. The block is as it was.
    Loose(&'w [u16]),
}

impl Recovery<'_> {
    /// The outcome's number in document 01's table; success is 0.
    pub fn number(&self) -> u8 {
        match self {
            Recovery::Recovered => 0,
            Recovery::Crossed(_) => 5,
            Recovery::Loose(_) => 6,
        }
    }
}

/// The four figures of a plan.
#[derive(Clone, Copy, Debug, Default, PartialEq, Eq)]
pub struct Figures {
    /// number of parity places
    pub parity: usize,
    /// so many erasures within any two sections are never loose
    pub pair: usize,
    /// the same within any two neighbouring sections: j and j + 1, and for n of 3 or more also n - 1 and 0
    pub neighbour: usize,
    /// least number of nonzero symbols in a nonzero codeword
    pub distance: usize,
}

/// How long a plan's buffers are, each in its own entries.
#[derive(Clone, Copy, Debug, PartialEq, Eq)]
pub struct Lengths {
    /// symbols of a block
    pub block: usize,
    /// bytes of the marks
    pub marks: usize,
    /// entries of a witness list
    pub witness: usize,
    /// symbols of a message
    pub message: usize,
}

fn done(answer: u8) -> Result<(), Refusal> {
    if answer == 0 {
        Ok(())
    } else {
        Err(Refusal::of(answer))
    }
}

fn plan_of(made: sys::Made) -> Result<Plan, Refusal> {
    done(made.answer).map(|()| made.plan)
}

// In every call below a pointer and its length come from one slice, and the borrow checker keeps what is written apart from all else.
impl Plan {
    /// A plan of these shifts, or refusal 1 or 2.
    pub fn of(n: usize, t: usize, shifts: &[u16]) -> Result<Plan, Refusal> {
        plan_of(unsafe { sys::fumizhaki_plan_of(n, t, shifts.as_ptr(), shifts.len()) })
    }

    /// Shift j is j; refusal 1, or 10 if n is above t.
    pub fn straight(n: usize, t: usize) -> Result<Plan, Refusal> {
        plan_of(unsafe { sys::fumizhaki_straight(n, t) })
    }

    /// Shift j is q to the j, mod t; refusal 1, or 10 unless n is from 3 to t, q at least 2, and t shares no factor with q nor with q - 1.
    pub fn powers(n: usize, t: usize, q: usize) -> Result<Plan, Refusal> {
        plan_of(unsafe { sys::fumizhaki_powers(n, t, q) })
    }

    /// The table's ruler with n marks; refusal 1, or 10 unless n is from 3 to 14.
    pub fn ruler(n: usize) -> Result<Plan, Refusal> {
        plan_of(unsafe { sys::fumizhaki_ruler(n) })
    }

    /// Whether the calls take this plan: refusal 1 or 2 if not.
    pub fn verdict(&self) -> Result<(), Refusal> {
        done(unsafe { sys::fumizhaki_verdict(*self) })
    }

    /// The number of message places; refusal 1 or 2.
    pub fn message_count(&self) -> Result<usize, Refusal> {
        let mut count = 0;
        done(unsafe { sys::fumizhaki_message_count(*self, &mut count) }).map(|()| count)
    }

    /// The lengths of the plan's buffers; refusal 1 or 2.
    pub fn lengths(&self) -> Result<Lengths, Refusal> {
        let message = self.message_count()?;
        let block = self.n * self.t;
        Ok(Lengths { block, marks: block.div_ceil(8), witness: 2 * self.t, message })
    }

    /// The plan's figures; refusal 1 or 2.
    pub fn figures(&self) -> Result<Figures, Refusal> {
        let mut f = Figures::default();
        done(unsafe { sys::fumizhaki_figures(*self, &mut f.parity, &mut f.pair, &mut f.neighbour, &mut f.distance) }).map(|()| f)
    }

    /// The number of marked places; refusals 1 to 4.
    pub fn erasure_count(&self, marks: &[u8]) -> Result<usize, Refusal> {
        let mut count = 0;
        done(unsafe { sys::fumizhaki_erasure_count(*self, marks.as_ptr(), marks.len(), &mut count) }).map(|()| count)
    }

    /// Fills in the marked places of `block`, or shows in `witness` why that cannot be done. Refusals 1 to 4 touch nothing; every other call writes
    /// all of `witness`: the list and then zeros, or zeros alone where the block is recovered.
    pub fn recover<'w>(&self, block: &mut [u8], marks: &[u8], witness: &'w mut [u16]) -> Result<Recovery<'w>, Refusal> {
        let mut count = 0;
        let answer = unsafe {
            sys::fumizhaki_recover(
                *self,
                block.as_mut_ptr(),
                block.len(),
                marks.as_ptr(),
                marks.len(),
                witness.as_mut_ptr(),
                witness.len(),
                &mut count,
            )
        };
        match answer {
            0 => Ok(Recovery::Recovered),
            5 => Ok(Recovery::Crossed(&witness[..count])),
            6 => Ok(Recovery::Loose(&witness[..count])),
            refused => Err(Refusal::of(refused)),
        }
    }

    /// The fetch list: the marked places that are the lowest of some cycle of marked places, as mark bits of its own; counts them. Without their
    /// marks no cycle is left, and no set of fewer places does that. Refusals 1 to 4 leave `list` as it was; every other call writes all of it.
    pub fn fetch(&self, marks: &[u8], list: &mut [u8]) -> Result<usize, Refusal> {
        let mut count = 0;
        done(unsafe { sys::fumizhaki_fetch(*self, marks.as_ptr(), marks.len(), list.as_mut_ptr(), list.len(), &mut count) }).map(|()| count)
    }

    /// Writes to `block` the one codeword that carries `message`. There is one for every message. Refusals 1 to 3 leave `block` as it was.
    pub fn encode(&self, message: &[u8], block: &mut [u8]) -> Result<(), Refusal> {
        done(unsafe { sys::fumizhaki_encode(*self, message.as_ptr(), message.len(), block.as_mut_ptr(), block.len()) })
    }

    /// Writes to `message` what the codeword `block` carries; refusals 1 to 3, and 5 if the block is no codeword, leave `message` as it was.
    pub fn message_of(&self, block: &[u8], message: &mut [u8]) -> Result<(), Refusal> {
        done(unsafe { sys::fumizhaki_message_of(*self, block.as_ptr(), block.len(), message.as_mut_ptr(), message.len()) })
    }
}

#[cfg(test)]
mod tests {
    use super::*;

    fn marked(plan: &Plan, places: &[usize]) -> Vec<u8> {
        let mut marks = vec![0; plan.lengths().unwrap().marks];
        for c in places {
            marks[c / 8] |= 1 << (c % 8);
        }
        marks
    }

    #[test]
    fn numbers_come_back() {
        for number in 1..=255 {
            assert_eq!(Refusal::of(number).number(), number);
        }
        assert_eq!(Refusal::of(3), Refusal::Length);
        assert_eq!(Refusal::of(11), Refusal::Other(11));
        assert_eq!(Refusal::of(12), Refusal::Other(12));
        assert_eq!(Refusal::Spare.to_string(), "refused 4 spare");
    }

    #[test]
    fn plans() {
        assert_eq!(Plan::of(3, 7, &[0, 1, 3]), Plan::ruler(3));
        assert_eq!(Plan::powers(3, 7, 2).map(|plan| plan.shifts[..3].to_vec()), Ok(vec![1, 2, 4]));
        assert_eq!(Plan::straight(3, 7).map(|plan| plan.shifts[..3].to_vec()), Ok(vec![0, 1, 2]));
        assert_eq!(Plan::of(33, 7, &[]), Err(Refusal::Size));
        assert_eq!(Plan::of(2, 7, &[0, 7]), Err(Refusal::Shift));
        assert_eq!(Plan::of(2, 7, &[]), Err(Refusal::Shift));
        assert_eq!(Plan::powers(3, 6, 5), Err(Refusal::Family));
        assert_eq!(Plan::straight(3, 2), Err(Refusal::Family));
        assert_eq!(Plan::ruler(15), Err(Refusal::Family));
        assert_eq!(Plan::ruler(usize::MAX), Err(Refusal::Size));
        let wild = Plan { n: usize::MAX, t: usize::MAX, shifts: [u16::MAX; 32] };
        assert_eq!((wild.verdict(), wild.lengths(), wild.figures()), (Err(Refusal::Size), Err(Refusal::Size), Err(Refusal::Size)));
        assert_eq!(Plan { n: 2, t: 3, shifts: [3; 32] }.verdict(), Err(Refusal::Shift));
    }

    #[test]
    fn figures_and_counts() {
        let plan = Plan::ruler(3).unwrap();
        assert_eq!(plan.verdict(), Ok(()));
        assert_eq!(plan.figures(), Ok(Figures { parity: 13, pair: 13, neighbour: 13, distance: 6 }));
        assert_eq!(plan.lengths(), Ok(Lengths { block: 21, marks: 3, witness: 14, message: 8 }));
        assert_eq!(plan.erasure_count(&marked(&plan, &[0, 7, 20])), Ok(3));
        assert_eq!(plan.erasure_count(&[0, 0]), Err(Refusal::Length));
        assert_eq!(plan.erasure_count(&[0, 0, 0x20]), Err(Refusal::Spare));
    }

    // the four results of document 01's job
    #[test]
    fn the_three_outcomes() {
        let plan = Plan::ruler(3).unwrap();
        let (mut block, mut witness) = ([0; 21], [9; 14]);
        let ring = [0, 7, 16, 2, 10, 17];
        let found = plan.recover(&mut block, &marked(&plan, &ring), &mut witness).unwrap();
        assert_eq!((found, found.number()), (Recovery::Loose(&[0, 7, 16, 2, 10, 17]), 6));
        assert_eq!((block, &witness[6..]), ([0; 21], &[0; 8][..]));
        block[0] = 5;
        let found = plan.recover(&mut block, &marked(&plan, &ring[1..]), &mut witness).unwrap();
        assert_eq!((found, found.number()), (Recovery::Recovered, 0));
        assert_eq!((block[17], witness), (5, [0; 14]));
        block[0] = 0;
        let found = plan.recover(&mut block, &[0; 3], &mut witness).unwrap();
        assert_eq!((found, found.number()), (Recovery::Crossed(&[0]), 5));
        witness = [9; 14];
        assert_eq!(plan.recover(&mut block[1..], &[0; 3], &mut witness), Err(Refusal::Length));
        assert_eq!(witness, [9; 14]);
    }

    #[test]
    fn fetch_lists() {
        let plan = Plan::ruler(3).unwrap();
        let mut list = [0xFF; 3];
        assert_eq!((plan.fetch(&[0xFF, 0xFF, 0x1F], &mut list), list), (Ok(8), [0xFF, 0, 0]));
        assert_eq!((plan.fetch(&marked(&plan, &[0, 7, 16, 2, 10, 17]), &mut list), list), (Ok(1), [1, 0, 0]));
        list = [0xFF; 3];
        assert_eq!((plan.fetch(&[0; 3], &mut list), list), (Ok(0), [0; 3]));
        list = [0xFF; 3];
        assert_eq!(plan.fetch(&[0, 0, 0x20], &mut list), Err(Refusal::Spare));
        assert_eq!(plan.fetch(&[0, 0, 0x20], &mut list[1..]), Err(Refusal::Length));
        assert_eq!(plan.fetch(&[0, 0], &mut list), Err(Refusal::Length));
        assert_eq!(Plan { t: 3, ..plan }.fetch(&[0, 0], &mut list), Err(Refusal::Shift));
        assert_eq!(Plan { n: 1, ..plan }.fetch(&[0, 0], &mut list), Err(Refusal::Size));
        assert_eq!(list, [0xFF; 3]);
        // two cycles
        let plan = Plan::of(2, 4, &[0, 2]).unwrap();
        assert_eq!((plan.fetch(&[0xFF], &mut list[..1]), list), (Ok(2), [3, 0xFF, 0xFF]));
    }

    #[test]
    fn messages() {
        let plan = Plan::of(2, 3, &[0, 1]).unwrap();
        let (mut block, mut message) = ([0; 6], [0]);
        assert_eq!(plan.encode(&[9], &mut block), Ok(()));
        assert_eq!(block, [9; 6]);
        assert_eq!((plan.message_of(&block, &mut message), message), (Ok(()), [9]));
        block[5] = 8;
        assert_eq!((plan.message_of(&block, &mut message), message), (Err(Refusal::Crossed), [9]));
        assert_eq!(plan.encode(&[], &mut block), Err(Refusal::Length));
        assert_eq!(block, [9, 9, 9, 9, 9, 8]);
    }
}
