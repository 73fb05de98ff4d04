//! Differential tests: the library's C entry points, and the safe Rust layer over them, beside a second implementation (`reference`); then the desk
//! program beside a second implementation of the job (`job`).
//!
//! Every case compares the answer's number, the count and all of every lent buffer, with the memory on both sides of it. Buffers, counts and records hold
//! something else before the call. The run is fixed by its seed (first argument, else the one below). It ends with status 1 if
//! one case differs or if an outcome was met too seldom.

mod cases;
mod desk;
mod job;
mod job_cases;
mod prng;
#[path = "../../desk/src/program.rs"]
mod program;
mod reference;

use cases::{NO_PLAN, SIZES};
use fumizhaki::{sys, Figures, Plan, Recovery, Refusal};
use prng::Prng;
use reference::{Code, Left};
use std::collections::BTreeMap;

const SEED: u64 = 20_261_115;
const MARGIN: usize = 16;

/// Every outcome that must be met: entry, numbers.
const OUTCOMES: [(&str, &[u8]); 17] = [
    ("plan_of", &[0, 1, 2]),
    ("straight", &[0, 1, 10]),
    ("powers", &[0, 1, 10]),
    ("ruler", &[0, 1, 10]),
    ("verdict", &[0, 1, 2]),
    ("message_count", &[0, 1, 2]),
    ("figures", &[0, 1, 2]),
    // plans whose neighbour figure is that of the last section and the first alone
    ("figures, drum", &[0]),
    ("erasure_count", &[0, 1, 2, 3, 4]),
    ("recover", &[0, 1, 2, 3, 4, 5, 6]),
    // lists with a place in them, empty ones, and those of marks at all places
    ("fetch", &[0, 1, 2, 3, 4]),
    ("fetch, empty", &[0]),
    ("fetch, all", &[0]),
    // messages of any symbols, of 0 alone and of 255 alone
    ("encode", &[0, 1, 2, 3]),
    ("encode, 0", &[0]),
    ("encode, 255", &[0]),
    ("message_of", &[0, 1, 2, 3, 5]),
];
/// Cases of each outcome at least; of encoded messages, by their kind, so many at each size.
const EACH: usize = 300;
/// Cases of recovered, crossed and loose, of lists with places and of empty ones, at each size at least.
const EACH_SIZE: usize = 100;
/// Cases in all at least.
const IN_ALL: usize = 200_000;

/// n, t and size of plans at the bounds.
const BOUNDS: [(usize, usize, usize); 8] =
    [(2, 1, 0), (3, 1, 0), (2, 2, 0), (32, 1, 1), (2, 2_048, 3), (16, 2_048, 4), (32, 1_024, 4), (32, 1_023, 4)];

/// Where the lowest place of a shown ring lies, by n, t and the place: each is met as often as an outcome. It is never in the last section: the place after it
/// in the ring has its offset, in a section further on.
const RINGS: [(&str, fn(usize, usize, usize) -> bool); 5] = [
    ("section 0, offset 0", |n, t, c| n > 2 && t > 1 && c == 0),
    ("section 0, offset t - 1", |n, t, c| n > 2 && t > 1 && c == t - 1),
    ("section n - 2, offset 0", |n, t, c| n > 2 && t > 1 && c == (n - 2) * t),
    ("section n - 2, offset t - 1", |n, t, c| n > 2 && t > 1 && c == (n - 2) * t + t - 1),
    ("t of 1", |_, t, _| t == 1),
];

/// A plan with equal shifts, 0 or as large as they can be, or with shifts that rise by one.
fn at_bounds(n: usize, t: usize, kind: usize) -> Plan {
    let mut plan = Plan { n, t, shifts: [u16::MAX; 32] };
    (0..n).for_each(|j| plan.shifts[j] = [0, t - 1, j % t][kind] as u16);
    plan
}

/// A buffer with memory before and after it that a call must leave alone.
#[derive(Clone, PartialEq, Debug)]
struct Lent<T>(Vec<T>);

impl<T: Copy + Default> Lent<T> {
    fn of(content: &[T], edge: T) -> Lent<T> {
        let edges = [edge; MARGIN];
        Lent([&edges[..], content, &edges[..]].concat())
    }

    fn inner(&mut self) -> &mut [T] {
        let end = self.0.len() - MARGIN;
        &mut self.0[MARGIN..end]
    }
}

/// A plan in few words.
fn show(plan: &Plan) -> String {
    format!("n {} t {} shifts {:?}", plan.n, plan.t, &plan.shifts[..plan.n.min(32)])
}

struct Run {
    rng: Prng,
    cases: BTreeMap<(&'static str, u8), [usize; 6]>,
    rings: [usize; RINGS.len()],
    mismatches: usize,
}

type Raw = unsafe extern "C" fn(Plan, *const u8, usize, *mut u8, usize) -> u8;
type Safe = fn(&Plan, &[u8], &mut [u8]) -> Result<(), Refusal>;

impl Run {
    /// Counts a case under the number that the reference expects, and reports it if the two differ.
    fn hold<T: PartialEq + std::fmt::Debug>(&mut self, entry: &'static str, size: usize, number: u8, what: impl Fn() -> String, got: &T, wanted: &T) {
        self.cases.entry((entry, number)).or_default()[size] += 1;
        if got != wanted {
            self.mismatches += 1;
            if self.mismatches <= 10 {
                let cut = |text: String| text.chars().take(400).collect::<String>();
                println!("MISMATCH {entry}: {}\n  library   {}\n  reference {}", cut(what()), cut(format!("{got:?}")), cut(format!("{wanted:?}")));
            }
        }
    }

    // ---- plans

    fn made(&mut self, entry: &'static str, what: String, raw: sys::Made, safe: Result<Plan, Refusal>, wanted: reference::Made) {
        let (number, n, t, shifts) = wanted;
        let plan = Plan { n, t, shifts };
        let safe = safe.map_err(Refusal::number);
        let got = (raw.answer, raw.plan, safe);
        self.hold(entry, NO_PLAN, number, || what.clone(), &got, &(number, plan, if number == 0 { Ok(plan) } else { Err(number) }));
    }

    fn constructors(&mut self, n: usize, t: usize, q: usize, shifts: &[u16]) {
        let raw = unsafe { sys::fumizhaki_plan_of(n, t, shifts.as_ptr(), shifts.len()) };
        self.made("plan_of", format!("{n} {t} {shifts:?}"), raw, Plan::of(n, t, shifts), reference::plan_of(n, t, shifts));
        let raw = unsafe { sys::fumizhaki_straight(n, t) };
        self.made("straight", format!("{n} {t}"), raw, Plan::straight(n, t), reference::straight(n, t));
        let raw = unsafe { sys::fumizhaki_powers(n, t, q) };
        self.made("powers", format!("{n} {t} {q}"), raw, Plan::powers(n, t, q), reference::powers(n, t, q));
        let raw = unsafe { sys::fumizhaki_ruler(n) };
        self.made("ruler", format!("{n}"), raw, Plan::ruler(n), reference::ruler(n));
    }

    fn some_constructors(&mut self) {
        let rng = &mut self.rng;
        let (mut n, mut t, q) = (cases::wild(rng), cases::wild(rng), cases::wild(rng));
        if !rng.once_in(4) {
            let size = rng.below(NO_PLAN);
            let plan = cases::good_plan(rng, size);
            (n, t) = (plan.n, plan.t);
        }
        // most t share a factor with q or q - 1; an odd one and q = 2 do not
        let (t, q) = if rng.once_in(3) { (t | 1, 2) } else { (t, q) };
        let mut shifts = rng.words(n.min(40));
        if t <= usize::from(u16::MAX) {
            shifts.iter_mut().for_each(|p| *p = (usize::from(*p) % t.max(1)) as u16);
        }
        match rng.below(8) {
            0 => shifts.push(0),
            1 => drop(shifts.pop()),
            2 if !shifts.is_empty() => {
                let j = rng.below(shifts.len());
                shifts[j] = rng.pick(&[t as u16, u16::MAX]);
            }
            _ => (),
        }
        self.constructors(n, t, q, &shifts);
    }

    // ---- calls on a plan alone

    fn plan_alone(&mut self, plan: &Plan, code: Result<&Code, u8>, size: usize) {
        let number = code.err().unwrap_or(0);
        let answer = |number| if number == 0 { Ok(()) } else { Err(number) };
        let what = || show(plan);

        let got = (unsafe { sys::fumizhaki_verdict(*plan) }, plan.verdict().map_err(Refusal::number));
        self.hold("verdict", size, number, what, &got, &(number, answer(number)));

        let count = code.map_or(0, |code| code.message_places.len());
        let mut counted = usize::MAX;
        let raw = unsafe { sys::fumizhaki_message_count(*plan, &mut counted) };
        let got = (raw, counted, plan.message_count().map_err(Refusal::number));
        self.hold("message_count", size, number, what, &got, &(number, count, answer(number).map(|()| count)));

        let [parity, pair, neighbour, distance] = code.map_or([0; 4], Code::figures);
        let mut f = [usize::MAX; 4];
        let [a, b, c, d] = &mut f;
        let raw = unsafe { sys::fumizhaki_figures(*plan, a, b, c, d) };
        let got = (raw, f, plan.figures().map_err(Refusal::number));
        let wanted = Figures { parity, pair, neighbour, distance };
        let entry = if code.is_ok_and(Code::closed_by_drum) { "figures, drum" } else { "figures" };
        self.hold(entry, size, number, what, &got, &(number, [parity, pair, neighbour, distance], answer(number).map(|()| wanted)));
    }

    // ---- calls with buffers

    fn erasure_count(&mut self, plan: &Plan, code: Result<&Code, u8>, size: usize, marks: &[u8]) {
        let wanted = reference::erasure_count(code, marks);
        let mut lent = Lent::of(marks, 0xFF);
        let before = lent.clone();
        let mut count = usize::MAX;
        let number = unsafe { sys::fumizhaki_erasure_count(*plan, lent.inner().as_ptr(), marks.len(), &mut count) };
        let safe = plan.erasure_count(marks).map_err(Refusal::number);
        let got = (number, count, safe, lent);
        let expected = (wanted.number, wanted.count, if wanted.number == 0 { Ok(wanted.count) } else { Err(wanted.number) }, before);
        self.hold("erasure_count", size, wanted.number, || format!("{}, marks {marks:?}", show(plan)), &got, &expected);
    }

    fn recover(&mut self, plan: &Plan, code: Result<&Code, u8>, size: usize, block: &[u8], marks: &[u8], witness: &[u16]) {
        let Left { number, count, written } = reference::recover(code, block, marks, witness);
        if number == 6 {
            let first = usize::from(written.1[0]);
            RINGS.iter().zip(&mut self.rings).for_each(|((_, here), met)| *met += usize::from(here(plan.n, plan.t, first)));
        }
        let edge = self.rng.next();
        let lend = |block: &[u8], witness: &[u16]| (Lent::of(block, edge as u8), Lent::of(marks, edge as u8), Lent::of(witness, edge as u16));
        let wanted_after = lend(&written.0, &written.1);

        let mut lent = lend(block, witness);
        let mut counted = usize::MAX;
        let (b, m, w) = (lent.0.inner(), lent.1.inner(), lent.2.inner());
        let raw = unsafe { sys::fumizhaki_recover(*plan, b.as_mut_ptr(), b.len(), m.as_ptr(), m.len(), w.as_mut_ptr(), w.len(), &mut counted) };

        let mut again = lend(block, witness);
        let (safe, list) = match plan.recover(again.0.inner(), again.1.inner(), again.2.inner()) {
            Ok(found) => match found {
                Recovery::Recovered => (found.number(), vec![]),
                Recovery::Crossed(list) | Recovery::Loose(list) => (found.number(), list.to_vec()),
            },
            Err(refusal) => (refusal.number(), vec![]),
        };
        let got = (raw, counted, safe, list, lent, again);
        let expected = (number, count, number, written.1[..count].to_vec(), wanted_after.clone(), wanted_after);
        self.hold("recover", size, number, || format!("{}, block {block:?}, marks {marks:?}", show(plan)), &got, &expected);
    }

    fn fetch(&mut self, plan: &Plan, code: Result<&Code, u8>, size: usize, marks: &[u8], list: &[u8]) {
        let Left { number, count, written } = reference::fetch(code, marks, list);
        let edge = self.rng.next() as u8;
        let lend = |list: &[u8]| (Lent::of(marks, edge), Lent::of(list, edge));
        let mut lent = lend(list);
        let mut counted = usize::MAX;
        let (m, l) = (lent.0.inner(), lent.1.inner());
        let raw = unsafe { sys::fumizhaki_fetch(*plan, m.as_ptr(), m.len(), l.as_mut_ptr(), l.len(), &mut counted) };
        let mut again = lend(list);
        let safe = plan.fetch(again.0.inner(), again.1.inner()).map_err(Refusal::number);
        let entry = match (number, code) {
            (0, Ok(code)) if reference::bits(marks, code.places()).iter().all(|marked| *marked) => "fetch, all",
            (0, _) if count == 0 => "fetch, empty",
            _ => "fetch",
        };
        let got = (raw, counted, safe, lent, again);
        let after = lend(&written);
        let expected = (number, count, if number == 0 { Ok(count) } else { Err(number) }, after.clone(), after);
        self.hold(entry, size, number, || format!("{}, marks {marks:?}, list {list:?}", show(plan)), &got, &expected);
    }

    fn encode(&mut self, plan: &Plan, code: Result<&Code, u8>, size: usize, message: &[u8], block: &[u8]) {
        let wanted = reference::encode(code, message, block);
        let all = |symbol: u8| wanted.number == 0 && message.iter().all(|x| *x == symbol);
        let entry = if all(0) { "encode, 0" } else if all(255) { "encode, 255" } else { "encode" };
        self.written(entry, plan, size, sys::fumizhaki_encode, Plan::encode, wanted, message, block);
    }

    fn message_of(&mut self, plan: &Plan, code: Result<&Code, u8>, size: usize, block: &[u8], message: &[u8]) {
        let wanted = reference::message_of(code, block, message);
        self.written("message_of", plan, size, sys::fumizhaki_message_of, Plan::message_of, wanted, block, message);
    }

    // An entry that reads one buffer and writes another: by C and by the bindings, both buffers compared whole.
    #[allow(clippy::too_many_arguments)]
    fn written(&mut self, entry: &'static str, plan: &Plan, size: usize, c: Raw, rust: Safe, wanted: Left<Vec<u8>>, read: &[u8], write: &[u8]) {
        let lend = |write: &[u8]| (Lent::of(read, 1), Lent::of(write, 2));
        let mut lent = lend(write);
        let (r, w) = (lent.0.inner(), lent.1.inner());
        let raw = unsafe { c(*plan, r.as_ptr(), r.len(), w.as_mut_ptr(), w.len()) };
        let mut again = lend(write);
        let safe = rust(plan, again.0.inner(), again.1.inner()).map_or_else(Refusal::number, |()| 0);
        let after = lend(&wanted.written);
        let expected = (wanted.number, wanted.number, after.clone(), after);
        self.hold(entry, size, wanted.number, || format!("{}, read {read:?}", show(plan)), &(raw, safe, lent, again), &expected);
    }

    // ---- what is tried on a plan

    /// One accepted plan: its figures, `turns` recoveries, some messages and fetch lists, and a refusal of each kind.
    fn accepted(&mut self, size: usize, turns: usize) {
        let plan = cases::good_plan(&mut self.rng, size);
        let built = Code::of(&plan);
        let code = Ok(&built);
        self.plan_alone(&plan, code, size);
        for symbol in [0, 255] {
            let block = self.rng.bytes(built.places());
            self.encode(&plan, code, size, &vec![symbol; built.message_places.len()], &block);
        }
        let mut codeword = vec![0; built.places()];
        for turn in 0..turns {
            if turn % 3 == 0 {
                let message = cases::symbols(&mut self.rng, built.message_places.len());
                let (block, space) = (self.rng.bytes(built.places()), self.rng.bytes(message.len()));
                self.encode(&plan, code, size, &message, &block);
                codeword = built.encode(&message);
                self.message_of(&plan, code, size, &codeword, &space);
                let damaged = cases::block(&mut self.rng, &codeword, &vec![false; built.places()]);
                self.message_of(&plan, code, size, &damaged, &space);
            }
            let marked = cases::marks(&mut self.rng, &built);
            let block = cases::block(&mut self.rng, &codeword, &marked);
            let marks = cases::to_bytes(&marked);
            let witness = self.rng.words(2 * plan.t);
            self.recover(&plan, code, size, &block, &marks, &witness);
            self.erasure_count(&plan, code, size, &marks);
            if turn % 2 == 0 {
                let list = self.rng.bytes(marks.len());
                self.fetch(&plan, code, size, &marks, &list);
            }
        }
        self.refused(&plan, code, size);
    }

    /// Wrong lengths: each buffer alone, then several; and each spare bit alone.
    fn refused(&mut self, plan: &Plan, code: Result<&Code, u8>, size: usize) {
        let several = 1 + self.rng.below(15);
        for wrong in [1, 2, 4, 8, several] {
            self.lengths(plan, code, size, wrong);
        }
        self.fetch_lengths(plan, code, size);
        let Ok(code) = code else { return };
        let spare = (8 - code.places() % 8) % 8;
        let (block, witness) = (self.rng.bytes(code.places()), self.rng.words(2 * code.t));
        let mut marks = self.rng.bytes(code.places().div_ceil(8));
        for bit in 8 - spare..8 {
            let last = marks.len() - 1;
            marks[last] = marks[last] & (0xFF >> spare) | 1 << bit;
            self.recover(plan, Ok(code), size, &block, &marks, &witness);
            self.erasure_count(plan, Ok(code), size, &marks);
            let list = self.rng.bytes(marks.len());
            self.fetch(plan, Ok(code), size, &marks, &list);
        }
    }

    /// Marks and list of the plan's length, of none, of one less and of one more, with every spare bit 0 and with every one 1: each refusal alone and
    /// with all that come after it. Where nothing refuses, every other place or so is marked.
    fn fetch_lengths(&mut self, plan: &Plan, code: Result<&Code, u8>, size: usize) {
        let places = if plan.n <= 40 && plan.t <= 2_100 { plan.n * plan.t } else { self.rng.below(100) };
        let right = places.div_ceil(8);
        let used = 0xFF >> (8 * right - places);
        let lengths = [right, 0, right.saturating_sub(1), right + 1];
        let spares = if used == 0xFF { &[0][..] } else { &[0, !used] };
        for (of_marks, of_list) in lengths.into_iter().flat_map(|m| lengths.map(|l| (m, l))) {
            for spare in spares {
                let (mut marks, list) = (self.rng.bytes(of_marks), self.rng.bytes(of_list));
                marks.last_mut().into_iter().for_each(|last| *last = *last & used | spare);
                self.fetch(plan, code, size, &marks, &list);
            }
        }
    }

    /// No marks, all marks, and all but the lowest or the highest, at the bounds of n and t, with equal shifts and with others.
    fn fetch_at_bounds(&mut self) {
        for (n, t, size) in BOUNDS {
            for kind in 0..3 {
                let plan = at_bounds(n, t, kind);
                let code = Code::of(&plan);
                let mut marked = vec![vec![false; n * t], vec![true; n * t], vec![true; n * t], vec![true; n * t]];
                marked[2][0] = false;
                marked[3][n * t - 1] = false;
                for marked in marked {
                    let marks = cases::to_bytes(&marked);
                    let list = self.rng.bytes(marks.len());
                    self.fetch(&plan, Ok(&code), size, &marks, &list);
                }
                // a ring of two is in every two sections of equal shifts, at each symbol
                let equal = (0..(n - 1) * t).collect::<Vec<_>>();
                assert!(kind == 2 || code.fetch(&vec![true; n * t]) == equal, "the reference's fetch list with equal shifts");
            }
        }
    }

    /// Rings that begin at the first and the last offset of the first section and of the last but one, at the bounds of n and t: of two places where shifts
    /// are equal, of two whole sections elsewhere.
    fn rings_at_bounds(&mut self) {
        for (n, t, size) in BOUNDS {
            for (kind, j, k) in (0..3).flat_map(|kind| [(kind, 0, 0), (kind, 0, t - 1), (kind, n - 2, 0), (kind, n - 2, t - 1)]) {
                let plan = at_bounds(n, t, kind);
                let code = Code::of(&plan);
                let offsets = if kind < 2 { k..k + 1 } else { 0..t };
                let first = j * t + offsets.start;
                let mut marked = vec![false; n * t];
                offsets.for_each(|k| [j, j + 1].iter().for_each(|j| marked[j * t + k] = true));
                let (block, marks, witness) = (vec![0; n * t], cases::to_bytes(&marked), self.rng.words(2 * t));
                let shown = reference::recover(Ok(&code), &block, &marks, &witness);
                assert!(shown.number == 6 && usize::from(shown.written.1[0]) == first, "the reference's ring does not begin at {first}");
                self.recover(&plan, Ok(&code), size, &block, &marks, &witness);
            }
        }
    }

    /// Buffers with anything in them; those that `wrong` has a bit for (block, marks, witness, message) have not the plan's length.
    fn lengths(&mut self, plan: &Plan, code: Result<&Code, u8>, size: usize, wrong: usize) {
        let rng = &mut self.rng;
        let places = if plan.n <= 40 && plan.t <= 2_100 { plan.n * plan.t } else { rng.below(100) };
        let rows = 2 * if plan.t <= 2_100 { plan.t } else { rng.below(50) };
        let mut lengths = [places, places.div_ceil(8), rows, code.map_or(rng.below(100), |code| code.message_places.len())];
        for i in (0..4).filter(|i| wrong >> i & 1 == 1) {
            lengths[i] = cases::wrong_length(rng, lengths[i]);
        }
        let [block, marks, witness, message] = lengths;
        let (block, marks, witness, message) = (rng.bytes(block), rng.bytes(marks), rng.words(witness), rng.bytes(message));
        self.recover(plan, code, size, &block, &marks, &witness);
        self.erasure_count(plan, code, size, &marks);
        self.encode(plan, code, size, &message, &block);
        self.message_of(plan, code, size, &block, &message);
    }

    /// Every plan with these n and t and every set of marks, on the zero block and on another one.
    fn exhaust(&mut self, n: usize, t: usize) {
        for number in 0..t.pow(n as u32) {
            let mut plan = Plan { n, t, shifts: [u16::MAX; 32] };
            (0..n).for_each(|j| plan.shifts[j] = (number / t.pow(j as u32) % t) as u16);
            let built = Code::of(&plan);
            self.plan_alone(&plan, Ok(&built), 0);
            for set in 0..1u32 << (n * t) {
                let marks = &set.to_le_bytes()[..(n * t).div_ceil(8)];
                let message = self.rng.bytes(built.message_places.len());
                let other = cases::block(&mut self.rng, &built.encode(&message), &reference::bits(marks, n * t));
                let witness = self.rng.words(2 * t);
                self.recover(&plan, Ok(&built), 0, &vec![0; n * t], marks, &witness);
                self.recover(&plan, Ok(&built), 0, &other, marks, &witness);
                let list = self.rng.bytes(marks.len());
                self.fetch(&plan, Ok(&built), 0, marks, &list);
            }
        }
    }

    fn all(&mut self) {
        for n in [0, 1, 2, 3, 14, 15, 31, 32, 33] {
            for t in [0, 1, 2, 6, 7, 1_023, 1_024, 1_025, 1_129, 1_130, 2_047, 2_048, 2_049] {
                for q in [0, 1, 2, 5] {
                    self.constructors(n, t, q, &(0..n as u16).collect::<Vec<_>>());
                }
            }
        }
        for n in 3..=14 {
            let (_, n, t, shifts) = reference::ruler(n);
            let plan = Plan { n, t, shifts };
            self.plan_alone(&plan, Ok(&Code::of(&plan)), if t <= 48 { 1 } else { 2 });
        }
        for (n, t) in [(2, 1), (2, 2), (2, 3), (2, 4), (3, 1), (3, 2), (3, 3), (4, 1), (4, 2), (5, 1)] {
            self.exhaust(n, t);
        }
        self.fetch_at_bounds();
        self.rings_at_bounds();
        for (size, plans, turns) in [(0, 4_000, 12), (1, 4_000, 15), (2, 900, 12), (3, 300, 12), (4, 300, 12)] {
            for _ in 0..plans {
                self.accepted(size, turns);
            }
        }
        for number in [1, 2].repeat(1_000) {
            let plan = cases::bad_plan(&mut self.rng, number);
            self.plan_alone(&plan, Err(number), NO_PLAN);
            self.lengths(&plan, Err(number), NO_PLAN, 0);
            self.refused(&plan, Err(number), NO_PLAN);
        }
        for _ in 0..6_000 {
            self.some_constructors();
        }
    }

    /// The table, and whether all is well.
    fn report(&self) -> bool {
        let line = |entry: &str, answer: &str, cells: [String; 6], sum: &str| {
            println!("{entry:<14} {answer:>6} {} {sum:>8}", cells.map(|cell| format!("{cell:>8}")).concat());
        };
        line("entry", "answer", SIZES.map(String::from), "cases");
        let (mut enough, mut total) = (true, 0);
        for (entry, numbers) in OUTCOMES {
            for number in numbers {
                let c = self.cases.get(&(entry, *number)).copied().unwrap_or_default();
                let sum: usize = c.iter().sum();
                total += sum;
                let decided = entry == "recover" && [0, 5, 6].contains(number) || ["fetch", "fetch, empty"].contains(&entry) && *number == 0;
                let each_size = if entry.starts_with("encode") && *number == 0 { EACH } else if decided { EACH_SIZE } else { 0 };
                let few = sum < EACH || c[..NO_PLAN].iter().any(|x| *x < each_size);
                enough &= !few;
                line(entry, &number.to_string(), c.map(|x| x.to_string()), &format!("{sum}{}", if few { " TOO FEW" } else { "" }));
            }
        }
        for ((begins, _), met) in RINGS.iter().zip(self.rings) {
            let few = met < EACH;
            enough &= !few;
            println!("rings from {begins:<28} {met:>8}{}", if few { " TOO FEW" } else { "" });
        }
        enough &= total >= IN_ALL;
        println!("{total} cases, {} mismatches", self.mismatches);
        enough && self.mismatches == 0
    }
}

fn main() {
    let seed = std::env::args().nth(1).map_or(SEED, |word| word.parse().expect("the seed is a number"));
    println!("differential tests, seed {seed}");
    let start = std::time::Instant::now();
    let mut run = Run { rng: Prng::of(seed), cases: BTreeMap::new(), rings: [0; RINGS.len()], mismatches: 0 };
    // the jobs are tried beside the cases
    let jobs = std::thread::spawn(move || desk::run(seed));
    run.all();
    let cases_well = run.report();
    let jobs_well = jobs.join().expect("the thread of all jobs").report();
    println!("{:.1} s", start.elapsed().as_secs_f64());
    if !(cases_well && jobs_well) {
        println!("differential tests FAILED");
        std::process::exit(1);
    }
}
