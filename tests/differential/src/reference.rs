//! The second implementation, written from document 01 and the journal paper (002) alone.
//!
//! Every question is answered in more than one way where its size allows, and the ways must agree: by the definition itself (all cycles, all fillings, all
//! codewords) for tiny codes, by Gaussian elimination over the columns of matrix (1) where its rows fit 128 bits, and by plain peeling,
//! flooding, halving and growing for all sizes.

use fumizhaki::Plan;
use std::collections::BinaryHeap;

const TOP: usize = 0;
const BOTTOM: usize = 1;

/// Marked places up to which all fillings are tried and all sets of them gone through, and dimension up to which all codewords are.
const FEW: usize = 11;
/// Marked places up to which a rank is found anew for each of them.
const SOME: usize = 24;

/// "Bounds: n from 2 to 32, t from 1 to 2,048, n × t at most 32,768".
fn size_fits(n: usize, t: usize) -> bool {
    (2..=32).contains(&n) && (1..=2048).contains(&t) && n as u128 * t as u128 <= 32_768
}

/// The largest number that divides t and every one of `numbers`, by trying all.
fn greatest_divisor(t: usize, numbers: &[usize]) -> usize {
    (1..=t).rev().find(|d| t % d == 0 && numbers.iter().all(|x| x % d == 0)).unwrap()
}

/// The rank of these columns over GF(2).
fn rank(mut columns: Vec<u128>) -> usize {
    let mut rank = 0;
    while let Some(pivot) = columns.pop() {
        if pivot != 0 {
            rank += 1;
            let row = pivot.ilog2();
            columns.iter_mut().filter(|column| **column >> row & 1 == 1).for_each(|column| *column ^= pivot);
        }
    }
    rank
}

// ---- plans

/// What a constructor answers: the number, and n, t and the shifts (all 0 where it refuses).
pub type Made = (u8, usize, usize, [u16; 32]);

fn made(n: usize, t: usize, shifts: &[u16]) -> Made {
    let mut all = [0; 32];
    all[..n].copy_from_slice(shifts);
    (0, n, t, all)
}

fn no_plan(number: u8) -> Made {
    (number, 0, 0, [0; 32])
}

pub fn plan_of(n: usize, t: usize, shifts: &[u16]) -> Made {
    if !size_fits(n, t) {
        no_plan(1)
    } else if shifts.len() != n || shifts.iter().any(|p| usize::from(*p) >= t) {
        no_plan(2)
    } else {
        made(n, t, shifts)
    }
}

pub fn straight(n: usize, t: usize) -> Made {
    match size_fits(n, t) {
        false => no_plan(1),
        true if n > t => no_plan(10),
        true => made(n, t, &(0..n as u16).collect::<Vec<_>>()),
    }
}

pub fn powers(n: usize, t: usize, q: usize) -> Made {
    if !size_fits(n, t) {
        return no_plan(1);
    }
    let shares = |x: usize| (2..=t).any(|d| t % d == 0 && x % d == 0);
    if n < 3 || n > t || q < 2 || shares(q) || shares(q - 1) {
        return no_plan(10);
    }
    let mut shifts = vec![1 % t as u128];
    while shifts.len() < n {
        shifts.push(shifts[shifts.len() - 1] * q as u128 % t as u128);
    }
    made(n, t, &shifts.iter().map(|p| *p as u16).collect::<Vec<_>>())
}

/// Table I of 002 as document 01 gives it.
const RULERS: [(usize, &[u16]); 12] = [
    (7, &[0, 1, 3]),
    (13, &[0, 1, 3, 9]),
    (21, &[4, 0, 1, 14, 16]),
    (31, &[0, 1, 3, 8, 12, 18]),
    (48, &[0, 1, 3, 15, 20, 38, 42]),
    (57, &[13, 36, 32, 1, 3, 43, 0, 52]),
    (73, &[0, 1, 3, 7, 15, 31, 36, 54, 63]),
    (91, &[61, 77, 81, 49, 3, 9, 27, 56, 1, 0]),
    (120, &[45, 58, 35, 114, 1, 20, 3, 74, 31, 0, 53]),
    (133, &[0, 1, 3, 12, 20, 38, 34, 81, 94, 88, 104, 109]),
    (168, &[1, 0, 121, 108, 103, 30, 11, 162, 83, 46, 3, 34, 147]),
    (183, &[0, 1, 3, 16, 23, 28, 42, 76, 82, 86, 119, 137, 154, 175]),
];

pub fn ruler(n: usize) -> Made {
    if !(2..=32).contains(&n) {
        no_plan(1)
    } else if !(3..=14).contains(&n) {
        no_plan(10)
    } else {
        let (t, shifts) = RULERS[n - 3];
        made(n, t, shifts)
    }
}

/// What refuses a plan: 1, then 2; 0 if nothing does. Entries past n influence nothing.
pub fn verdict(plan: &Plan) -> u8 {
    if !size_fits(plan.n, plan.t) {
        1
    } else if plan.shifts[..plan.n].iter().any(|p| usize::from(*p) >= plan.t) {
        2
    } else {
        0
    }
}

// ---- the code of an accepted plan

pub struct Code {
    pub n: usize,
    pub t: usize,
    pub shifts: Vec<usize>,
    /// top and bottom row of every place
    pub meets: Vec<[usize; 2]>,
    /// the lowest places of cycles, rising
    pub message_places: Vec<usize>,
}

/// How many codewords agree with a marked block, and what is to be shown of it.
#[derive(PartialEq, Eq, Debug, Clone)]
pub enum Agree {
    /// the rows of the component that 01 names
    None(Vec<usize>),
    One(Vec<u8>),
    /// the cycle of marked places whose lowest place is highest
    Two(Vec<usize>),
}

impl Code {
    pub fn of(plan: &Plan) -> Code {
        let (n, t) = (plan.n, plan.t);
        let shifts: Vec<usize> = plan.shifts[..n].iter().map(|p| usize::from(*p)).collect();
        // "It meets two rows: top row k, and bottom row t + ((k - p_j) mod t)."
        let meets = (0..n * t)
            .map(|c| {
                let (j, k) = (c / t, c % t);
                [k, t + (k as isize - shifts[j] as isize).rem_euclid(t as isize) as usize]
            })
            .collect();
        let mut code = Code { n, t, shifts, meets, message_places: vec![] };
        code.message_places = code.lowest_of_cycles();
        code
    }

    pub fn places(&self) -> usize {
        self.n * self.t
    }

    fn rows(&self) -> usize {
        2 * self.t
    }

    fn fits_128(&self) -> bool {
        self.rows() <= 128
    }

    /// The sum of every row over the places that are not marked.
    fn syndromes(&self, block: &[u8], marked: &[bool]) -> Vec<u8> {
        let mut sums = vec![0; self.rows()];
        for c in 0..self.places() {
            if !marked[c] {
                sums[self.meets[c][TOP]] ^= block[c];
                sums[self.meets[c][BOTTOM]] ^= block[c];
            }
        }
        sums
    }

    pub fn is_codeword(&self, block: &[u8]) -> bool {
        self.syndromes(block, &vec![false; self.places()]).iter().all(|s| *s == 0)
    }

    /// "A ring is an even number z of distinct places, at least 2 ..", every clause of it.
    pub fn is_cycle(&self, list: &[usize], marked: &[bool]) -> bool {
        let z = list.len();
        if z < 2 || z % 2 != 0 || z > self.rows() || list.iter().any(|c| *c >= self.places() || !marked[*c]) {
            return false;
        }
        let mut places = list.to_vec();
        places.sort_unstable();
        places.dedup();
        let mut passed = vec![];
        for i in 0..z {
            let side = if i % 2 == 0 { TOP } else { BOTTOM };
            let (here, next) = (self.meets[list[i]][side], self.meets[list[(i + 1) % z]][side]);
            if here != next {
                return false;
            }
            passed.push(here);
        }
        passed.sort_unstable();
        passed.dedup();
        places.len() == z && passed.len() == z && places[0] == list[0]
    }

    /// The places of a cycle in 01's order: from the lowest, the first step by the top row, then in turn.
    fn in_order(&self, cycle: &[usize]) -> Vec<usize> {
        let mut on_row = vec![vec![]; self.rows()];
        for c in cycle {
            on_row[self.meets[*c][TOP]].push(*c);
            on_row[self.meets[*c][BOTTOM]].push(*c);
        }
        let first = *cycle.iter().min().unwrap();
        let (mut list, mut last, mut side) = (vec![], first, TOP);
        loop {
            list.push(last);
            let two = &on_row[self.meets[last][side]];
            assert!(two.len() == 2, "not a cycle: {cycle:?}");
            last = if two[0] == last { two[1] } else { two[0] };
            side = 1 - side;
            if last == first {
                return list;
            }
        }
    }

    // -- by the definition, for tiny codes

    /// Every cycle of `places` that has `c` as its lowest place.
    fn cycles_from(&self, places: &[usize], c: usize) -> Vec<Vec<usize>> {
        let (mut found, mut list, mut passed) = (vec![], vec![c], vec![]);
        self.extend(places, &mut list, &mut passed, &mut found);
        found
    }

    fn extend(&self, places: &[usize], list: &mut Vec<usize>, passed: &mut Vec<usize>, found: &mut Vec<Vec<usize>>) {
        let (first, last) = (list[0], list[list.len() - 1]);
        let side = if list.len() % 2 == 1 { TOP } else { BOTTOM };
        let row = self.meets[last][side];
        if passed.contains(&row) {
            return;
        }
        if side == BOTTOM && row == self.meets[first][BOTTOM] {
            found.push(list.clone());
            return;
        }
        passed.push(row);
        for c in places {
            if *c > first && self.meets[*c][side] == row && !list.contains(c) {
                list.push(*c);
                self.extend(places, list, passed, found);
                list.pop();
            }
        }
        passed.pop();
    }

    /// How many fillings of the marked places make every row 0 (at most 2 are told apart), by trying all, bit by bit.
    fn fillings(&self, sums: &[u8], marked: &[usize]) -> usize {
        let column = |c: usize| 1u64 << self.meets[c][TOP] | 1u64 << self.meets[c][BOTTOM];
        let wanted: Vec<u64> = (0..8).map(|bit| (0..self.rows()).map(|r| u64::from(sums[r] >> bit & 1) << r).sum()).collect();
        let mut ways = [0usize; 8];
        for filling in 0..1usize << marked.len() {
            let sum = (0..marked.len()).filter(|i| filling >> i & 1 == 1).fold(0, |s, i| s ^ column(marked[i]));
            for bit in 0..8 {
                ways[bit] += usize::from(sum == wanted[bit]);
            }
        }
        ways.iter().fold(1, |product, w| (product * (*w).min(2)).min(2))
    }

    // -- by elimination, for codes of at most 128 rows

    /// Columns of `places` (rising) from the highest down: which are sums of higher ones, and of which.
    fn eliminate(&self, places: &[usize]) -> Elimination {
        let mut e = Elimination { basis: vec![], independent: vec![], dependent: vec![] };
        for c in places.iter().rev() {
            let (mut column, mut of) = (1u128 << self.meets[*c][TOP] ^ 1u128 << self.meets[*c][BOTTOM], 0u128);
            for (vector, pivot, from) in &e.basis {
                if column >> pivot & 1 == 1 {
                    column ^= vector;
                    of ^= from;
                }
            }
            if column == 0 {
                e.dependent.push((*c, of));
            } else {
                of |= 1 << e.independent.len();
                e.basis.push((column, column.trailing_zeros() as usize, of));
                e.independent.push(*c);
            }
        }
        e
    }

    fn agree_by_elimination(&self, block: &[u8], marked: &[bool], marks: &[usize]) -> Agree {
        let mut sums = self.syndromes(block, marked);
        let lowest_wrong = self.wrong_component_by_relaxing(&sums, marks);
        let e = self.eliminate(marks);
        let mut values = vec![0u8; e.independent.len()];
        for (vector, pivot, of) in &e.basis {
            let y = sums[*pivot];
            (0..self.rows()).filter(|r| vector >> r & 1 == 1).for_each(|r| sums[r] ^= y);
            (0..values.len()).filter(|i| of >> i & 1 == 1).for_each(|i| values[i] ^= y);
        }
        let inconsistent = sums.iter().any(|s| *s != 0);
        assert_eq!(inconsistent, lowest_wrong.is_some(), "the reference's elimination and its components disagree");
        if let Some(rows) = lowest_wrong {
            return Agree::None(rows);
        }
        if let Some((c, of)) = e.dependent.first() {
            let mut cycle: Vec<usize> = (0..e.independent.len()).filter(|i| of >> i & 1 == 1).map(|i| e.independent[i]).collect();
            cycle.push(*c);
            return Agree::Two(self.in_order(&cycle));
        }
        let mut whole = block.to_vec();
        e.independent.iter().zip(values).for_each(|(c, value)| whole[*c] = value);
        Agree::One(whole)
    }

    /// Components by lowering labels until none can be lowered; of those that do not add up to 0 the one with the lowest row.
    fn wrong_component_by_relaxing(&self, sums: &[u8], marks: &[usize]) -> Option<Vec<usize>> {
        let mut label: Vec<usize> = (0..self.rows()).collect();
        loop {
            let before = label.clone();
            for c in marks {
                let [a, b] = self.meets[*c];
                let least = label[a].min(label[b]);
                (label[a], label[b]) = (least, least);
            }
            if label == before {
                break;
            }
        }
        (0..self.rows())
            .map(|root| (0..self.rows()).filter(|r| label[*r] == root).collect::<Vec<_>>())
            .find(|rows| rows.iter().fold(0, |s, r| s ^ sums[*r]) != 0)
    }

    // -- by peeling, for all sizes

    fn agree_by_peeling(&self, block: &[u8], marked: &[bool], marks: &[usize]) -> Agree {
        let mut sums = self.syndromes(block, marked);
        let on_rows = OnRows::of(self, marks);
        if let Some(rows) = self.wrong_component_by_flooding(&sums, &on_rows) {
            return Agree::None(rows);
        }
        let mut whole = block.to_vec();
        let rest = self.peel(marks, &on_rows, 0, |row, c| {
            whole[c] = sums[row];
            let [a, b] = self.meets[c];
            let value = whole[c];
            sums[a] ^= value;
            sums[b] ^= value;
        });
        if rest.is_empty() {
            assert!(sums.iter().all(|s| *s == 0), "the reference's peeling and its components disagree");
            return Agree::One(whole);
        }
        // The largest place such that the marks from it on still hold a cycle, by halving; peeled, they are that one cycle.
        let (mut holds, mut not) = (0, marks.len());
        while not - holds > 1 {
            let middle = (holds + not) / 2;
            if self.peel(&marks[middle..], &on_rows, marks[middle], |_, _| ()).is_empty() {
                not = middle;
            } else {
                holds = middle;
            }
        }
        Agree::Two(self.in_order(&self.peel(&marks[holds..], &on_rows, marks[holds], |_, _| ())))
    }

    /// Takes out marks that are alone on one of their rows until none is; `settle` hears of each with its row. What remains is returned.
    /// Only places from `from` on count.
    fn peel(&self, marks: &[usize], on_rows: &OnRows, from: usize, mut settle: impl FnMut(usize, usize)) -> Vec<usize> {
        let mut left = vec![0u32; self.rows()];
        let mut gone = vec![false; self.places()];
        for c in marks {
            left[self.meets[*c][TOP]] += 1;
            left[self.meets[*c][BOTTOM]] += 1;
        }
        let mut waiting: Vec<usize> = (0..self.rows()).filter(|r| left[*r] == 1).collect();
        while let Some(row) = waiting.pop() {
            if left[row] != 1 {
                continue;
            }
            let c = *on_rows.at(row).iter().find(|c| **c >= from && !gone[**c]).unwrap();
            gone[c] = true;
            settle(row, c);
            for r in self.meets[c] {
                left[r] -= 1;
                if left[r] == 1 {
                    waiting.push(r);
                }
            }
        }
        marks.iter().copied().filter(|c| !gone[*c]).collect()
    }

    fn wrong_component_by_flooding(&self, sums: &[u8], on_rows: &OnRows) -> Option<Vec<usize>> {
        let mut seen = vec![false; self.rows()];
        for start in 0..self.rows() {
            if seen[start] {
                continue;
            }
            seen[start] = true;
            let (mut rows, mut at) = (vec![start], 0);
            while at < rows.len() {
                for c in on_rows.at(rows[at]) {
                    for r in self.meets[*c] {
                        if !seen[r] {
                            seen[r] = true;
                            rows.push(r);
                        }
                    }
                }
                at += 1;
            }
            if rows.iter().fold(0, |s, r| s ^ sums[*r]) != 0 {
                rows.sort_unstable();
                return Some(rows);
            }
        }
        None
    }

    // -- the fetch list, for all sizes

    /// From each row that is not reached yet, always on over the highest marked place that leads to a new row. No other forest of as many places has
    /// higher ones: every place that led nowhere new closes a cycle in which it is the lowest.
    fn fetch_by_growing(&self, on_rows: &OnRows) -> Vec<usize> {
        let (mut reached, mut closing) = (vec![false; self.rows()], vec![]);
        for start in 0..self.rows() {
            if reached[start] {
                continue;
            }
            let (mut next, mut new) = (BinaryHeap::new(), Some(start));
            loop {
                if let Some(row) = new {
                    reached[row] = true;
                    // a place whose other row is reached is in the heap, or was taken to come here
                    next.extend(on_rows.at(row).iter().copied().filter(|c| self.meets[*c].iter().any(|r| !reached[*r])));
                }
                let Some(c) = next.pop() else { break };
                new = self.meets[c].into_iter().find(|r| !reached[*r]);
                if new.is_none() {
                    closing.push(c);
                }
            }
        }
        closing.sort_unstable();
        closing
    }

    /// Whether a chain of marked places above `c` leads from one of its rows to the other.
    fn joined_above(&self, c: usize, on_rows: &OnRows) -> bool {
        let [from, to] = self.meets[c];
        let mut reached = vec![false; self.rows()];
        reached[from] = true;
        let mut rows = vec![from];
        while let Some(row) = rows.pop() {
            for above in on_rows.at(row).iter().rev().take_while(|above| **above > c) {
                for r in self.meets[*above] {
                    if !reached[r] {
                        reached[r] = true;
                        rows.push(r);
                    }
                }
            }
        }
        reached[to]
    }

    /// How many groups of joined rows there are.
    fn groups(&self, on_rows: &OnRows) -> usize {
        let (mut reached, mut groups) = (vec![false; self.rows()], 0);
        for start in 0..self.rows() {
            let mut rows = vec![start];
            groups += usize::from(!reached[start]);
            while let Some(row) = rows.pop() {
                if !std::mem::replace(&mut reached[row], true) {
                    rows.extend(on_rows.at(row).iter().flat_map(|c| self.meets[*c]).filter(|r| !reached[*r]));
                }
            }
        }
        groups
    }

    // -- the answers, each in every way that its size allows

    /// "List those marked places that are the lowest of some ring of marked places, rising."
    pub fn fetch(&self, marked: &[bool]) -> Vec<usize> {
        let marks: Vec<usize> = (0..self.places()).filter(|c| marked[*c]).collect();
        let on_rows = OnRows::of(self, &marks);
        let list = self.fetch_by_growing(&on_rows);
        let mut listed = vec![false; self.places()];
        list.iter().for_each(|c| listed[*c] = true);
        let rest: Vec<usize> = marks.iter().copied().filter(|c| !listed[*c]).collect();

        // "Taking the list's marks away must leave marks that hold no ring, and no set of fewer places does that": marks without a ring are at most as
        // many as there are rows less groups of them
        assert!(self.peel(&rest, &OnRows::of(self, &rest), 0, |_, _| ()).is_empty(), "the reference's fetch list leaves a cycle");
        assert_eq!(rest.len(), self.rows() - self.groups(&on_rows), "the reference's fetch list is not as long as the groups say");
        // some places by the definition itself: joined by higher ones or not
        for ends in [list.first(), list.last(), rest.first(), rest.last()] {
            let lowest = |c: &usize| self.joined_above(*c, &on_rows) == listed[*c];
            assert!(ends.is_none_or(lowest), "the reference's fetch list is wrong in {ends:?}");
        }
        if marks.len() == self.places() {
            assert_eq!(list, self.message_places, "with all marked the reference's fetch list is not the message places");
        }
        if self.fits_128() {
            let e = self.eliminate(&marks);
            assert!(e.dependent.iter().rev().map(|d| &d.0).eq(&list), "the reference's growing and its elimination disagree");
            assert_eq!(rest.len(), e.independent.len(), "the reference's fetch list is not as long as the rank says");
        }
        if self.fits_128() && marks.len() <= SOME {
            // the columns above, with its own and without
            let columns: Vec<u128> = marks.iter().map(|c| 1 << self.meets[*c][TOP] | 1 << self.meets[*c][BOTTOM]).collect();
            let same = |i: &usize| rank(columns[*i..].to_vec()) == rank(columns[i + 1..].to_vec());
            assert!((0..marks.len()).filter(same).map(|i| &marks[i]).eq(&list), "the reference's fetch list is not that of the ranks");
        }
        if marks.len() <= FEW {
            self.fetch_by_definition(&marks, &list);
        }
        list
    }

    /// Every cycle of the marks: the list has the lowest place of each, and no set of fewer places has one of each.
    fn fetch_by_definition(&self, marks: &[usize], list: &[usize]) {
        let cycles: Vec<Vec<usize>> = marks.iter().flat_map(|c| self.cycles_from(marks, *c)).collect();
        let defined: Vec<usize> = marks.iter().copied().filter(|c| cycles.iter().any(|cycle| cycle[0] == *c)).collect();
        assert_eq!(list, defined, "the reference's fetch list is not that of the definition");
        let bits = |cycle: &Vec<usize>| (0..marks.len()).filter(|i| cycle.contains(&marks[*i])).fold(0u32, |set, i| set | 1 << i);
        let sets: Vec<u32> = cycles.iter().map(bits).collect();
        for fewer in (0..1u32 << marks.len()).filter(|set| (set.count_ones() as usize) < list.len()) {
            assert!(sets.iter().any(|cycle| cycle & fewer == 0), "fewer places than {list:?} do as well: {fewer:b} of {marks:?}");
        }
    }

    pub fn agree(&self, block: &[u8], marked: &[bool]) -> Agree {
        let marks: Vec<usize> = (0..self.places()).filter(|c| marked[*c]).collect();
        let found = self.agree_by_peeling(block, marked, &marks);
        if self.fits_128() {
            assert_eq!(found, self.agree_by_elimination(block, marked, &marks), "the reference's peeling and its elimination disagree");
        }
        if self.rows() <= 64 && marks.len() <= FEW {
            let ways = self.fillings(&self.syndromes(block, marked), &marks);
            let counted = matches!((&found, ways), (Agree::None(_), 0) | (Agree::One(_), 1) | (Agree::Two(_), 2));
            assert!(counted, "the reference found {found:?}, and {ways} fillings");
            let shown: Vec<_> = marks.iter().rev().map(|c| self.cycles_from(&marks, *c)).find(|all| !all.is_empty()).unwrap_or_default();
            if let Agree::Two(cycle) = &found {
                assert!(shown.len() == 1 && shown[0] == *cycle, "the reference shows {cycle:?}, and by the definition {shown:?}");
            }
        }
        match &found {
            Agree::One(whole) => assert!(self.is_codeword(whole) && (0..self.places()).all(|c| marked[c] || whole[c] == block[c])),
            Agree::Two(cycle) => assert!(self.is_cycle(cycle, marked)),
            Agree::None(_) => (),
        }
        found
    }

    /// "A place is a check place exactly when no ring has it as its lowest place." These are the others: the columns that are sums of higher ones.
    fn lowest_of_cycles(&self) -> Vec<usize> {
        let all: Vec<usize> = (0..self.places()).collect();
        // joining rows place by place from the highest: a place that joins nothing closes a cycle
        let mut over: Vec<usize> = (0..self.rows()).collect();
        let mut lowest = vec![];
        for c in all.iter().rev() {
            let [mut a, mut b] = self.meets[*c];
            for r in [&mut a, &mut b] {
                while over[*r] != *r {
                    over[*r] = over[over[*r]];
                    *r = over[*r];
                }
            }
            if a == b {
                lowest.push(*c);
            }
            over[a.max(b)] = a.min(b);
        }
        lowest.reverse();
        if self.fits_128() {
            let mut dependent: Vec<usize> = self.eliminate(&all).dependent.iter().map(|d| d.0).collect();
            dependent.reverse();
            assert_eq!(lowest, dependent, "the reference's two ways to find message places disagree");
        }
        if self.places() <= 15 {
            let defined: Vec<usize> = all.iter().copied().filter(|c| !self.cycles_from(&all, *c).is_empty()).collect();
            assert_eq!(lowest, defined, "the reference's message places are not those of the definition");
        }
        let gaps: Vec<usize> = self.shifts.iter().map(|p| p.abs_diff(self.shifts[0])).collect();
        assert_eq!(self.places() - lowest.len(), 2 * self.t - greatest_divisor(self.t, &gaps), "the reference's count is not Theorem 2's");
        lowest
    }

    /// The codeword that has the message at the message places.
    pub fn encode(&self, message: &[u8]) -> Vec<u8> {
        let (mut block, mut marked) = (vec![0; self.places()], vec![true; self.places()]);
        for (c, symbol) in self.message_places.iter().zip(message) {
            (block[*c], marked[*c]) = (*symbol, false);
        }
        match self.agree(&block, &marked) {
            Agree::One(whole) => whole,
            other => panic!("the reference cannot encode: {other:?}"),
        }
    }

    /// Parity places, pair figure, neighbour figure, distance.
    pub fn figures(&self) -> [usize; 4] {
        let mut pair = usize::MAX;
        let mut neighbour = usize::MAX;
        for i in 0..self.n {
            for j in i + 1..self.n {
                let z = self.round_trip(i, j);
                let gap = self.shifts[i].abs_diff(self.shifts[j]);
                assert_eq!(z, 2 * self.t / greatest_divisor(self.t, &[gap]), "the reference's walk is not 2t / gcd");
                pair = pair.min(z - 1);
                // around the drum the one comes next after the other; two sections do so both ways, as one pair
                if (i + 1) % self.n == j || (j + 1) % self.n == i {
                    neighbour = neighbour.min(z - 1);
                }
            }
        }
        let distance = if self.n == 2 {
            pair + 1
        } else if (0..self.n).any(|i| (0..i).any(|j| self.shifts[i] == self.shifts[j])) {
            2
        } else if self.is_ruler() {
            6
        } else {
            4
        };
        if self.places() <= 512 {
            assert_eq!(distance, self.shortest_cycle(), "the reference's distance is not its shortest cycle");
        }
        if self.places() <= 128 && self.message_places.len() <= FEW {
            assert_eq!(distance, self.least_weight(), "the reference's distance is not the least weight");
        }
        [self.places() - self.message_places.len(), pair, neighbour, distance]
    }

    /// Whether only the last section and the first have the neighbour figure: without that pair it would be higher.
    pub fn closed_by_drum(&self) -> bool {
        let around = self.round_trip(self.n - 1, 0);
        (1..self.n).all(|j| around < self.round_trip(j - 1, j))
    }

    /// The length of the cycle through the first place of section i inside sections i and j, by walking it.
    fn round_trip(&self, i: usize, j: usize) -> usize {
        let (mut k, mut z) = (0, 0);
        loop {
            z += 2;
            k = (k + self.t - self.shifts[j] + self.shifts[i]) % self.t;
            if k == 0 {
                return z;
            }
        }
    }

    /// "All differences p_i - p_j mod t (i, j distinct) are distinct."
    fn is_ruler(&self) -> bool {
        let mut seen = vec![false; self.t];
        for i in 0..self.n {
            for j in (0..self.n).filter(|j| *j != i) {
                let difference = (self.t + self.shifts[i] - self.shifts[j]) % self.t;
                if std::mem::replace(&mut seen[difference], true) {
                    return false;
                }
            }
        }
        true
    }

    /// The length of a shortest cycle: for every place the shortest way from one of its rows to the other without it.
    fn shortest_cycle(&self) -> usize {
        let all: Vec<usize> = (0..self.places()).collect();
        let on_rows = OnRows::of(self, &all);
        let mut least = usize::MAX;
        for c in 0..self.places() {
            let [from, to] = self.meets[c];
            let mut steps = vec![usize::MAX; self.rows()];
            steps[from] = 0;
            let (mut rows, mut at) = (vec![from], 0);
            while at < rows.len() && steps[to] == usize::MAX && steps[rows[at]] + 1 < least {
                for other in on_rows.at(rows[at]).iter().filter(|other| **other != c) {
                    for r in self.meets[*other] {
                        if steps[r] == usize::MAX {
                            steps[r] = steps[rows[at]] + 1;
                            rows.push(r);
                        }
                    }
                }
                at += 1;
            }
            if steps[to] != usize::MAX {
                least = least.min(steps[to] + 1);
            }
        }
        least
    }

    /// The least weight of a nonzero codeword of bits, by going through all of them.
    fn least_weight(&self) -> usize {
        let all: Vec<usize> = (0..self.places()).collect();
        let e = self.eliminate(&all);
        let words: Vec<u128> = (e.dependent.iter())
            .map(|(c, of)| (0..e.independent.len()).filter(|i| of >> i & 1 == 1).fold(1 << c, |w, i| w | 1 << e.independent[i]))
            .collect();
        let sum = |chosen: usize| (0..words.len()).filter(|i| chosen >> i & 1 == 1).fold(0u128, |s, i| s ^ words[i]);
        (1..1usize << words.len()).map(|chosen| sum(chosen).count_ones() as usize).min().unwrap()
    }
}

struct Elimination {
    /// vector, pivot row, and the independent places that it is the sum of
    basis: Vec<(u128, usize, u128)>,
    independent: Vec<usize>,
    /// place, and the higher independent places whose columns add up to its column
    dependent: Vec<(usize, u128)>,
}

/// The marked places on each row.
struct OnRows {
    start: Vec<usize>,
    places: Vec<usize>,
}

impl OnRows {
    fn of(code: &Code, marks: &[usize]) -> OnRows {
        let mut start = vec![0; code.rows() + 1];
        for c in marks {
            code.meets[*c].iter().for_each(|r| start[r + 1] += 1);
        }
        for r in 0..code.rows() {
            start[r + 1] += start[r];
        }
        let (mut next, mut places) = (start.clone(), vec![0; 2 * marks.len()]);
        for c in marks {
            for r in code.meets[*c] {
                places[next[r]] = *c;
                next[r] += 1;
            }
        }
        OnRows { start, places }
    }

    fn at(&self, row: usize) -> &[usize] {
        &self.places[self.start[row]..self.start[row + 1]]
    }
}

// ---- what each call leaves

/// What a call with buffers answers and leaves. `written` is what it may write to beside the count.
#[derive(PartialEq, Eq, Debug, Clone)]
pub struct Left<T> {
    pub number: u8,
    pub count: usize,
    pub written: T,
}

pub fn bits(marks: &[u8], places: usize) -> Vec<bool> {
    (0..places).map(|c| marks[c / 8] >> (c % 8) & 1 == 1).collect()
}

/// Refusals 3 and 4 of marks: the length, then the spare bits.
fn marks_refused(code: &Code, marks: &[u8]) -> u8 {
    if marks.len() != code.places().div_ceil(8) {
        3
    } else if (code.places()..8 * marks.len()).any(|c| marks[c / 8] >> (c % 8) & 1 == 1) {
        4
    } else {
        0
    }
}

pub fn erasure_count(code: Result<&Code, u8>, marks: &[u8]) -> Left<()> {
    let refused = code.map_or_else(|number| number, |code| marks_refused(code, marks));
    match (refused, code) {
        (0, Ok(code)) => Left { number: 0, count: bits(marks, code.places()).iter().filter(|b| **b).count(), written: () },
        _ => Left { number: refused, count: 0, written: () },
    }
}

pub fn recover(code: Result<&Code, u8>, block: &[u8], marks: &[u8], witness: &[u16]) -> Left<(Vec<u8>, Vec<u16>)> {
    let kept = |number| Left { number, count: 0, written: (block.to_vec(), witness.to_vec()) };
    let code = match code {
        Ok(code) => code,
        Err(number) => return kept(number),
    };
    if block.len() != code.places() || witness.len() != code.rows() {
        return kept(3);
    }
    match marks_refused(code, marks) {
        0 => (),
        number => return kept(number),
    }
    let listed = |list: &[usize]| {
        let mut all = vec![0u16; code.rows()];
        list.iter().enumerate().for_each(|(i, x)| all[i] = *x as u16);
        all
    };
    match code.agree(block, &bits(marks, code.places())) {
        Agree::One(whole) => Left { number: 0, count: 0, written: (whole, listed(&[])) },
        Agree::None(rows) => Left { number: 5, count: rows.len(), written: (block.to_vec(), listed(&rows)) },
        Agree::Two(cycle) => Left { number: 6, count: cycle.len(), written: (block.to_vec(), listed(&cycle)) },
    }
}

pub fn fetch(code: Result<&Code, u8>, marks: &[u8], list: &[u8]) -> Left<Vec<u8>> {
    let kept = |number| Left { number, count: 0, written: list.to_vec() };
    let code = match code {
        Ok(code) => code,
        Err(number) => return kept(number),
    };
    if list.len() != code.places().div_ceil(8) {
        return kept(3);
    }
    match marks_refused(code, marks) {
        0 => (),
        number => return kept(number),
    }
    let places = code.fetch(&bits(marks, code.places()));
    let mut written = vec![0; list.len()];
    places.iter().for_each(|c| written[c / 8] |= 1 << (c % 8));
    Left { number: 0, count: places.len(), written }
}

pub fn encode(code: Result<&Code, u8>, message: &[u8], block: &[u8]) -> Left<Vec<u8>> {
    let kept = |number| Left { number, count: 0, written: block.to_vec() };
    match code {
        Err(number) => kept(number),
        Ok(code) if message.len() != code.message_places.len() || block.len() != code.places() => kept(3),
        Ok(code) => Left { number: 0, count: 0, written: code.encode(message) },
    }
}

pub fn message_of(code: Result<&Code, u8>, block: &[u8], message: &[u8]) -> Left<Vec<u8>> {
    let kept = |number| Left { number, count: 0, written: message.to_vec() };
    match code {
        Err(number) => kept(number),
        Ok(code) if message.len() != code.message_places.len() || block.len() != code.places() => kept(3),
        Ok(code) if !code.is_codeword(block) => kept(5),
        Ok(code) => Left { number: 0, count: 0, written: code.message_places.iter().map(|c| block[*c]).collect() },
    }
}
