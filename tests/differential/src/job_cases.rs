//! Jobs to try: at random, but such that every command, every line and every refusal is met, and the bounds of every operand.

use crate::cases;
use crate::job::COMMANDS;
use crate::prng::Prng;
use crate::reference::{self, Code, Made};
use fumizhaki::Plan;

/// A job that is being written, and its plan.
struct Writer<'a> {
    rng: &'a mut Prng,
    job: Vec<u8>,
    plan: Plan,
    /// sizes of plans, of `cases::SIZES`
    size: usize,
}

/// How a job ends.
#[derive(Clone, Copy)]
enum Last {
    End,
    Unknown,
    Cut,
    NoPlan,
    Outside,
    Size,
    Shift,
    Family,
}

/// Jobs of one plan each, taken or refused: document 01's own list of what is to be tried, and what lies around it.
pub fn fixed() -> Vec<Vec<u8>> {
    let mut jobs = vec![vec![]];
    for n in [0, 1, 2, 3, 14, 15, 16, 29, 31, 32, 33, 255u8] {
        for t in [0, 1, 2, 3, 6, 7, 31, 32, 1_023, 1_024, 1_025, 1_129, 1_130, 2_047, 2_048, 2_049, 65_535u16] {
            let [low, high] = t.to_le_bytes();
            // the figures, the last place, and the one after it
            let places = u32::from(n) * u32::from(t);
            let [last, after] = [places.wrapping_sub(1), places].map(|c| (c as u16).to_le_bytes());
            jobs.push(vec![0x01, n, low, high, 0x09, 0x08, last[0], last[1], 0x08, after[0], after[1]]);
            // all marked: the fetch list, twice, and what is recovered between them
            jobs.push(vec![0x01, n, low, high, 0x0D, 0x05, 0, 0, after[0], after[1], 0x0D, 0x06, 0x0D]);
            jobs.push(vec![0x0A, n, low, high, 0x09]);
            jobs.extend([0, 1, 2, 5].map(|q| vec![0x0B, n, low, high, q, 0, 0x09]));
        }
    }
    jobs.extend((0..=255).map(|n| vec![0x0C, n, 0x09]));
    jobs
}

/// A job at random.
pub fn random(rng: &mut Prng) -> Vec<u8> {
    let size = match rng.below(400) {
        0..=199 => 0,
        200..=379 => 1,
        380..=387 => 2,
        388..=393 => 3,
        _ => 4,
    };
    let mut writer = Writer { rng, job: vec![], plan: Plan { n: 0, t: 0, shifts: [0; 32] }, size };
    match writer.rng.below(24) {
        0 => writer.noise(),
        1 => {
            writer.work();
            writer.damaged()
        }
        2..=4 => writer.without_plan(),
        _ => {
            writer.work();
            let endings = [
                Last::End,
                Last::End,
                Last::End,
                Last::Unknown,
                Last::Cut,
                Last::Cut,
                Last::Outside,
                Last::Outside,
                Last::Size,
                Last::Shift,
                Last::Family,
            ];
            let last = writer.rng.pick(&endings);
            writer.last(last);
        }
    }
    writer.job
}

impl Writer<'_> {
    fn put(&mut self, first: u8, operands: &[usize]) {
        let (_, widths) = COMMANDS.iter().find(|(byte, _)| *byte == first).unwrap();
        self.job.push(first);
        for (number, width) in operands.iter().zip(*widths) {
            self.job.extend_from_slice(&number.to_le_bytes()[..*width]);
        }
    }

    fn places(&self) -> usize {
        self.plan.n * self.plan.t
    }

    // ---- plans

    fn made(&mut self, first: u8, operands: &[usize], made: Made) {
        let (number, n, t, shifts) = made;
        assert!(number == 0, "the plan is refused by {number}: {first} {operands:?}");
        self.put(first, operands);
        self.plan = Plan { n, t, shifts };
    }

    /// A plan that is not refused, by any of the four commands.
    fn new_plan(&mut self) {
        let wanted = cases::good_plan(self.rng, self.size);
        let (n, t) = (wanted.n, wanted.t);
        match self.rng.below(5) {
            0 if n <= t => self.made(0x0A, &[n, t], reference::straight(n, t)),
            1 if n <= t && n > 2 => {
                // most pairs t, q share a factor; an odd t and 2 do not
                let q = self.rng.pick(&[2, 2, 3, t - 1, t + 1, t + 2, 2 * t + 2, 65_535, 65_536 - t]);
                let q = if q < 65_536 && reference::powers(n, t, q).0 == 0 { q } else { 2 };
                let t = if reference::powers(n, t, q).0 == 0 { t } else { (t - 1) | 1 };
                let n = n.min(t);
                self.made(0x0B, &[n, t, q], reference::powers(n, t, q));
            }
            2 if self.size < 3 => {
                let n = if self.size == 0 { self.rng.between(3, 5) } else { self.rng.between(3, 14) };
                self.made(0x0C, &[n], reference::ruler(n));
            }
            _ => {
                self.made(0x01, &[n, t], reference::plan_of(n, t, &vec![0; n]));
                let mut sections: Vec<usize> = (0..n).collect();
                self.rng.shuffle(&mut sections);
                for j in sections {
                    if self.rng.once_in(8) {
                        self.shift(j, t - 1);
                    }
                    self.shift(j, usize::from(wanted.shifts[j]));
                }
            }
        }
    }

    fn shift(&mut self, j: usize, p: usize) {
        self.put(0x02, &[j, p]);
        self.plan.shifts[j] = p as u16;
    }

    /// n and t that no plan has.
    fn wrong_size(&mut self) -> (usize, usize) {
        let rng = &mut *self.rng;
        match rng.below(4) {
            0 => (rng.pick(&[0, 1, 33, 34, 64, 130, 255]), rng.pick(&[1, 2, 7, 33, 255, 256, 257])),
            1 => (rng.pick(&[2, 3, 7, 16, 32]), rng.pick(&[0, 2_049, 2_050, 2_304, 4_096, 32_768, 65_535])),
            2 => rng.pick(&[(29, 1_130), (32, 1_025), (17, 1_928), (31, 1_058), (32, 2_048), (17, 2_048), (24, 1_366), (0, 0), (255, 65_535)]),
            _ => {
                let t = rng.between(1_025, 2_048);
                (rng.between(32_768 / t + 1, 32), t)
            }
        }
    }

    // ---- operands

    /// A place of the plan, often at a bound.
    fn place(&mut self) -> usize {
        let (n, t) = (self.plan.n, self.plan.t);
        let any = self.rng.below(n * t);
        self.rng.pick(&[0, t - 1, t, (n - 1) * t, n * t - 1, any, any, any])
    }

    fn outside_place(&mut self) -> usize {
        let places = self.places();
        let any = self.rng.between(places, 65_535);
        self.rng.pick(&[places, places, places + 1, places + 255, places + 256, 32_768, 65_535, any])
    }

    /// A run of places of the plan: c and m.
    fn run(&mut self) -> (usize, usize) {
        let places = self.places();
        let c = self.place();
        let m = self.rng.below((places - c).min(40) + 1);
        self.rng.pick(&[(c, m), (c, m), (c, m), (c, 0), (c, 1), (c, places - c), (0, places), (places, 0), (places - 1, 1)])
    }

    fn outside_run(&mut self) -> (usize, usize) {
        let places = self.places();
        let (c, any) = (self.place(), self.outside_place());
        // the last ones have a sum that comes back into the plan if it is kept in 16 bits
        let far = self.rng.between(65_536 - places, 65_535);
        self.rng.pick(&[
            (c, places - c + 1),
            (places, 1),
            (places + 1, 0),
            (any, 1),
            (any + usize::from(any == places), 0),
            (0, places + 1),
            (c, 65_535),
            (65_535, 1),
            (65_535, 65_535),
            (far, 65_536 - far),
            (far, (65_536 - far + c).min(65_535)),
        ])
    }

    // ---- work on plans

    fn work(&mut self) {
        let plans = if self.size < 3 { self.rng.between(1, 3) } else { 1 };
        for _ in 0..plans {
            self.new_plan();
            for _ in 0..self.rng.below(3) {
                self.round();
            }
        }
        if self.size < 2 && self.rng.once_in(200) {
            let commands = self.rng.between(1_000, 8_000);
            (0..commands).for_each(|_| self.any());
            // more lines than the program holds back at once
            let shown = if self.rng.once_in(3) { 7_000 } else { 0 };
            for _ in 0..shown {
                let c = self.place();
                self.put(0x08, &[c]);
            }
        }
    }

    /// Symbols, mostly sealed; then marks, sometimes damage, and recovery.
    fn round(&mut self) {
        let places = self.places();
        for _ in 0..self.rng.below(places.min(24) + 1) {
            let (c, v) = (self.place(), self.rng.below(256));
            self.put(0x03, &[c, v]);
        }
        if !self.rng.once_in(4) {
            self.put(0x07, &[]);
        }
        if self.rng.once_in(3) {
            self.put(0x09, &[]);
        }
        let mut marked = if self.rng.once_in(6) { vec![false; places] } else { cases::marks(self.rng, &Code::of(&self.plan)) };
        self.marks(&marked);
        while self.rng.once_in(4) {
            let (c, v) = (self.rng.below(places), self.rng.below(256));
            self.put(0x03, &[c, v]);
            marked[c] = false;
        }
        while self.rng.once_in(5) {
            let (c, m) = self.run();
            self.put(0x05, &[c, m]);
            marked[c..c + m].fill(true);
        }
        if self.rng.once_in(8) {
            let (j, p) = (self.rng.below(self.plan.n), self.rng.below(self.plan.t));
            self.shift(j, p);
        }
        if self.size > 2 || self.rng.once_in(3) {
            self.put(0x0D, &[]);
        }
        self.put(0x06, &[]);
        match self.rng.below(6) {
            0 | 1 => self.put(0x0D, &[]),
            2 => self.fetched(&marked),
            _ => (),
        }
        for _ in 0..self.rng.below(6) {
            let c = self.place();
            self.put(0x08, &[c]);
        }
        // what was settled or kept shows in a second recovery
        if self.rng.once_in(3) {
            let c = self.place();
            self.put(0x04, &[c]);
            self.put(0x06, &[]);
            self.put(0x08, &[c]);
        }
    }

    /// What stands on the fetch list of these marks is set, and then recovery is tried again: a block that was loose is recovered.
    fn fetched(&mut self, marked: &[bool]) {
        self.put(0x0D, &[]);
        for c in Code::of(&self.plan).fetch(marked) {
            let v = self.rng.below(256);
            self.put(0x03, &[c, v]);
        }
        self.put(0x06, &[]);
    }

    /// These places marked, by runs and one by one.
    fn marks(&mut self, marked: &[bool]) {
        let mut c = 0;
        while c < marked.len() {
            let m = marked[c..].iter().take_while(|m| **m).count();
            if m == 1 || m > 1 && m < 5 && self.rng.once_in(3) {
                (c..c + m).for_each(|c| self.put(0x04, &[c]));
            } else if m > 1 {
                self.put(0x05, &[c, m]);
            }
            c += m.max(1);
        }
    }

    /// Some command that is not refused.
    fn any(&mut self) {
        match self.rng.below(200) {
            0 => self.new_plan(),
            1 => self.put(0x09, &[]),
            2..=5 => {
                let (j, p) = (self.rng.below(self.plan.n), self.rng.below(self.plan.t));
                self.shift(j, p);
            }
            6..=10 => self.put(0x07, &[]),
            11..=19 => self.put(0x06, &[]),
            20..=27 => self.put(0x0D, &[]),
            28..=47 => {
                let (c, m) = self.run();
                self.put(0x05, &[c, m]);
            }
            48..=87 => {
                let c = self.place();
                self.put(0x04, &[c]);
            }
            88..=127 => {
                let (c, v) = (self.place(), self.rng.below(256));
                self.put(0x03, &[c, v]);
            }
            _ => {
                let c = self.place();
                self.put(0x08, &[c]);
            }
        }
    }

    // ---- ends

    /// Commands that would be performed if the job went on.
    fn more(&mut self) {
        for _ in 0..self.rng.below(4) {
            let c = self.rng.below(4);
            self.put(0x08, &[c]);
        }
        if self.rng.once_in(4) {
            let first = self.rng.pick(&[0x06, 0x0D]);
            self.put(first, &[]);
        }
    }

    fn last(&mut self, last: Last) {
        match last {
            Last::End => return,
            Last::Unknown => {
                let any = self.rng.between(14, 255) as u8;
                let byte = self.rng.pick(&[0x00, 0x0E, 0x0F, 0x10, 0x11, 0x80, 0x81, 0xFF, any]);
                self.job.push(byte);
            }
            Last::Cut => {
                // numbers that could be refused as well
                let (first, widths) = loop {
                    let command = self.rng.pick(&COMMANDS);
                    if !command.1.is_empty() {
                        break command;
                    }
                };
                let bytes = self.rng.below(widths.iter().sum());
                self.job.push(first);
                let operands = if self.rng.once_in(2) { vec![0xFF; bytes] } else { self.rng.bytes(bytes) };
                self.job.extend(operands);
                return;
            }
            Last::NoPlan => {
                let first = self.rng.pick(&[0x02, 0x03, 0x04, 0x05, 0x06, 0x07, 0x08, 0x09, 0x0D]);
                let operands = [self.rng.pick(&[0, 0, 1, 255]), self.rng.pick(&[0, 0, 1, 255])];
                self.put(first, &operands);
            }
            Last::Outside => {
                let (n, t) = (self.plan.n, self.plan.t);
                let first = self.rng.pick(&[0x02, 0x03, 0x04, 0x05, 0x08]);
                let c = self.outside_place();
                match first {
                    // a shift that is too large besides is not the reason
                    0x02 => {
                        let operands = [self.rng.pick(&[n, n, n + 1, 32.max(n), 128, 255]), self.rng.pick(&[0, t - 1, t, 65_535])];
                        self.put(first, &operands);
                    }
                    0x05 => {
                        let (c, m) = self.outside_run();
                        self.put(first, &[c, m]);
                    }
                    _ => self.put(first, &[c, 5]),
                }
            }
            Last::Size => {
                let (n, t) = self.wrong_size();
                match self.rng.below(4) {
                    0 => self.put(0x01, &[n, t]),
                    1 => self.put(0x0A, &[n, t]),
                    2 => {
                        let q = self.rng.pick(&[0, 1, 2, 3, 65_535]);
                        self.put(0x0B, &[n, t, q]);
                    }
                    _ => {
                        let any = self.rng.between(33, 255);
                        let n = self.rng.pick(&[0, 1, 33, 255, any]);
                        self.put(0x0C, &[n]);
                    }
                }
            }
            Last::Shift => {
                let (n, t) = (self.plan.n, self.plan.t);
                let operands = [self.rng.pick(&[0, n - 1]), self.rng.pick(&[t, t, t + 1, t + 256, 32_768 | t, 65_535])];
                self.put(0x02, &operands);
            }
            Last::Family => self.wrong_family(),
        }
        self.more();
    }

    fn wrong_family(&mut self) {
        match self.rng.below(3) {
            0 => {
                let n = self.rng.between(2, 32);
                let any = self.rng.between(1, n - 1);
                let t = self.rng.pick(&[1, n - 1, any]);
                self.put(0x0A, &[n, t]);
            }
            1 => {
                let (n, t, q) = loop {
                    let t = self.rng.between(1, 1_024);
                    let any = (self.rng.between(2, 32), t, self.rng.below(65_536));
                    let (n, t, q) = self.rng.pick(&[
                        (3, 6, 5),
                        (3, 7, 0),
                        (3, 7, 1),
                        (2, 7, 2),
                        (4, 3, 2),
                        (3, 7, 7),
                        (3, 7, 8),
                        (3, 7, 15),
                        (3, 7, 65_534),
                        any,
                        any,
                    ]);
                    if reference::powers(n, t, q).0 == 10 {
                        break (n, t, q);
                    }
                };
                self.put(0x0B, &[n, t, q]);
            }
            _ => {
                let any = self.rng.between(15, 32);
                let n = self.rng.pick(&[2, 15, 32, any]);
                self.put(0x0C, &[n]);
            }
        }
    }

    /// A job whose first command is refused or cut; only plans can come first.
    fn without_plan(&mut self) {
        let last = self.rng.pick(&[
            Last::NoPlan,
            Last::NoPlan,
            Last::NoPlan,
            Last::NoPlan,
            Last::NoPlan,
            Last::Cut,
            Last::Size,
            Last::Family,
            Last::Unknown,
            Last::End,
        ]);
        self.last(last);
    }

    /// Bytes of any value, or of those that commands have; sometimes on a plan.
    fn noise(&mut self) {
        if self.rng.once_in(2) {
            self.size = self.size.min(1);
            self.new_plan();
        }
        let length = self.rng.below(60);
        let small = !self.rng.once_in(3);
        for _ in 0..length {
            let byte = if small { self.rng.pick(&[0, 0, 0, 1, 2, 3, 4, 5, 6, 6, 7, 8, 8, 8, 9, 10, 11, 12, 13]) } else { self.rng.next() as u8 };
            self.job.push(byte);
        }
    }

    /// A few bytes of the job altered, lost or said twice.
    fn damaged(&mut self) {
        for _ in 0..self.rng.between(1, 3) {
            let at = self.rng.below(self.job.len());
            match self.rng.below(4) {
                0 => self.job[at] ^= 1 << self.rng.below(8),
                1 => self.job[at] = self.rng.below(16) as u8,
                2 if self.job.len() > 1 => drop(self.job.remove(at)),
                _ => self.job.insert(at, self.job[at]),
            }
        }
    }
}
