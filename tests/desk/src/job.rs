//! Jobs written beside the sheets that documents 01 and 02 give them: the commands that print nothing or one symbol, and lines known by hand.

/// A job, and its sheet so far. After a refusal only bytes may follow.
#[derive(Clone, Default)]
pub struct Job {
    pub bytes: Vec<u8>,
    pub sheet: String,
    symbols: Vec<u8>,
}

impl Job {
    /// Begins with a plan of n sections of t symbols.
    pub fn of(n: u8, t: u16) -> Job {
        let mut job = Job::default();
        job.plan(n, t);
        job
    }

    fn command(&mut self, first: u8, operands: &[&[u8]]) {
        self.bytes.push(first);
        operands.iter().for_each(|bytes| self.bytes.extend_from_slice(bytes));
    }

    /// 01
    pub fn plan(&mut self, n: u8, t: u16) {
        self.command(0x01, &[&[n], &t.to_le_bytes()]);
        self.symbols = vec![0; usize::from(n) * usize::from(t)];
    }

    /// 03
    pub fn symbol(&mut self, c: u16, v: u8) {
        self.command(0x03, &[&c.to_le_bytes(), &[v]]);
        self.symbols[usize::from(c)] = v;
    }

    /// 04
    pub fn mark(&mut self, c: u16) {
        self.command(0x04, &[&c.to_le_bytes()]);
    }

    /// 05
    pub fn run(&mut self, c: u16, m: u16) {
        self.command(0x05, &[&c.to_le_bytes(), &m.to_le_bytes()]);
    }

    /// 08
    pub fn show(&mut self, c: u16) {
        self.command(0x08, &[&c.to_le_bytes()]);
        self.line(&format!("symbol {c} {}", self.symbols[usize::from(c)]));
    }

    /// Any command, and the line that it is known to write, if any.
    pub fn known(&mut self, command: &[u8], line: Option<&str>) {
        self.bytes.extend_from_slice(command);
        line.into_iter().for_each(|line| self.line(line));
    }

    /// A plan of 32 sections of 1,024 symbols, all marked, and 0D so many times. With equal shifts every place but those of the last section is listed, and
    /// no other line is as long.
    pub fn longest_lines(&mut self, times: usize) {
        self.plan(32, 1_024);
        self.run(0, 32_768);
        let list: String = (0..31_744).map(|c| format!(" {c}")).collect();
        (0..times).for_each(|_| self.known(&[0x0D], Some(&format!("fetch 31744{list}"))));
    }

    pub fn line(&mut self, line: &str) {
        self.sheet.push_str(line);
        self.sheet.push('\n');
    }

    /// Commands that change nothing that is shown, up to this length of the job. Most write a line, so the sheet gets longer than the job.
    pub fn fill_to(&mut self, length: usize) {
        let mut k = self.bytes.len() as u16;
        while length - self.bytes.len() >= 16 {
            k = k.wrapping_mul(25).wrapping_add(13);
            let c = k % self.symbols.len() as u16;
            match k % 11 {
                0 => self.symbol(c, (k >> 8) as u8),
                1 => self.mark(c),
                2 => self.run(c, 0),
                _ => self.show(c),
            }
        }
        // what is left, by fours and threes
        while (length - self.bytes.len()) % 3 != 0 {
            self.symbol(0, 7);
        }
        while self.bytes.len() < length {
            self.show(0);
        }
    }

    /// Lines of symbols, up to this length of the sheet.
    pub fn lines_to(&mut self, length: usize) {
        while length - self.sheet.len() >= 150 {
            self.show(0);
        }
        // 11 bytes with a place of one digit, 12 with one of two
        while (length - self.sheet.len()) % 11 != 0 {
            self.show(10);
        }
        while self.sheet.len() < length {
            self.show(0);
        }
    }

    /// The sheet of the job if it ends here.
    pub fn ended(&self) -> String {
        format!("{}end\n", self.sheet)
    }

    /// The sheet of the job if what comes next is refused by this number.
    pub fn refused(&self, number: u8) -> String {
        format!("{}refused {number} {}\n", self.sheet, self.bytes.len())
    }

    /// The bytes so far and these.
    pub fn with(&self, more: &[u8]) -> Vec<u8> {
        [&self.bytes[..], more].concat()
    }
}

/// A command, the line that it writes, a second command that shows what the first did, and its line.
pub type Known = (&'static [u8], Option<&'static str>, &'static [u8], &'static str);

/// Every command on a new plan of 2 sections of 16 symbols, its lines by hand.
pub const COMMANDS: [Known; 13] = [
    (&[0x01, 2, 16, 0], None, &[0x08, 31, 0], "symbol 31 0"),
    (&[0x02, 1, 5, 0], None, &[0x09], "figures 31 31 31 32"),
    (&[0x03, 3, 0, 9], None, &[0x08, 3, 0], "symbol 3 9"),
    (&[0x04, 3, 0], None, &[0x06], "recovered 1"),
    (&[0x05, 3, 0, 2, 0], None, &[0x06], "recovered 2"),
    (&[0x06], Some("recovered 0"), &[0x08, 0, 0], "symbol 0 0"),
    (&[0x07], Some("sealed 16"), &[0x08, 16, 0], "symbol 16 0"),
    (&[0x08, 3, 0], Some("symbol 3 0"), &[0x08, 4, 0], "symbol 4 0"),
    (&[0x09], Some("figures 16 1 1 2"), &[0x08, 5, 0], "symbol 5 0"),
    (&[0x0A, 2, 16, 0], None, &[0x09], "figures 31 31 31 32"),
    (&[0x0B, 3, 7, 0, 2, 0], None, &[0x09], "figures 13 13 13 6"),
    (&[0x0C, 3], None, &[0x09], "figures 13 13 13 6"),
    (&[0x0D], Some("fetch 0"), &[0x08, 6, 0], "symbol 6 0"),
];

/// Document 01's job, by its commands, each with its line.
pub const SAMPLE: [(&[u8], Option<&str>); 15] = [
    (&[0x01, 3, 7, 0], None),
    (&[0x02, 1, 1, 0], None),
    (&[0x02, 2, 3, 0], None),
    (&[0x04, 0, 0], None),
    (&[0x04, 7, 0], None),
    (&[0x04, 16, 0], None),
    (&[0x04, 2, 0], None),
    (&[0x04, 10, 0], None),
    (&[0x04, 17, 0], None),
    (&[0x06], Some("loose 6 0 7 16 2 10 17")),
    (&[0x03, 0, 0, 5], None),
    (&[0x06], Some("recovered 5")),
    (&[0x08, 17, 0], Some("symbol 17 5")),
    (&[0x03, 0, 0, 6], None),
    (&[0x06], Some("crossed 1 0")),
];

/// Jobs with fetch lists, and their sheets by hand.
pub const FETCHES: [(&[u8], &str); 10] = [
    // document 01's ring: before it is shown, and in a block that is crossed
    (
        &[1, 3, 7, 0, 2, 1, 1, 0, 2, 2, 3, 0, 4, 0, 0, 4, 7, 0, 4, 16, 0, 4, 2, 0, 4, 10, 0, 4, 17, 0, 0x0D, 6],
        "fetch 1 0\nloose 6 0 7 16 2 10 17\nend\n",
    ),
    (
        &[1, 3, 7, 0, 2, 1, 1, 0, 2, 2, 3, 0, 4, 0, 0, 4, 7, 0, 4, 16, 0, 4, 2, 0, 4, 10, 0, 4, 17, 0, 3, 1, 0, 1, 0x0D, 6, 0x0D],
        "fetch 1 0\ncrossed 1 1\nfetch 1 0\nend\n",
    ),
    // two sections, whose one ring is closed by place 0; with its symbol set the others are recovered
    (
        &[1, 3, 7, 0, 2, 1, 1, 0, 2, 2, 3, 0, 5, 0, 0, 14, 0, 0x0D, 6, 3, 0, 0, 0, 0x0D, 6],
        "fetch 1 0\nloose 14 0 7 6 13 5 12 4 11 3 10 2 9 1 8\nfetch 0\nrecovered 13\nend\n",
    ),
    // all marked: the data places
    (&[1, 3, 7, 0, 2, 1, 1, 0, 2, 2, 3, 0, 5, 0, 0, 21, 0, 0x0D], "fetch 8 0 1 2 3 4 5 6 7\nend\n"),
    // two rings apart from each other
    (&[1, 2, 4, 0, 2, 1, 2, 0, 5, 0, 0, 8, 0, 0x0D, 6], "fetch 2 0 1\nloose 4 1 5 3 7\nend\n"),
    (&[1, 2, 1, 0, 5, 0, 0, 2, 0, 0x0D], "fetch 1 0\nend\n"),
    // no marks; no plan; what comes next is unknown
    (&[1, 3, 7, 0, 0x0D], "fetch 0\nend\n"),
    (&[0x0D], "refused 9 0\n"),
    (&[0x0E], "refused 7 0\n"),
    (&[1, 3, 7, 0, 0x0D, 0x0E, 0x0D], "fetch 0\nrefused 7 5\n"),
];

/// A job with every command and every line, worked out by hand: n 2, t 3, shifts 0 1 has one ring, and sealing copies the one data symbol to all
/// places.
pub const EVERY: [(&[u8], Option<&str>); 34] = [
    (&[0x0C, 3], None),
    (&[0x09], Some("figures 13 13 13 6")),
    (&[0x01, 3, 7, 0], None),
    (&[0x02, 1, 1, 0], None),
    (&[0x02, 2, 2, 0], None),
    (&[0x09], Some("figures 13 13 13 4")),
    (&[0x0A, 3, 7, 0], None),
    (&[0x09], Some("figures 13 13 13 4")),
    (&[0x0B, 3, 7, 0, 2, 0], None),
    (&[0x09], Some("figures 13 13 13 6")),
    (&[0x01, 2, 3, 0], None),
    (&[0x02, 1, 1, 0], None),
    (&[0x03, 0, 0, 9], None),
    (&[0x07], Some("sealed 1")),
    (&[0x08, 5, 0], Some("symbol 5 9")),
    (&[0x05, 1, 0, 5, 0], None),
    (&[0x06], Some("recovered 5")),
    (&[0x08, 3, 0], Some("symbol 3 9")),
    (&[0x05, 0, 0, 6, 0], None),
    (&[0x06], Some("loose 6 0 3 2 5 1 4")),
    (&[0x0D], Some("fetch 1 0")),
    (&[0x03, 0, 0, 1], None),
    (&[0x0D], Some("fetch 0")),
    (&[0x06], Some("recovered 5")),
    (&[0x08, 4, 0], Some("symbol 4 1")),
    (&[0x03, 1, 0, 0], None),
    (&[0x06], Some("crossed 1 1")),
    (&[0x0D], Some("fetch 0")),
    (&[0x04, 1, 0], None),
    (&[0x08, 1, 0], Some("symbol 1 0")),
    (&[0x06], Some("recovered 1")),
    (&[0x08, 1, 0], Some("symbol 1 1")),
    (&[0x05, 6, 0, 0, 0], None),
    (&[0x06], Some("recovered 0")),
];
