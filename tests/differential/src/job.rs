//! The job and its sheet, from document 01 alone, and 02 for command 0D. Recovery, sealing, figures and fetch lists are those of `reference`.

use crate::reference::{self, Agree, Code};
use fumizhaki::Plan;
use std::rc::Rc;

/// The commands: first byte, and the widths of the operands.
pub const COMMANDS: [(u8, &[usize]); 13] = [
    (0x01, &[1, 2]),
    (0x02, &[1, 2]),
    (0x03, &[2, 1]),
    (0x04, &[2]),
    (0x05, &[2, 2]),
    (0x06, &[]),
    (0x07, &[]),
    (0x08, &[2]),
    (0x09, &[]),
    (0x0A, &[1, 2]),
    (0x0B, &[1, 2, 2]),
    (0x0C, &[1]),
    (0x0D, &[]),
];

/// From so many places on a plan is called large here.
const LARGE: usize = 4_000;

/// A line of the sheet.
pub enum Line {
    Text(String),
    /// `loose`: any ring of the marked places will do.
    Ring(Rc<Code>, Vec<bool>),
}

/// What a command did: its first byte (0 if it is unknown or there is none), and the outcome in a word or two.
pub type Event = (u8, &'static str);

/// The whole sheet, and what was met on the way.
pub struct Sheet {
    pub lines: Vec<Line>,
    pub events: Vec<Event>,
}

/// A plan with its symbols and marks.
struct Table {
    plan: Plan,
    symbols: Vec<u8>,
    marked: Vec<bool>,
    /// worked out when it is first needed
    code: Option<Rc<Code>>,
}

impl Table {
    fn of(made: reference::Made) -> Result<Table, u8> {
        match made {
            (0, n, t, shifts) => Ok(Table { plan: Plan { n, t, shifts }, symbols: vec![0; n * t], marked: vec![false; n * t], code: None }),
            (number, ..) => Err(number),
        }
    }

    fn code(&mut self) -> Rc<Code> {
        let plan = self.plan;
        self.code.get_or_insert_with(|| Rc::new(Code::of(&plan))).clone()
    }

    fn recover(&mut self) -> (&'static str, Line) {
        let code = self.code();
        let large = self.symbols.len() >= LARGE;
        match code.agree(&self.symbols, &self.marked) {
            Agree::One(whole) => {
                let count = self.marked.iter().filter(|m| **m).count();
                self.symbols = whole;
                self.marked.fill(false);
                let word = if count == 0 { "recovered 0" } else { ["recovered", "recovered, large"][usize::from(large)] };
                (word, Line::Text(format!("recovered {count}")))
            }
            Agree::Two(_) => (["loose", "loose, large"][usize::from(large)], Line::Ring(code, self.marked.clone())),
            Agree::None(rows) => {
                let line = numbers("crossed", &[&[rows.len()], &rows[..]].concat());
                (["crossed", "crossed, large"][usize::from(large)], Line::Text(line))
            }
        }
    }

    /// "Job command 0D prints `fetch`, the count and the list."
    fn fetch(&mut self) -> (&'static str, Line) {
        let list = self.code().fetch(&self.marked);
        let word = match (list.len(), self.marked.contains(&true), self.marked.contains(&false)) {
            (0, false, _) => "no marks",
            (0, true, _) => "empty",
            (_, _, false) => "all marked",
            _ if self.symbols.len() >= LARGE => "listed, large",
            _ => "listed",
        };
        (word, Line::Text(numbers("fetch", &[&[list.len()], &list[..]].concat())))
    }

    fn seal(&mut self) -> Line {
        let code = self.code();
        let data: Vec<u8> = code.message_places.iter().map(|c| self.symbols[*c]).collect();
        self.symbols = code.encode(&data);
        self.marked.fill(false);
        Line::Text(format!("sealed {}", data.len()))
    }
}

fn numbers(word: &str, list: &[usize]) -> String {
    list.iter().fold(word.to_string(), |line, x| line + " " + &x.to_string())
}

/// A command on what stands on the desk: the line that it writes, and in a word what it did; or the number that refuses it.
fn perform(desk: &mut Option<Table>, first: u8, x: &[usize]) -> Result<(&'static str, Option<Line>), (u8, &'static str)> {
    let family = |made: reference::Made| {
        let word = if made.0 == 1 { "refused 1" } else { "refused 10" };
        Table::of(made).map_err(|number| (number, word))
    };
    // the commands that make a plan
    let made = match first {
        0x01 => Some(family(reference::plan_of(x[0], x[1], &vec![0; x[0]]))),
        0x0A => Some(family(reference::straight(x[0], x[1]))),
        0x0B => Some(family(reference::powers(x[0], x[1], x[2]))),
        0x0C => Some(family(reference::ruler(x[0]))),
        _ => None,
    };
    if let Some(made) = made {
        let word = if desk.is_some() { "another plan" } else { "first plan" };
        *desk = Some(made?);
        return Ok((word, None));
    }
    // the commands that need one
    let Some(table) = desk else { return Err((9, "refused 9, no plan")) };
    let places = table.symbols.len();
    let outside = Err((9, "refused 9, outside"));
    let line = match first {
        0x02 if x[0] >= table.plan.n => return outside,
        0x02 if x[1] >= table.plan.t => return Err((2, "refused 2")),
        0x03 | 0x04 | 0x08 if x[0] >= places => return outside,
        0x05 if x[0] + x[1] > places => return outside,
        0x02 => {
            table.plan.shifts[x[0]] = x[1] as u16;
            table.code = None;
            None
        }
        0x03 => {
            table.symbols[x[0]] = x[1] as u8;
            table.marked[x[0]] = false;
            None
        }
        0x04 => {
            table.marked[x[0]] = true;
            None
        }
        0x05 => {
            table.marked[x[0]..x[0] + x[1]].fill(true);
            if x[1] == 0 {
                return Ok((if x[0] == places { "no marks at the end" } else { "no marks" }, None));
            }
            None
        }
        0x06 => {
            let (word, line) = table.recover();
            return Ok((word, Some(line)));
        }
        0x07 => Some(table.seal()),
        0x08 => Some(Line::Text(format!("symbol {} {}", x[0], table.symbols[x[0]]))),
        0x0D => {
            let (word, line) = table.fetch();
            return Ok((word, Some(line)));
        }
        _ => Some(Line::Text(numbers("figures", &table.code().figures()))),
    };
    Ok(("done", line))
}

/// The sheet of a job.
pub fn sheet(job: &[u8]) -> Sheet {
    let (mut desk, mut at) = (None, 0);
    let mut sheet = Sheet { lines: vec![], events: vec![] };
    // "After `refused` the job stops"
    let refused = |sheet: &mut Sheet, number: u8, at: usize, event: Event| {
        sheet.lines.push(Line::Text(format!("refused {number} {at}")));
        sheet.events.push(event);
    };
    while at < job.len() {
        // "7, 8, 9, then the others"
        let first = job[at];
        let Some((_, widths)) = COMMANDS.iter().find(|(byte, _)| *byte == first) else {
            refused(&mut sheet, 7, at, (0, "refused 7"));
            return sheet;
        };
        let mut end = at + 1;
        let mut operands = vec![];
        for width in *widths {
            let bytes = job.iter().skip(end).take(*width);
            // "low byte first"
            operands.push(bytes.rev().fold(0, |number, byte| 256 * number + usize::from(*byte)));
            end += width;
        }
        if end > job.len() {
            refused(&mut sheet, 8, at, (first, "refused 8"));
            return sheet;
        }
        match perform(&mut desk, first, &operands) {
            Ok((word, line)) => {
                sheet.events.push((first, word));
                sheet.lines.extend(line);
            }
            Err((number, word)) => {
                refused(&mut sheet, number, at, (first, word));
                return sheet;
            }
        }
        at = end;
    }
    sheet.lines.push(Line::Text("end".to_string()));
    sheet.events.push((0, "end"));
    sheet
}

impl Line {
    /// Whether this is the line, without its line end.
    fn is(&self, line: &str) -> bool {
        match self {
            Line::Text(text) => text == line,
            Line::Ring(code, marked) => {
                let list: Option<Vec<usize>> = line.split(' ').skip(2).map(|word| word.parse().ok()).collect();
                let Some(list) = list else { return false };
                // the numbers as 01 writes them, and the count that is theirs
                numbers("loose", &[&[list.len()], &list[..]].concat()) == line && code.is_cycle(&list, marked)
            }
        }
    }
}

impl Sheet {
    /// What is wrong with the bytes that a program wrote, if anything is.
    pub fn differs(&self, written: &[u8]) -> Option<String> {
        let text = String::from_utf8_lossy(written);
        let mut rest = text.split_inclusive('\n');
        for (i, line) in self.lines.iter().enumerate() {
            let got = rest.next().unwrap_or("");
            if !got.strip_suffix('\n').is_some_and(|got| line.is(got)) {
                let wanted = match line {
                    Line::Text(text) => text,
                    Line::Ring(..) => "loose and a ring",
                };
                return Some(format!("line {i}: wanted {wanted:?}, got {got:?}"));
            }
        }
        rest.next().map(|more| format!("after the last line: {more:?}"))
    }
}
