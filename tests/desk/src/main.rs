//! Tests of the desk program from outside: what passes between it and the system, which no contract speaks of.
//!
//! Every sheet is compared to the byte. The run ends with status 1 if one is not as documents 01 and 02 say, or if the program hangs.

mod job;
#[allow(dead_code)]
#[path = "../../differential/src/prng.rs"]
mod prng;
mod program;

use job::{Job, COMMANDS, EVERY, FETCHES, SAMPLE};
use prng::Prng;
use program::{fault, file_of, finish, hung, run, start, Feed, Ran, PIPE};
use std::fs::{File, OpenOptions};
use std::io::{Read, Write};
use std::os::fd::{AsRawFd, OwnedFd};
use std::os::unix::net::UnixStream;
use std::path::PathBuf;
use std::process::{Child, ChildStdin, ChildStdout, Stdio};
use std::thread::sleep;
use std::time::Duration;

const SEED: u64 = 20_261_116;
/// The program reads so many bytes at once, and writes when so many wait or a line more. Jobs and sheets have their turns around it.
const BUFFER: usize = 65_536;
/// Failures that are shown before the run is broken off.
const MOST_FAILURES: usize = 10;

const FIONREAD: u64 = 0x541B;
const SIGPIPE: i32 = 13;
const SIGCONT: i32 = 18;
const SIGSTOP: i32 = 19;
const IGNORE: usize = 1;

extern "C" {
    fn close(fd: i32) -> i32;
    fn ioctl(fd: i32, request: u64, ...) -> i32;
    fn kill(process: i32, signal: i32) -> i32;
    fn signal(signal: i32, handler: usize) -> usize;
}

/// The bytes that stand in a pipe.
fn waiting(pipe: &impl AsRawFd) -> usize {
    let mut count = 0i32;
    let answer = unsafe { ioctl(pipe.as_raw_fd(), FIONREAD, &mut count) };
    assert!(answer == 0, "FIONREAD of a pipe");
    count as usize
}

fn text(bytes: &[u8]) -> String {
    let end = bytes.len().min(120);
    let more = if end < bytes.len() { format!(" .. ({} bytes)", bytes.len()) } else { String::new() };
    format!("{:?}{more}", String::from_utf8_lossy(&bytes[..end]))
}

type Test = (&'static str, fn(&mut Tests));

struct Tests {
    rng: Prng,
    name: &'static str,
    sheets: usize,
    failures: usize,
}

impl Tests {
    fn fail(&mut self, what: &str, why: &str) {
        self.failures += 1;
        println!("FAILED {}: {what}: {why}", self.name);
        if self.failures >= MOST_FAILURES {
            self.give_up("too many failures");
        }
    }

    fn give_up(&self, why: &str) -> ! {
        println!("desk tests FAILED: {why}, the rest is left out");
        std::process::exit(1)
    }

    /// A sheet beside the one that is due.
    fn hold(&mut self, what: &str, ran: &Ran, wanted: &[u8]) {
        self.sheets += 1;
        if let Some(fault) = ran.fault() {
            self.fail(what, &fault);
        }
        if hung(ran.status) {
            self.give_up("a program that hangs");
        }
        if ran.sheet != wanted {
            let same = ran.sheet.iter().zip(wanted).take_while(|(a, b)| a == b).count();
            let line = wanted[..same].iter().rposition(|b| *b == b'\n').map_or(0, |at| at + 1);
            self.fail(what, &format!("differs at byte {same}: wanted {}, got {}", text(&wanted[line..]), text(&ran.sheet[line..])));
        }
    }

    fn try_job(&mut self, what: &str, job: &[u8], feed: Feed, wanted: &str) {
        self.hold(what, &run(job, feed), wanted.as_bytes());
    }

    /// Cuts that sum up to the length, of sizes up to `most`.
    fn cuts(&mut self, length: usize, most: usize) -> Vec<usize> {
        let (mut list, mut sum) = (vec![], 0);
        while sum < length {
            list.push(self.rng.between(1, most));
            sum += list[list.len() - 1];
        }
        list
    }

    // ---- short jobs

    /// Every example: whole, byte by byte and in cuts.
    fn examples(&mut self) {
        let folder = PathBuf::from(env!("CARGO_MANIFEST_DIR")).join("../../examples");
        let mut jobs: Vec<PathBuf> = std::fs::read_dir(&folder).expect("the examples").map(|entry| entry.unwrap().path()).collect();
        jobs.retain(|path| path.extension().is_some_and(|x| x == "job"));
        jobs.sort();
        if jobs.is_empty() {
            self.fail("examples", "there are none");
        }
        for path in jobs {
            let (job, sheet) = (std::fs::read(&path).unwrap(), std::fs::read(path.with_extension("sheet")).unwrap_or_default());
            let name = path.file_stem().unwrap().to_string_lossy().into_owned();
            if name == "sample" && job != concat(&SAMPLE) {
                self.fail(&name, "is not the job of document 01");
            }
            self.hold(&name, &run(&job, Feed::Pipe), &sheet);
            self.hold(&format!("{name} from a file"), &run(&job, Feed::File), &sheet);
            self.hold(&format!("{name} byte by byte"), &run(&job, Feed::Cuts(&vec![1; job.len()])), &sheet);
            self.hold(&format!("{name} byte by byte through a pipe"), &by_bytes(&job), &sheet);
            for turn in 0..40 {
                let cuts = self.cuts(job.len(), 1 + turn % 12);
                self.hold(&format!("{name} in cuts of {cuts:?}"), &run(&job, Feed::Cuts(&cuts)), &sheet);
            }
        }
    }

    /// A job that ends at each of its bytes: the lines of the whole commands, then `end`, or `refused 8` with the offset of the one that is cut.
    fn ends_everywhere(&mut self, commands: &[(&[u8], Option<&str>)]) {
        let mut job = Job::default();
        for (command, line) in commands {
            self.ends_at(&job.bytes, &job.ended());
            for end in 1..command.len() {
                self.ends_at(&job.with(&command[..end]), &job.refused(8));
            }
            job.known(command, *line);
        }
        self.ends_at(&job.bytes, &job.ended());
    }

    fn ends_at(&mut self, job: &[u8], wanted: &str) {
        let what = format!("a job of {} bytes", job.len());
        self.try_job(&what, job, Feed::Pipe, wanted);
        let cuts = self.cuts(job.len(), 5);
        self.try_job(&format!("{what} in cuts of {cuts:?}"), job, Feed::Cuts(&cuts), wanted);
    }

    /// No bytes, and each byte alone; what comes after a refusal changes nothing.
    fn one_byte(&mut self) {
        self.try_job("an empty job", &[], Feed::Pipe, "end\n");
        self.try_job("an empty file", &[], Feed::File, "end\n");
        for byte in 0..=255u8 {
            let number = match byte {
                0x06 | 0x07 | 0x09 | 0x0D => 9,
                0x01..=0x0C => 8,
                _ => 7,
            };
            let wanted = format!("refused {number} 0\n");
            self.try_job(&format!("byte {byte:02X}"), &[byte], Feed::Pipe, &wanted);
            if number != 8 {
                self.try_job(&format!("byte {byte:02X} and a job"), &[&[byte], &concat(&EVERY)[..]].concat(), Feed::Pipe, &wanted);
            }
        }
    }

    /// Each job with fetch lists: whole, byte by byte and in cuts.
    fn fetches(&mut self) {
        for (job, sheet) in FETCHES {
            let what = format!("{job:02X?}");
            self.try_job(&what, job, Feed::Pipe, sheet);
            self.try_job(&format!("{what} byte by byte"), job, Feed::Cuts(&vec![1; job.len()]), sheet);
            for most in [2, 5, 12] {
                let cuts = self.cuts(job.len(), most);
                self.try_job(&format!("{what} in cuts of {cuts:?}"), job, Feed::Cuts(&cuts), sheet);
            }
        }
    }

    // ---- jobs and sheets longer than a buffer

    fn try_long(&mut self, what: &str, job: &[u8], wanted: &str) {
        assert!(job.len() < BUFFER || wanted.len() > BUFFER, "a long job with a long sheet");
        self.try_job(&format!("{what}, from a file"), job, Feed::File, wanted);
        self.try_job(&format!("{what}, through a pipe"), job, Feed::Pipe, wanted);
    }

    /// Every command, with each number of its bytes before the end of a full buffer, at the first and at the second such end; then the job goes on, or
    /// is cut there.
    fn straddling(&mut self) {
        for (command, line, then, then_line) in COMMANDS {
            for before in 0..=command.len() {
                // what is carried over is not read again, so the next buffer ends that much earlier
                let carried = before % command.len();
                let mut job = Job::of(2, 16);
                for (i, end) in [BUFFER, 2 * BUFFER - carried].into_iter().enumerate() {
                    job.fill_to(end - before - 4);
                    job.plan(2, 16);
                    let what = format!("{command:02X?} at {}", job.bytes.len());
                    if carried != 0 {
                        self.try_long(&format!("{what}, cut"), &job.with(&command[..before]), &job.refused(8));
                    }
                    job.known(command, line);
                    job.known(then, Some(then_line));
                    if i == 1 || before == 0 || before == command.len() {
                        self.try_long(&what, &job.bytes, &job.ended());
                    }
                    job.plan(2, 16);
                }
                // the same after a first buffer that ends between two commands
                let mut job = Job::of(2, 16);
                job.fill_to(BUFFER);
                job.fill_to(2 * BUFFER - before - 4);
                job.plan(2, 16);
                let what = format!("{command:02X?} at {}", job.bytes.len());
                job.known(command, line);
                job.known(then, Some(then_line));
                job.show(1);
                self.try_job(&format!("{what}, from a file"), &job.bytes, Feed::File, &job.ended());
            }
        }
    }

    /// Refusals around the ends of the first two buffers; what follows is not performed.
    fn refused_far(&mut self) {
        let after = concat(&EVERY);
        for end in [BUFFER, 2 * BUFFER] {
            for offset in end - 7..=end + 7 {
                let mut job = Job::of(2, 16);
                job.fill_to(offset);
                let byte = self.rng.pick(&[0x00, 0x0E, 0x10, 0x45, 0x80, 0xFF]);
                self.try_long(&format!("byte {byte:02X} at {offset}"), &job.with(&[byte]), &job.refused(7));
                self.try_long(&format!("byte {byte:02X} at {offset} and more"), &job.with(&[&[byte], &after[..]].concat()), &job.refused(7));
                for command in [&[0x08, 32, 0][..], &[0x03, 32, 0, 1], &[0x05, 31, 0, 2, 0], &[0x02, 2, 1, 0]] {
                    let what = format!("{command:02X?} at {offset}");
                    self.try_job(&what, &job.with(command), Feed::File, &job.refused(9));
                    self.try_job(&format!("{what} and more"), &job.with(&[command, &after[..]].concat()), Feed::File, &job.refused(9));
                    self.try_job(&format!("{what}, cut"), &job.with(&command[..2]), Feed::File, &job.refused(8));
                }
                self.try_job(&format!("a job of {offset} bytes"), &job.bytes, Feed::File, &job.ended());
            }
        }
    }

    /// Long jobs in cuts of many sizes.
    fn long_in_cuts(&mut self) {
        let mut job = Job::of(32, 64);
        job.fill_to(3 * BUFFER + 1);
        for most in [3, 50, 700, 5_000, 32_768, 32_768] {
            let cuts = self.cuts(job.bytes.len(), most);
            self.try_job(&format!("in cuts of up to {most}"), &job.bytes, Feed::Cuts(&cuts), &job.ended());
            self.try_job(&format!("in cuts of up to {most}, refused"), &job.with(&[0x0E, 0x09]), Feed::Cuts(&cuts), &job.refused(7));
        }
    }

    /// The longest lines, where the sheet's buffer ends.
    fn long_lists(&mut self) {
        const T: u16 = 2_048;
        // Straight, n 16: with two neighbouring sections marked there is one ring, of 4,096 places. From a place one comes by the top row to the same
        // symbol of the other section, and by the bottom row from symbol k of section j + 1 to symbol k - 1 of section j.
        let ring = |j: u16| {
            let (low, high) = (j * T, (j + 1) * T);
            (0..T).map(|i| (T - i) % T).flat_map(|k| [low + k, high + k]).map(|c| format!(" {c}")).collect::<String>()
        };
        // Without the marks of symbol k of these two, top row k is by itself and all other rows are joined. A symbol k elsewhere crosses both groups.
        let rows = |k: u16| (0..2 * T).filter(|row| *row != k).map(|row| format!(" {row}")).collect::<String>();
        for length in BUFFER - 12..=BUFFER + 12 {
            let j = self.rng.pick(&[0, 3, 14]);
            let k = self.rng.between(1, usize::from(T) - 1) as u16;
            let mut job = Job::of(16, T);
            job.bytes = vec![0x0A, 16, 0, 8];
            job.lines_to(length);
            job.run(j * T, 2 * T);
            job.known(&[0x06], Some(&format!("loose 4096{}", ring(j))));
            job.show(32_767);
            job.known(&[0x06], Some(&format!("loose 4096{}", ring(j))));
            self.try_job(&format!("a ring after {length} bytes"), &job.bytes, Feed::File, &job.ended());

            let mut job = Job::of(16, T);
            job.bytes = vec![0x0A, 16, 0, 8];
            job.lines_to(length);
            job.run(j * T, 2 * T);
            for section in [j, j + 1] {
                job.symbol(section * T + k, 0);
            }
            job.symbol((j + 2) % 16 * T + k, 77);
            for _ in 0..3 {
                job.known(&[0x06], Some(&format!("crossed 4095{}", rows(k))));
            }
            job.show(0);
            self.try_job(&format!("rows after {length} bytes"), &job.bytes, Feed::File, &job.ended());
        }
    }

    /// The longest line that there is, longer than a buffer: alone, then several times where the sheet's buffer ends; whole and in cuts.
    fn longest_line(&mut self) {
        let mut job = Job::default();
        job.longest_lines(1);
        assert!(job.bytes == [0x01, 0x20, 0x00, 0x04, 0x05, 0x00, 0x00, 0x00, 0x80, 0x0D] && job.sheet.len() == 179_366, "the longest line");
        for feed in [Feed::Pipe, Feed::File, Feed::Cuts(&[1; 10])] {
            self.try_job("alone", &job.bytes, feed, &job.ended());
            self.try_job("and an unknown byte", &job.with(&[0x0E, 0x0D]), feed, &job.refused(7));
            self.try_job("and a command that is cut", &job.with(&[0x08, 0]), feed, &job.refused(8));
        }
        for length in BUFFER - 12..=BUFFER + 12 {
            let mut job = Job::of(2, 16);
            job.lines_to(length);
            job.longest_lines(1);
            job.show(32_767);
            job.longest_lines(2);
            self.try_job(&format!("after {length} bytes"), &job.bytes, Feed::File, &job.ended());
            let cuts = self.cuts(job.bytes.len(), 4_000);
            self.try_job(&format!("after {length} bytes, in cuts of {cuts:?}"), &job.bytes, Feed::Cuts(&cuts), &job.ended());
        }
    }

    // ---- the program's two ends

    /// The lines that are due come before more of the job is there; and after a refusal the program ends though more could come.
    fn lines_when_due(&mut self) {
        let mut job = Open::of();
        job.write(&[0x01, 3, 7, 0, 0x08, 2, 0]);
        self.due(&mut job, "the first line", "symbol 2 0\n");
        job.write(&[0x03, 2, 0, 8, 0x08, 2, 0, 0x08, 3]);
        self.due(&mut job, "a line before a cut command", "symbol 2 8\n");
        job.write(&[0, 0x06]);
        self.due(&mut job, "two lines", "symbol 3 0\ncrossed 1 2\n");
        job.write(&[0x04, 2]);
        job.write(&[0]);
        job.write(&[0x06, 0x09]);
        self.due(&mut job, "two more", "recovered 1\nfigures 7 1 1 2\n");
        job.write(&[0x05, 6, 0, 15, 0, 0x0D]);
        self.due(&mut job, "a list", "fetch 8 6 7 8 9 10 11 12 13\n");
        drop(job.stdin.take());
        self.due(&mut job, "the last line", "end\n");
        self.over(job, "after the end of the job");

        for (bytes, line) in [(&[0x0E][..], "refused 7 4\n"), (&[0x08, 21, 0], "refused 9 4\n"), (&[0x0A, 2, 1, 0], "refused 10 4\n")] {
            let mut job = Open::of();
            job.write(&[0x01, 3, 7, 0]);
            job.write(bytes);
            self.due(&mut job, "a refusal", line);
            self.over(job, "after a refusal");
        }
    }

    /// What has to come next, with the job still open.
    fn due(&mut self, job: &mut Open, what: &str, wanted: &str) {
        let mut got = vec![0; wanted.len()];
        let mut read = 0;
        while read < got.len() {
            match job.stdout.read(&mut got[read..]).expect("the sheet is read") {
                0 => break,
                more => read += more,
            }
        }
        if got[..read] != *wanted.as_bytes() {
            self.fail(what, &format!("wanted {wanted:?}, got {}", text(&got[..read])));
        }
    }

    /// Nothing more comes, and the program ends with the job still open.
    fn over(&mut self, mut job: Open, what: &str) {
        let mut more = vec![];
        job.stdout.read_to_end(&mut more).expect("the sheet is read");
        let status = job.child.wait().expect("the program is waited for");
        self.hold(what, &Ran { sheet: more, status }, b"");
    }

    /// The reader takes a long sheet in small pieces. The program is stopped and set going again while it waits in a write, which then ends before
    /// all is written.
    fn slow_reader(&mut self) {
        let mut lines = Job::of(32, 64);
        lines.fill_to(2 * BUFFER);
        let mut long_lines = Job::default();
        long_lines.longest_lines(3);
        for (job, most) in [(&lines, 900), (&lines, 5_000), (&lines, 40_000), (&long_lines, 5_000), (&long_lines, 40_000)] {
            let mut child = start(Stdio::from(file_of(&job.bytes)), Stdio::piped(), nothing);
            let mut stdout = child.stdout.take().unwrap();
            let mut sheet = vec![];
            loop {
                // the pipe is full, or all is written
                let mut before = usize::MAX;
                while waiting(&stdout) != before {
                    before = waiting(&stdout);
                    sleep(Duration::from_micros(300));
                }
                if child.try_wait().expect("the program is asked for").is_none() {
                    for signal in [SIGSTOP, SIGCONT] {
                        unsafe { kill(child.id() as i32, signal) };
                    }
                }
                let mut piece = vec![0; self.rng.between(1, most)];
                match stdout.read(&mut piece).expect("the sheet is read") {
                    0 => break,
                    read => sheet.extend_from_slice(&piece[..read]),
                }
            }
            let status = child.wait().expect("the program is waited for");
            self.hold(&format!("pieces of up to {most} bytes"), &Ran { sheet, status }, job.ended().as_bytes());
        }
    }

    /// The reader goes away at once or in the middle: the program ends, by the signal or, where that is ignored, by itself.
    fn reader_gone(&mut self) {
        let mut lines = Job::of(32, 64);
        lines.fill_to(2 * BUFFER);
        let mut long_lines = Job::default();
        long_lines.longest_lines(3);
        for job in [lines, long_lines] {
            self.reader_gone_from(&job);
        }
    }

    fn reader_gone_from(&mut self, job: &Job) {
        let sheet = job.ended();
        assert!(sheet.len() > 4 * PIPE, "a sheet that does not fit into a pipe");
        for (way, ignored) in [("by the signal", false), ("with the signal ignored", true)] {
            let before: fn() = if ignored { ignore_broken_pipe } else { nothing };
            for read in [0, 1, 10_000, PIPE, 2 * PIPE, sheet.len() - 2 * PIPE] {
                let mut child = start(Stdio::from(file_of(&job.bytes)), Stdio::piped(), before);
                let mut stdout = child.stdout.take().unwrap();
                let mut got = vec![0; read];
                let whole = stdout.read_exact(&mut got);
                drop(stdout);
                let status = child.wait().expect("the program is waited for");
                let what = format!("the reader goes after {read} bytes, {way}");
                if whole.is_err() || got != sheet.as_bytes()[..read] {
                    self.fail(&what, "what was read is no beginning of the sheet");
                }
                self.ended_early(&what, status);
            }
            // nobody ever reads, and the job stays open: the program reads no more after a write that failed
            let mut child = start(Stdio::piped(), Stdio::piped(), before);
            drop(child.stdout.take());
            let mut stdin = child.stdin.take().unwrap();
            let _ = stdin.write_all(&concat(&EVERY));
            let status = child.wait().expect("the program is waited for");
            drop(stdin);
            self.ended_early(&format!("no reader, {way}"), status);
        }
        // writes that fail
        for what in ["/dev/full", "a closed output"] {
            let full = OpenOptions::new().write(true).open("/dev/full").expect("/dev/full");
            let before: fn() = if what == "/dev/full" { nothing } else { close_output };
            let status = start(Stdio::from(file_of(&job.bytes)), Stdio::from(full), before).wait().expect("the program is waited for");
            self.ended_early(what, status);
        }
    }

    fn ended_early(&mut self, what: &str, status: std::process::ExitStatus) {
        use std::os::unix::process::ExitStatusExt;
        self.sheets += 1;
        match fault(status) {
            Some(fault) if status.signal() != Some(SIGPIPE) => self.fail(what, &fault),
            _ => (),
        }
        if hung(status) {
            self.give_up("a program that hangs");
        }
    }

    /// A job that cannot be read, from the beginning or from somewhere on: neither `end` nor `refused`.
    fn unreadable(&mut self) {
        let folder = || Stdio::from(File::open("/").expect("a folder"));
        let write_only = || Stdio::from(OpenOptions::new().write(true).open("/dev/null").expect("/dev/null"));
        self.hold("a folder", &finish(start(folder(), Stdio::piped(), nothing)), b"");
        self.hold("a file open for writing only", &finish(start(write_only(), Stdio::piped(), nothing)), b"");
        self.hold("a closed input", &finish(start(Stdio::null(), Stdio::piped(), close_input)), b"");

        // A socket whose other end is closed with bytes in it that were not read: the next read fails. It is closed when the lines have come, so that
        // read is the one after them.
        let whole = concat(&EVERY);
        let mut long = Job::of(2, 16);
        long.fill_to(BUFFER + 100);
        for (what, bytes, wanted) in [
            ("at the boundary of a command", &whole[..], lines(&EVERY)),
            ("inside a command", &[&whole[..], &[0x05, 1, 0]].concat(), lines(&EVERY)),
            ("before the first command", &[], String::new()),
            ("after a whole buffer", &long.bytes, long.sheet.clone()),
        ] {
            let (mut ours, mut theirs) = UnixStream::pair().expect("a pair of sockets");
            theirs.write_all(b"not read").expect("the unread bytes");
            let mut child = start(Stdio::from(OwnedFd::from(theirs)), Stdio::piped(), nothing);
            let mut stdout = child.stdout.take().unwrap();
            ours.write_all(bytes).expect("the job is written");
            let mut sheet = vec![0; wanted.len()];
            let _ = stdout.read_exact(&mut sheet);
            drop(ours);
            stdout.read_to_end(&mut sheet).expect("the sheet is read");
            let status = child.wait().expect("the program is waited for");
            self.hold(&format!("a read that fails {what}"), &Ran { sheet, status }, wanted.as_bytes());
        }
    }
}

// What is done in a new process before the program.

fn nothing() {}

fn ignore_broken_pipe() {
    unsafe { signal(SIGPIPE, IGNORE) };
}

fn close_input() {
    unsafe { close(0) };
}

fn close_output() {
    unsafe { close(1) };
}

fn concat(commands: &[(&[u8], Option<&str>)]) -> Vec<u8> {
    commands.iter().flat_map(|(bytes, _)| bytes.to_vec()).collect()
}

fn lines(commands: &[(&[u8], Option<&str>)]) -> String {
    commands.iter().filter_map(|(_, line)| line.map(|line| format!("{line}\n"))).collect()
}

/// A job through a pipe, each byte written when the ones before have been read: the pipe is empty then, so no read takes two of them.
fn by_bytes(job: &[u8]) -> Ran {
    let mut child = start(Stdio::piped(), Stdio::piped(), nothing);
    let mut stdin = child.stdin.take().unwrap();
    for byte in job {
        if stdin.write_all(&[*byte]).is_err() {
            break;
        }
        while waiting(&stdin) > 0 && child.try_wait().expect("the program is asked for").is_none() {
            sleep(Duration::from_micros(20));
        }
    }
    drop(stdin);
    finish(child)
}

/// A program whose job is not at its end yet.
struct Open {
    child: Child,
    stdin: Option<ChildStdin>,
    stdout: ChildStdout,
}

impl Open {
    fn of() -> Open {
        let mut child = start(Stdio::piped(), Stdio::piped(), nothing);
        let (stdin, stdout) = (child.stdin.take(), child.stdout.take().unwrap());
        Open { child, stdin, stdout }
    }

    fn write(&mut self, bytes: &[u8]) {
        let _ = self.stdin.as_mut().unwrap().write_all(bytes);
    }
}

fn main() {
    let start = std::time::Instant::now();
    let mut tests = Tests { rng: Prng::of(SEED), name: "", sheets: 0, failures: 0 };
    let all: [Test; 14] = [
        ("examples", Tests::examples),
        ("the sample job cut everywhere", |tests| tests.ends_everywhere(&SAMPLE)),
        ("every command cut everywhere", |tests| tests.ends_everywhere(&EVERY)),
        ("one byte", Tests::one_byte),
        ("fetch lists", Tests::fetches),
        ("lines when due", Tests::lines_when_due),
        ("reader gone", Tests::reader_gone),
        ("unreadable", Tests::unreadable),
        ("slow reader", Tests::slow_reader),
        ("long lists", Tests::long_lists),
        ("the longest line", Tests::longest_line),
        ("long jobs in cuts", Tests::long_in_cuts),
        ("refused far", Tests::refused_far),
        ("straddling", Tests::straddling),
    ];
    for (name, test) in all {
        let (from, sheets) = (std::time::Instant::now(), tests.sheets);
        tests.name = name;
        test(&mut tests);
        println!("{name}: {} sheets, {:.1} s", tests.sheets - sheets, from.elapsed().as_secs_f64());
    }
    println!("desk tests: {} sheets, {} failures, {:.1} s", tests.sheets, tests.failures, start.elapsed().as_secs_f64());
    if tests.failures > 0 {
        println!("desk tests FAILED");
        std::process::exit(1);
    }
}
