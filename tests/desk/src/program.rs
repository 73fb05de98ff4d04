//! The desk program as a process: a job goes in, in one of three ways, and its sheet comes out.

use std::fs::File;
use std::io::{self, Read, Write};
use std::os::fd::OwnedFd;
use std::os::unix::net::UnixDatagram;
use std::os::unix::process::{CommandExt, ExitStatusExt};
use std::path::PathBuf;
use std::process::{Child, Command, ExitStatus, Stdio};
use std::sync::atomic::{AtomicUsize, Ordering};
use std::thread;

/// Seconds after which a program that still runs is ended; a job takes a small part of one.
const LIMIT: u32 = 30;
const SIGALRM: i32 = 14;
/// What a new pipe holds: so much can be written before anything is read.
pub const PIPE: usize = 65_536;
/// No piece is longer: what a read has no room for would be lost.
const PIECE: usize = 32_768;

extern "C" {
    fn alarm(seconds: u32) -> u32;
}

/// How a job comes to the program.
#[derive(Clone, Copy)]
pub enum Feed<'a> {
    /// through a pipe, written at once
    Pipe,
    /// from a file, so that every read is as long as the program asks for
    File,
    /// in pieces of these sizes, each of which is a read of its own; what is left after them comes in the largest pieces
    Cuts(&'a [usize]),
}

pub struct Ran {
    pub sheet: Vec<u8>,
    pub status: ExitStatus,
}

impl Ran {
    /// How the program ended, if that was not by itself.
    pub fn fault(&self) -> Option<String> {
        fault(self.status)
    }
}

pub fn fault(status: ExitStatus) -> Option<String> {
    match status.signal() {
        Some(SIGALRM) => Some(format!("the program had not ended after {LIMIT} s")),
        Some(signal) => Some(format!("the program was ended by signal {signal}")),
        None => None,
    }
}

pub fn hung(status: ExitStatus) -> bool {
    status.signal() == Some(SIGALRM)
}

/// FUMIZHAKI_DESK, else the one that is built in this repository.
pub fn path() -> PathBuf {
    let built = || PathBuf::from(env!("CARGO_MANIFEST_DIR")).join("../../crates/desk/out/desk");
    std::env::var_os("FUMIZHAKI_DESK").map_or_else(built, PathBuf::from)
}

/// Starts the program; `before` is called in the new process, where only what is safe between fork and exec may be done.
/// An alarm outlives exec: it ends a program that hangs, whichever way it does.
pub fn start(stdin: Stdio, stdout: Stdio, before: fn()) -> Child {
    let program = path();
    let mut command = Command::new(&program);
    command.stdin(stdin).stdout(stdout);
    let prepare = move || {
        unsafe { alarm(LIMIT) };
        before();
        Ok(())
    };
    let started = unsafe { command.pre_exec(prepare) }.spawn();
    started.unwrap_or_else(|error| {
        println!("the desk program {} cannot be started: {error}", program.display());
        std::process::exit(1)
    })
}

/// A file with this content that has no name any more.
pub fn file_of(content: &[u8]) -> File {
    static NEXT: AtomicUsize = AtomicUsize::new(0);
    let number = NEXT.fetch_add(1, Ordering::Relaxed);
    let name = std::env::temp_dir().join(format!("desk-job-{}-{number}", std::process::id()));
    std::fs::write(&name, content).expect("a temporary file is written");
    let file = File::open(&name).expect("the temporary file is opened");
    std::fs::remove_file(&name).expect("the temporary file is removed");
    file
}

/// The job's pieces, none of them empty.
fn pieces<'a>(job: &'a [u8], cuts: &[usize]) -> Vec<&'a [u8]> {
    let (mut list, mut rest) = (vec![], job);
    for cut in cuts {
        let (piece, after) = rest.split_at((*cut).min(rest.len()));
        list.extend(piece.chunks(PIECE));
        rest = after;
    }
    list.extend(rest.chunks(PIECE));
    list
}

/// Performs a job. A program may stop before it has read all of it, so an error in writing the job is none here.
pub fn run(job: &[u8], feed: Feed) -> Ran {
    match feed {
        Feed::Pipe => {
            let mut child = start(Stdio::piped(), Stdio::piped(), || ());
            let mut stdin = child.stdin.take().unwrap();
            if job.len() <= PIPE {
                let _ = stdin.write_all(job);
                drop(stdin);
                finish(child)
            } else {
                thread::scope(|scope| {
                    scope.spawn(move || stdin.write_all(job));
                    finish(child)
                })
            }
        }
        Feed::File => finish(start(Stdio::from(file_of(job)), Stdio::piped(), || ())),
        // A read of a datagram socket takes one datagram and never part of the next, and an empty one is a read of 0 bytes, as at the end of a file.
        Feed::Cuts(cuts) => {
            let (ours, theirs) = UnixDatagram::pair().expect("a pair of sockets");
            let child = start(Stdio::from(OwnedFd::from(theirs)), Stdio::piped(), || ());
            thread::scope(|scope| {
                scope.spawn(move || {
                    let sent: io::Result<()> = pieces(job, cuts).into_iter().try_for_each(|piece| ours.send(piece).map(|_| ()));
                    sent.and_then(|()| ours.send(&[]))
                });
                finish(child)
            })
        }
    }
}

/// Reads the sheet to its end and waits for the program's.
pub fn finish(mut child: Child) -> Ran {
    let mut sheet = vec![];
    child.stdout.take().unwrap().read_to_end(&mut sheet).expect("the sheet is read");
    Ran { sheet, status: child.wait().expect("the program is waited for") }
}
