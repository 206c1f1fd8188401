//! Runs the program on an input and reads all that it prints.

use std::fs::{self, File};
use std::io::{self, ErrorKind, Read, Write, pipe};
use std::path::PathBuf;
use std::process::{ChildStdin, Command, ExitStatus, Stdio};
use std::thread::sleep;
use std::time::Duration;

use crate::random::Random;

/// The time between two pieces of an input.
const PAUSE: Duration = Duration::from_millis(1);

/// How an input comes.
#[derive(Clone, Copy)]
pub enum Feed {
    File,
    Pipe,
    /// By a pipe in pieces, so that a read gets only a part.
    Pieces(usize),
}

impl Feed {
    pub fn name(&self) -> &'static str {
        match self {
            Feed::File => "a file",
            Feed::Pipe => "a pipe",
            Feed::Pieces(_) => "a pipe, in pieces",
        }
    }

    pub fn any(random: &mut Random) -> Feed {
        match random.below(16) {
            0 => Feed::Pieces(random.range(2, 4)),
            1..=4 => Feed::File,
            _ => Feed::Pipe,
        }
    }
}

/// A program with its arguments, and a file for its input that no other
/// thread uses.
pub struct Program {
    pub path: PathBuf,
    pub arguments: &'static [&'static str],
    pub scratch: PathBuf,
}

impl Program {
    /// What it prints, messages of error included, and how it ends.
    pub fn run(&self, input: &[u8], feed: Feed) -> io::Result<(Vec<u8>, ExitStatus)> {
        let (mut printed, out) = pipe()?;
        let mut command = Command::new(&self.path);
        command.args(self.arguments);
        command.stderr(out.try_clone()?).stdout(out);
        match feed {
            Feed::File => {
                fs::write(&self.scratch, input)?;
                command.stdin(File::open(&self.scratch)?)
            }
            _ => command.stdin(Stdio::piped()),
        };
        let mut child = command.spawn()?;
        // The pipe's end for writing, which the command holds.
        drop(command);
        if let Some(stdin) = child.stdin.take() {
            write(stdin, input, feed)?;
        }
        let mut text = Vec::new();
        printed.read_to_end(&mut text)?;
        Ok((text, child.wait()?))
    }
}

/// A program may stop reading once the input is too long.
fn write(mut to: ChildStdin, input: &[u8], feed: Feed) -> io::Result<()> {
    let pieces = match feed {
        Feed::Pieces(count) => count,
        _ => 1,
    };
    let size = input.len().div_ceil(pieces).max(1);
    for piece in input.chunks(size) {
        if pieces > 1 {
            sleep(PAUSE);
        }
        match to.write_all(piece) {
            Err(error) if error.kind() == ErrorKind::BrokenPipe => return Ok(()),
            written => written?,
        }
    }
    Ok(())
}
