//! The calls of the static library, made by a program in C on guarded
//! buffers, which runs beside this one.

use std::io::{self, BufReader, Read, Write};
use std::path::Path;
use std::process::{Child, ChildStdin, ChildStdout, Command, Stdio};

use testing::generate::singles;

use crate::case::{Call, Given};
use crate::expected::Done;

/// The program's number for a call, its argument, its day and its society. A
/// date is its year and month, the month 16 bits up, and its day. The steps of a
/// path are asked for by the program itself.
fn code(call: Call) -> (u32, u32, i32, u16) {
    let call = match call {
        Call::Begin => return (0, 0, 0, 0),
        Call::Read => return (6, 0, 0, 0),
        Call::Largest(track) => return (9, u32::from(track), 0, 0),
        Call::Other(call) => call,
    };
    match call {
        singles::Call::Event(event, day, society) => (1, u32::from(event), day, society),
        singles::Call::Signal(society) => (2, 0, 0, society),
        singles::Call::Fire(track, society) => (3, u32::from(track), 0, society),
        singles::Call::Ready => (4, 0, 0, 0),
        singles::Call::Entries(track) => (5, u32::from(track), 0, 0),
        singles::Call::DateOfDay(day) => (7, 0, day, 0),
        singles::Call::DayOfDate(date) => {
            let month = u32::from(date.month) << 16;
            (8, month | u32::from(date.year), i32::from(date.day), 0)
        }
    }
}

/// The program, started.
pub fn start(program: &Path) -> io::Result<(Child, Requests, Answers)> {
    let mut child = Command::new(program)
        .stdin(Stdio::piped())
        .stdout(Stdio::piped())
        .spawn()?;
    let requests = child.stdin.take().ok_or(io::ErrorKind::BrokenPipe)?;
    let answers = child.stdout.take().ok_or(io::ErrorKind::BrokenPipe)?;
    Ok((child, Requests(requests), Answers(BufReader::new(answers))))
}

/// Where calls are asked for.
pub struct Requests(ChildStdin);

impl Requests {
    /// Asks for a call, in one write.
    pub fn send(&mut self, given: &Given) -> io::Result<()> {
        let (call, argument, day, society) = code(given.call);
        let numbers = [
            call,
            argument,
            day as u32,
            u32::from(society),
            given.options(),
            given.plan.len() as u32,
            given.words.len() as u32,
        ];
        let mut bytes = Vec::with_capacity(28 + given.plan.len() + 2 * given.words.len());
        for number in numbers {
            bytes.extend(number.to_ne_bytes());
        }
        bytes.extend(&given.plan);
        for word in &given.words {
            bytes.extend(word.to_ne_bytes());
        }
        self.0.write_all(&bytes)
    }
}

/// Where answers are read, in the order of the calls.
pub struct Answers(BufReader<ChildStdout>);

impl Answers {
    /// The next answer, of this call.
    pub fn next(&mut self, given: &Given) -> io::Result<Done> {
        Ok(Done {
            answer: self.number()?,
            words: self.words(given.words.len())?,
            steps: match given.call {
                Call::Largest(_) => self.steps()?,
                _ => Vec::new(),
            },
        })
    }

    fn number(&mut self) -> io::Result<u64> {
        let mut bytes = [0; 8];
        self.0.read_exact(&mut bytes)?;
        Ok(u64::from_ne_bytes(bytes))
    }

    fn words(&mut self, count: usize) -> io::Result<Vec<u16>> {
        let mut bytes = vec![0; 2 * count];
        self.0.read_exact(&mut bytes)?;
        let words = bytes.chunks_exact(2);
        Ok(words.map(|w| u16::from_ne_bytes([w[0], w[1]])).collect())
    }

    /// A count, and as many answers.
    fn steps(&mut self) -> io::Result<Vec<u64>> {
        let mut count = [0; 4];
        self.0.read_exact(&mut count)?;
        let count = u32::from_ne_bytes(count);
        (0..count).map(|_| self.number()).collect()
    }
}
