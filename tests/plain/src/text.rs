//! Document 01's replay text: lines out of a stream, and one line to one command.

use std::io::{self, Read};

use crate::machine::Call;

pub enum Command {
    Begin(u64, Call),
    Pop(u64),
    Step(u64),
    Run(u64, u64),
    /// Document 02 [1]; only where it is switched on.
    Slip(u64),
}

impl Command {
    pub fn thread(&self) -> u64 {
        match *self {
            Command::Begin(thread, _) | Command::Run(thread, _) => thread,
            Command::Pop(thread) | Command::Step(thread) | Command::Slip(thread) => thread,
        }
    }
}

/// Takes a later line apart; none if it is malformed.
pub fn command(line: &[u8], slips: bool) -> Option<Command> {
    let (word, rest) = word(line)?;
    let (thread, rest) = number(rest)?;
    let second = match rest {
        [] => None,
        [b'\t', rest @ ..] => match number(rest)? {
            (value, []) => Some(value),
            _ => return None,
        },
        _ => return None,
    };
    Some(match (word, second) {
        (b"step", None) => Command::Step(thread),
        (b"run", Some(budget)) => Command::Run(thread, budget),
        (b"push", Some(token)) => Command::Begin(thread, Call::Push(token)),
        (b"steal", None) => Command::Begin(thread, Call::Steal),
        (b"batch", Some(limit)) => Command::Begin(thread, Call::Batch(limit)),
        (b"take", Some(limit)) => Command::Begin(thread, Call::Take(limit)),
        (b"len", None) => Command::Begin(thread, Call::Length),
        (b"empty", None) => Command::Begin(thread, Call::Empty),
        (b"pop", None) => Command::Pop(thread),
        (b"slip", None) if slips => Command::Slip(thread),
        _ => return None,
    })
}

/// The three counts of the first line; none if it is malformed.
pub fn queue(line: &[u8]) -> Option<[u64; 3]> {
    let (b"queue", rest) = word(line)? else {
        return None;
    };
    let (threads, rest) = number(rest)?;
    let (blocks, rest) = number(rest.strip_prefix(b"\t")?)?;
    let (ceiling, rest) = number(rest.strip_prefix(b"\t")?)?;
    rest.is_empty().then_some([threads, blocks, ceiling])
}

/// The first field, and what comes after its tab.
fn word(line: &[u8]) -> Option<(&[u8], &[u8])> {
    let tab = line.iter().position(|&byte| byte == b'\t')?;
    Some((&line[..tab], &line[tab + 1..]))
}

/// A decimal without a needless zero, at most 2^64 - 1, and what comes after it.
fn number(field: &[u8]) -> Option<(u64, &[u8])> {
    let mut value = 0u64;
    let mut rest = field;
    while let [digit @ b'0'..=b'9', more @ ..] = rest {
        value = value
            .checked_mul(10)?
            .checked_add(u64::from(digit - b'0'))?;
        rest = more;
    }
    let digits = field.len() - rest.len();
    if digits == 0 || (digits > 1 && field[0] == b'0') {
        return None;
    }
    Some((value, rest))
}

/// The longest line, without its line feed.
const LONGEST_LINE: usize = 80;
const PIECE: usize = 1 << 16;

/// Reads a stream line by line in constant memory.
pub struct Lines<R> {
    input: R,
    buffer: Vec<u8>,
    start: usize,
    end: usize,
}

/// What comes next in a stream.
pub enum Next<'a> {
    Line(&'a [u8]),
    /// Too long, or without its line feed.
    Malformed,
    End,
}

impl<R: Read> Lines<R> {
    pub fn new(input: R) -> Self {
        Lines {
            input,
            buffer: vec![0; PIECE],
            start: 0,
            end: 0,
        }
    }

    pub fn next(&mut self) -> io::Result<Next<'_>> {
        loop {
            let left = &self.buffer[self.start..self.end];
            let window = &left[..left.len().min(LONGEST_LINE + 1)];
            if let Some(length) = window.iter().position(|&byte| byte == b'\n') {
                let line = self.start..self.start + length;
                self.start += length + 1;
                return Ok(Next::Line(&self.buffer[line]));
            }
            if window.len() > LONGEST_LINE {
                return Ok(Next::Malformed);
            }
            if self.refill()? == 0 {
                return Ok(if self.start == self.end {
                    Next::End
                } else {
                    Next::Malformed
                });
            }
        }
    }

    /// Moves what is left to the front and reads on behind it.
    fn refill(&mut self) -> io::Result<usize> {
        self.buffer.copy_within(self.start..self.end, 0);
        self.end -= self.start;
        self.start = 0;
        loop {
            match self.input.read(&mut self.buffer[self.end..]) {
                Err(error) if error.kind() == io::ErrorKind::Interrupted => {}
                outcome => {
                    let read = outcome?;
                    self.end += read;
                    return Ok(read);
                }
            }
        }
    }
}
