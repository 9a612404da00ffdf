//! Document 01's replay text: one line to one command.

use crate::replay::Setup;

#[derive(Clone, Copy, PartialEq, Eq, Debug)]
pub enum Command {
    Push(u64, u64),
    Steal(u64),
    Batch(u64, u64),
    Take(u64, u64),
    Length(u64),
    Empty(u64),
    Pop(u64),
    Step(u64),
    Run(u64, u64),
    /// Document 02 [1]; only where it is switched on.
    Slip(u64),
}

const LONGEST_LINE: usize = 80;

/// The lines of a text, each without its line feed; an error where the line feed is missing.
pub fn lines(text: &[u8]) -> impl Iterator<Item = Result<&[u8], ()>> {
    text.split_inclusive(|&byte| byte == b'\n')
        .map(|line| line.strip_suffix(b"\n").ok_or(()))
}

fn fields(line: &[u8]) -> Option<Vec<&str>> {
    if line.len() > LONGEST_LINE {
        return None;
    }
    Some(std::str::from_utf8(line).ok()?.split('\t').collect())
}

/// The first line's counts, in range or not; none if the line is malformed.
pub fn queue(line: &[u8]) -> Option<Setup> {
    match fields(line)?.as_slice() {
        ["queue", threads, blocks, ceiling] => Some(Setup {
            threads: number(threads)?,
            blocks: number(blocks)?,
            ceiling: number(ceiling)?,
        }),
        _ => None,
    }
}

/// Any later line; none if it is malformed.
pub fn command(line: &[u8], slips: bool) -> Option<Command> {
    Some(match fields(line)?.as_slice() {
        ["push", thread, token] => Command::Push(number(thread)?, number(token)?),
        ["steal", thread] => Command::Steal(number(thread)?),
        ["batch", thread, limit] => Command::Batch(number(thread)?, number(limit)?),
        ["take", thread, limit] => Command::Take(number(thread)?, number(limit)?),
        ["len", thread] => Command::Length(number(thread)?),
        ["empty", thread] => Command::Empty(number(thread)?),
        ["pop", thread] => Command::Pop(number(thread)?),
        ["step", thread] => Command::Step(number(thread)?),
        ["run", thread, budget] => Command::Run(number(thread)?, number(budget)?),
        ["slip", thread] if slips => Command::Slip(number(thread)?),
        _ => return None,
    })
}

/// A decimal without a needless zero, at most 2^64 - 1.
fn number(field: &str) -> Option<u64> {
    let digits_only = field.bytes().all(|byte| byte.is_ascii_digit());
    let needless_zero = field.len() > 1 && field.starts_with('0');
    if !digits_only || needless_zero {
        return None;
    }
    field.parse().ok()
}
