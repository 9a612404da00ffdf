//! More than the text: lines that start with `#`, the same from every program of these tests.
//!
//! After each command: `#`, line number, thread, the table line where its call stands (`-` if
//! none), steps made, head index, head block, tail index, tail block, blocks taken, tokens in its
//! ring. After `end`: each taken block with its next, slot states and tokens, then each ring.

use std::io::{self, Write};

use held_injector::{peek, pool};

use crate::replay::{Replay, Seat};
use crate::text::Command;

pub fn after<W: Write>(replay: &mut Replay<'_, W>, command: Command) -> io::Result<()> {
    let thread = thread_of(command);
    let seat = replay.seats.get(thread as usize);
    let Seat { stands, ring } = seat.copied().unwrap_or_default();
    let stands = stands.map_or("-".to_string(), |line| line.to_string());
    let head = peek::head(&replay.queue.injector);
    let tail = peek::tail(&replay.queue.injector);
    let taken = pool::taken().count();
    writeln!(
        replay.out,
        "#\t{}\t{thread}\t{stands}\t{}\t{}\t{}\t{}\t{}\t{taken}\t{ring}",
        replay.line, replay.steps, head.index, head.block, tail.index, tail.block,
    )
}

fn thread_of(command: Command) -> u64 {
    match command {
        Command::Push(thread, _) | Command::Batch(thread, _) | Command::Take(thread, _) => thread,
        Command::Steal(thread) | Command::Length(thread) | Command::Empty(thread) => thread,
        Command::Pop(thread) | Command::Step(thread) | Command::Slip(thread) => thread,
        Command::Run(thread, _) => thread,
    }
}

pub fn memory<W: Write>(replay: &mut Replay<'_, W>) -> io::Result<()> {
    for number in pool::taken() {
        let block = peek::block(number);
        let next = block.next.map_or("-".to_string(), |next| next.to_string());
        write!(replay.out, "#block\t{number}\t{next}\t")?;
        for state in block.states {
            write!(replay.out, "{state}")?;
        }
        for token in block.tokens {
            write!(replay.out, "\t{token}")?;
        }
        writeln!(replay.out)?;
    }
    Ok(())
}

pub fn rings<W: Write>(replay: &mut Replay<'_, W>) -> io::Result<()> {
    for thread in 0..replay.seats.len() {
        write!(replay.out, "#ring\t{thread}")?;
        for token in replay.ring(thread) {
            write!(replay.out, "\t{token}")?;
        }
        writeln!(replay.out)?;
    }
    Ok(())
}
