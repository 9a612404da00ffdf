//! The log for speed: half of its steps by `step` lines of eight threads in turn, half by `run`
//! lines.

use std::io::{self, Write};

use plain::coverage::Unwatched;
use plain::machine::{Call, Machine};

use crate::random::Random;

const THREADS: u64 = 8;
/// Steps in a stretch of one kind, before the other kind has its turn.
const STRETCH: u64 = 100_000;

struct Log<O> {
    machine: Machine,
    random: Random,
    steps: u64,
    out: O,
}

/// Writes a log of so many steps.
pub fn write(seed: u64, steps: u64, out: impl Write) -> io::Result<()> {
    let machine = Machine::setup(THREADS, 32, 4_294_967_295, &[]);
    let mut log = Log {
        machine: machine.expect("these counts are allowed"),
        random: Random::of_program(seed, 0),
        steps: 0,
        out,
    };
    writeln!(log.out, "queue\t{THREADS}\t32\t4294967295")?;
    let mut by_step = true;
    while log.steps < steps {
        let end = (log.steps + STRETCH).min(steps);
        if by_step {
            log.steps_in_turn(end)?;
        } else {
            log.runs(end)?;
        }
        by_step = !by_step;
    }
    log.out.flush()
}

impl<O: Write> Log<O> {
    fn steps_in_turn(&mut self, end: u64) -> io::Result<()> {
        for thread in (0..THREADS).cycle() {
            if self.steps == end {
                return Ok(());
            }
            self.open(thread)?;
            writeln!(self.out, "step\t{thread}")?;
            self.steps += 1;
            let stepped = self.machine.step(thread, &mut Unwatched);
            stepped.expect("a call is open");
        }
        Ok(())
    }

    fn runs(&mut self, end: u64) -> io::Result<()> {
        while self.steps < end {
            let Some(thread) = self.able() else {
                unreachable!("some thread can always go on");
            };
            self.open(thread)?;
            let budget = self.budget(thread).min(end - self.steps);
            writeln!(self.out, "run\t{thread}\t{budget}")?;
            let ran = self.machine.run(thread, budget, &mut Unwatched);
            self.steps += ran.expect("a call is open").steps;
        }
        Ok(())
    }

    /// Mostly whole calls; little where another call was left standing, because waiting for it is
    /// counted and not made.
    fn budget(&mut self, thread: u64) -> u64 {
        let mut calls = self.machine.threads.iter().zip(0..);
        let others_open = calls.any(|(call, other)| other != thread && call.line.is_some());
        match (others_open, self.random.percent(5)) {
            (_, true) => 4,
            (true, _) => 12,
            (false, _) => 100,
        }
    }

    /// A thread that a run does not find waiting: its steps would be counted and not made.
    fn able(&mut self) -> Option<u64> {
        let first = self.random.next();
        (0..THREADS)
            .map(|i| first.wrapping_add(i) % THREADS)
            .find(|&thread| self.machine.can_only_wait(thread as usize).is_none())
    }

    /// Begins a call on an idle thread: pushes against steals, and enough pops for the rings.
    fn open(&mut self, thread: u64) -> io::Result<()> {
        if self.machine.threads[thread as usize].line.is_some() {
            return Ok(());
        }
        while self.machine.threads[thread as usize].ring.len() > 48 {
            writeln!(self.out, "pop\t{thread}")?;
            self.machine.pop(thread).expect("no call is open");
        }
        let behind = self.machine.tail.index - self.machine.head.index;
        let full = behind > 20 * 128;
        let call = match self.random.below(16) {
            0..=8 if !full => Call::Push(self.random.next() >> 40),
            9 => Call::Batch(1 + self.random.next() % 8),
            10 => Call::Take(1 + self.random.next() % 8),
            11 => Call::Length,
            12 => Call::Empty,
            _ => Call::Steal,
        };
        match call {
            Call::Push(token) => writeln!(self.out, "push\t{thread}\t{token}")?,
            Call::Steal => writeln!(self.out, "steal\t{thread}")?,
            Call::Batch(limit) => writeln!(self.out, "batch\t{thread}\t{limit}")?,
            Call::Take(limit) => writeln!(self.out, "take\t{thread}\t{limit}")?,
            Call::Length => writeln!(self.out, "len\t{thread}")?,
            Call::Empty => writeln!(self.out, "empty\t{thread}")?,
        }
        self.machine.begin(thread, call).expect("the ring has room");
        Ok(())
    }
}
