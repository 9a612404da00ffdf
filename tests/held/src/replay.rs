//! One replay: what document 01 asks around the Rust's calls, and the output.

use std::io::{self, Write};
use std::sync::Arc;

use held_injector::gate::Unwound;
use held_injector::hall::{Answer, Call, Hall, Order, Queue, Report};
use held_injector::line::Line;

use crate::dump;
use crate::text::{self, Command};

/// The counts of the first line.
#[derive(Clone, Copy)]
pub struct Setup {
    pub threads: u64,
    pub blocks: u64,
    pub ceiling: u64,
}

impl Setup {
    fn is_allowed(self) -> bool {
        (1..=8).contains(&self.threads)
            && (2..=32).contains(&self.blocks)
            && (1..=4_294_967_295).contains(&self.ceiling)
    }
}

/// What the command line asks for.
#[derive(Clone, Default)]
pub struct Options {
    pub lifo: Vec<u64>,
    pub dump: bool,
    pub slips: bool,
}

/// A thread of the queue as the driver knows it.
#[derive(Clone, Copy, Default)]
pub struct Seat {
    /// Where its open call stands.
    pub stands: Option<Line>,
    pub ring: u64,
}

pub struct Replay<'a, W: Write> {
    hall: &'a Hall,
    pub queue: Arc<Queue>,
    pub seats: Vec<Seat>,
    pub steps: u64,
    pub line: u64,
    pub out: &'a mut W,
}

const NO_THREAD: u64 = 3;
const BUSY: u64 = 4;
const NO_LIMIT: u64 = 5;
const NO_ROOM: u64 = 6;
const IDLE: u64 = 7;
const NO_BLOCK: u64 = 8;
const SPENT: u64 = 9;

/// Replays a whole text.
pub fn replay(hall: &Hall, text: &[u8], options: &Options, out: &mut impl Write) -> io::Result<()> {
    let mut lines = text::lines(text);
    let first = lines.next().unwrap_or(Err(()));
    let Some(setup) = first.ok().and_then(text::queue) else {
        return out.write_all(b"1\tbad\nend\t0\n");
    };
    let Setup {
        threads,
        blocks,
        ceiling,
    } = setup;
    writeln!(out, "queue\t{threads}\t{blocks}\t{ceiling}")?;
    if !setup.is_allowed() {
        return out.write_all(b"1\trefused\t1\nend\t0\n");
    }
    let mut replay = Replay::new(hall, setup, options, out);
    replay.commands(lines, options)?;
    writeln!(replay.out, "end\t{}", replay.steps)?;
    if options.dump {
        dump::memory(&mut replay)?;
    }
    replay.abandon();
    if options.dump {
        dump::rings(&mut replay)?;
    }
    Ok(())
}

impl<'a, W: Write> Replay<'a, W> {
    fn new(hall: &'a Hall, setup: Setup, options: &Options, out: &'a mut W) -> Self {
        let queue = Queue::new(setup.blocks as usize, setup.ceiling);
        for thread in 0..setup.threads {
            let lifo = options.lifo.contains(&thread);
            hall.ask(thread as usize, Order::Join(queue.clone(), lifo));
        }
        Replay {
            hall,
            queue,
            seats: vec![Seat::default(); setup.threads as usize],
            steps: 0,
            line: 1,
            out,
        }
    }

    fn commands<'t>(
        &mut self,
        lines: impl Iterator<Item = Result<&'t [u8], ()>>,
        options: &Options,
    ) -> io::Result<()> {
        for line in lines {
            self.line = self.line.saturating_add(1);
            let line = line.ok();
            let Some(command) = line.and_then(|line| text::command(line, options.slips)) else {
                return writeln!(self.out, "{}\tbad", self.line);
            };
            self.command(command)?;
            if options.dump {
                dump::after(self, command)?;
            }
        }
        Ok(())
    }

    fn command(&mut self, command: Command) -> io::Result<()> {
        match command {
            Command::Push(thread, token) => self.begin(thread, Call::Push(token)),
            Command::Steal(thread) => self.begin(thread, Call::Steal),
            Command::Batch(thread, limit) => self.begin(thread, Call::Batch(limit as usize)),
            Command::Take(thread, limit) => self.begin(thread, Call::Take(limit as usize)),
            Command::Length(thread) => self.begin(thread, Call::Length),
            Command::Empty(thread) => self.begin(thread, Call::Empty),
            Command::Pop(thread) => self.pop(thread),
            Command::Step(thread) => self.advance(thread, Order::Steps(1), false),
            Command::Run(thread, budget) => self.advance(thread, Order::Steps(budget), true),
            Command::Slip(thread) => self.advance(thread, Order::Slip, false),
        }
    }

    fn begin(&mut self, thread: u64, call: Call) -> io::Result<()> {
        if let Some(number) = self.begin_refusal(thread, call) {
            return self.refuse(thread, number);
        }
        self.ask(thread, Order::Begin(call))
    }

    /// Tested before the Rust is called, in the order of the numbers.
    fn begin_refusal(&self, thread: u64, call: Call) -> Option<u64> {
        let Some(seat) = self.seats.get(thread as usize) else {
            return Some(NO_THREAD);
        };
        if seat.stands.is_some() {
            return Some(BUSY);
        }
        // The Rust's `reserve` would resize; here the ring has 64 places.
        let arriving = match call {
            Call::Batch(0) | Call::Take(0) => return Some(NO_LIMIT),
            Call::Batch(limit) => limit.min(63) as u64,
            Call::Take(limit) => limit.min(63) as u64 - 1,
            _ => 0,
        };
        (seat.ring + arriving > 64).then_some(NO_ROOM)
    }

    fn pop(&mut self, thread: u64) -> io::Result<()> {
        match self.seats.get(thread as usize) {
            None => self.refuse(thread, NO_THREAD),
            Some(seat) if seat.stands.is_some() => self.refuse(thread, BUSY),
            Some(_) => self.ask(thread, Order::Pop),
        }
    }

    /// Step, slip and run; a run with its budget used says `open`.
    fn advance(&mut self, thread: u64, order: Order, run: bool) -> io::Result<()> {
        match self.seats.get(thread as usize) {
            None => return self.refuse(thread, NO_THREAD),
            Some(seat) if seat.stands.is_none() => return self.refuse(thread, IDLE),
            Some(_) => {}
        }
        if !matches!(order, Order::Steps(0)) {
            self.ask(thread, order)?;
        }
        let still_open = self.seats[thread as usize].stands.is_some();
        // A call that ended has told its answer.
        if run && still_open {
            return self.tell(thread, "open", None);
        }
        Ok(())
    }

    /// Lets a thread move, and tells what came of it.
    fn ask(&mut self, thread: u64, order: Order) -> io::Result<()> {
        let told = self.hall.ask(thread as usize, order);
        self.steps = self.steps.saturating_add(told.made);
        let seat = &mut self.seats[thread as usize];
        seat.ring = told.ring as u64;
        seat.stands = match told.report {
            Report::Stands(line) => Some(line),
            _ => None,
        };
        match told.report {
            Report::Ended(answer) => self.answer(thread, answer),
            Report::Popped(Some(token)) => self.tell(thread, "task", Some(token)),
            Report::Popped(None) => self.tell(thread, "none", None),
            _ => Ok(()),
        }
    }

    fn answer(&mut self, thread: u64, answer: Answer) -> io::Result<()> {
        match answer {
            Answer::Pushed => self.tell(thread, "pushed", None),
            Answer::Task(token) => self.tell(thread, "task", Some(token)),
            Answer::Moved => self.tell(thread, "moved", None),
            Answer::Empty => self.tell(thread, "empty", None),
            Answer::Retry => self.tell(thread, "retry", None),
            Answer::Length(length) => self.tell(thread, "len", Some(length)),
            Answer::IsEmpty(true) => self.tell(thread, "yes", None),
            Answer::IsEmpty(false) => self.tell(thread, "no", None),
            Answer::Unwound(Unwound::NoBlock) => self.refuse(thread, NO_BLOCK),
            Answer::Unwound(Unwound::Spent) => self.refuse(thread, SPENT),
            Answer::Unwound(Unwound::Abandoned) => Ok(()),
        }
    }

    fn refuse(&mut self, thread: u64, number: u64) -> io::Result<()> {
        self.tell(thread, "refused", Some(number))
    }

    fn tell(&mut self, thread: u64, word: &str, number: Option<u64>) -> io::Result<()> {
        match number {
            Some(number) => writeln!(self.out, "{}\t{thread}\t{word}\t{number}", self.line),
            None => writeln!(self.out, "{}\t{thread}\t{word}", self.line),
        }
    }

    /// Calls still open at the end are left as they stand: their threads unwind and tell nothing.
    fn abandon(&mut self) {
        for (thread, seat) in self.seats.iter_mut().enumerate() {
            if seat.stands.take().is_some() {
                self.hall.ask(thread, Order::Abandon);
            }
        }
    }

    /// The tokens of a ring from front to back, once no call is open.
    pub fn ring(&self, thread: usize) -> Vec<u64> {
        match self.hall.ask(thread, Order::Ring).report {
            Report::Ring(tokens) => tokens,
            other => unreachable!("asked for a ring, told {other:?}"),
        }
    }
}
