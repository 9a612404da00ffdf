//! Writes commands and follows them on the plain machine, so that the next one can be chosen by
//! where each call stands.

use std::io::Write;

use plain::coverage::Unwatched;
use plain::index::{lap, offset};
use plain::machine::{Answer, Call, Line, Machine, Thread};

use crate::random::Random;

/// The counts of a program's first line.
#[derive(Clone, Copy)]
pub struct Size {
    pub threads: usize,
    pub blocks: usize,
    pub ceiling: u64,
}

pub struct Author {
    pub random: Random,
    pub machine: Machine,
    pub text: Vec<u8>,
    /// Whether a step may be a slip (document 02 [1]).
    pub slips: bool,
    pushed: u64,
}

impl Author {
    pub fn new(random: Random, size: Size, lifo: &[u64], slips: bool) -> Author {
        let Size {
            threads,
            blocks,
            ceiling,
        } = size;
        let machine = Machine::setup(threads as u64, blocks as u64, ceiling, lifo);
        let mut author = Author {
            random,
            machine: machine.expect("a family asks for allowed counts"),
            text: Vec::new(),
            slips,
            pushed: 0,
        };
        author.write(format_args!("queue\t{threads}\t{blocks}\t{ceiling}"));
        author
    }

    pub fn write(&mut self, line: std::fmt::Arguments<'_>) {
        writeln!(self.text, "{line}").expect("memory takes every byte");
    }

    pub fn threads(&self) -> usize {
        self.machine.threads.len()
    }

    pub fn any_thread(&mut self) -> usize {
        let threads = self.threads();
        self.random.below(threads)
    }

    pub fn thread(&self, thread: usize) -> &Thread {
        &self.machine.threads[thread]
    }

    pub fn line(&self, thread: usize) -> Option<Line> {
        self.thread(thread).line
    }

    pub fn idle(&self) -> Vec<usize> {
        (0..self.threads())
            .filter(|&thread| self.line(thread).is_none())
            .collect()
    }

    pub fn open(&self) -> Vec<usize> {
        (0..self.threads())
            .filter(|&thread| self.line(thread).is_some())
            .collect()
    }

    pub fn tail_offset(&self) -> usize {
        offset(self.machine.tail.index)
    }

    pub fn tail_lap(&self) -> u64 {
        lap(self.machine.tail.index)
    }

    pub fn head_offset(&self) -> usize {
        offset(self.machine.head.index)
    }

    pub fn head_lap(&self) -> u64 {
        lap(self.machine.head.index)
    }

    /// Mostly numbers that tell where they came from, some of any width.
    fn token(&mut self) -> u64 {
        self.pushed += 1;
        match self.random.below(16) {
            0 => self.random.next(),
            1 => self.random.pick(&[0, 1, u64::MAX, 1 << 32]),
            _ => self.pushed,
        }
    }

    /// Begins a call; false if it is refused.
    pub fn begin(&mut self, thread: usize, call: Call) -> bool {
        match call {
            Call::Push(token) => self.write(format_args!("push\t{thread}\t{token}")),
            Call::Steal => self.write(format_args!("steal\t{thread}")),
            Call::Batch(limit) => self.write(format_args!("batch\t{thread}\t{limit}")),
            Call::Take(limit) => self.write(format_args!("take\t{thread}\t{limit}")),
            Call::Length => self.write(format_args!("len\t{thread}")),
            Call::Empty => self.write(format_args!("empty\t{thread}")),
        }
        self.machine.begin(thread as u64, call).is_ok()
    }

    pub fn push(&mut self, thread: usize) -> bool {
        let token = self.token();
        self.begin(thread, Call::Push(token))
    }

    pub fn pop(&mut self, thread: usize) {
        self.write(format_args!("pop\t{thread}"));
        // A busy thread's pop is refused; that is for the replay to tell.
        let _ = self.machine.pop(thread as u64);
    }

    /// One step, now and then slipped.
    pub fn step(&mut self, thread: usize) -> Option<Answer> {
        let at_compare = matches!(self.line(thread), Some(Line::P4 | Line::S4));
        if self.slips && self.random.percent(if at_compare { 15 } else { 1 }) {
            self.write(format_args!("slip\t{thread}"));
            return self.machine.slip(thread as u64, &mut Unwatched).ok()?;
        }
        self.write(format_args!("step\t{thread}"));
        self.machine.step(thread as u64, &mut Unwatched).ok()?
    }

    pub fn run(&mut self, thread: usize, budget: u64) -> Option<Answer> {
        self.write(format_args!("run\t{thread}\t{budget}"));
        let ran = self.machine.run(thread as u64, budget, &mut Unwatched);
        ran.ok()?.answer
    }

    /// Steps until the call stands where `there` says, has ended, or only waits.
    pub fn bring(&mut self, thread: usize, there: impl Fn(&Thread) -> bool) -> bool {
        for _ in 0..400 {
            if self.line(thread).is_none() {
                return false;
            }
            if there(self.thread(thread)) {
                return true;
            }
            self.step(thread);
        }
        false
    }

    pub fn bring_to(&mut self, thread: usize, line: Line) -> bool {
        self.bring(thread, |call| call.line == Some(line))
    }

    /// A whole call at once, by an idle thread.
    pub fn whole(&mut self, call: Call) -> Option<Answer> {
        let idle = self.idle();
        if idle.is_empty() {
            return None;
        }
        let thread = self.random.pick(&idle);
        let call = match call {
            Call::Push(_) => Call::Push(self.token()),
            other => other,
        };
        if !self.begin(thread, call) {
            return None;
        }
        self.run(thread, 500)
    }

    /// Whole pushes until the tail stands there or no push is accepted any more.
    pub fn fill_until(&mut self, there: impl Fn(&Author) -> bool) {
        while !there(self) {
            if self.whole(Call::Push(0)) != Some(Answer::Pushed) {
                return;
            }
        }
    }

    pub fn fill(&mut self, pushes: usize) {
        for _ in 0..pushes {
            self.whole(Call::Push(0));
        }
    }

    /// Whole steals and batches with their pops, until the head stands there or nothing comes.
    pub fn drain_until(&mut self, there: impl Fn(&Author) -> bool) {
        while !there(self) {
            let idle = self.idle();
            let Some(&thread) = idle.first() else { return };
            let thread = if self.random.percent(50) {
                thread
            } else {
                self.random.pick(&idle)
            };
            let room = (64 - self.thread(thread).ring.len()) as u64;
            let call = match self.random.below(3) {
                1 if room > 0 => Call::Batch(room.min(1 + self.random.next() % 63)),
                2 => Call::Take(1 + room.min(self.random.next() % 62)),
                _ => Call::Steal,
            };
            let came = self.begin(thread, call) && self.drained(thread);
            if !came {
                return;
            }
            while !self.thread(thread).ring.is_empty() && self.random.percent(97) {
                self.pop(thread);
            }
        }
    }

    fn drained(&mut self, thread: usize) -> bool {
        matches!(self.run(thread, 500), Some(Answer::Task(_) | Answer::Moved))
    }
}
