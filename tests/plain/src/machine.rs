//! The machine: the shared fields, the thread records, and what may be done with them.

use crate::coverage::{Branch, Watch};
use crate::index::{offset, BLOCK_CAP};
use crate::memory::{BlockNumber, Pool, WRITE};
use crate::ring::Ring;

/// A line of the step table that an open call makes next.
#[rustfmt::skip]
#[derive(Clone, Copy, PartialEq, Eq, Debug)]
pub enum Line {
    P1, P2, P3, P4, P5, P6, P7, P8, P9, P10,
    S1, S2, S3, S4, S5, S6, S7, S8, S9, S10, S11, S12, S13, S14,
    L1, L2, L3,
    E1, E2,
}

#[derive(Clone, Copy, PartialEq, Eq, Debug)]
pub enum Call {
    Push(u64),
    Steal,
    Batch(u64),
    Take(u64),
    Length,
    Empty,
}

#[derive(Clone, Copy, PartialEq, Eq, Debug)]
pub enum Answer {
    Pushed,
    Task(u64),
    Moved,
    Empty,
    Retry,
    Length(u64),
    Yes,
    No,
    Refused(Refusal),
}

/// Document 01's numbers, as far as a replay can meet them.
#[derive(Clone, Copy, PartialEq, Eq, Debug)]
pub enum Refusal {
    BadSetup = 1,
    NoThread = 3,
    Busy = 4,
    NoLimit = 5,
    NoRoom = 6,
    Idle = 7,
    NoBlock = 8,
    Spent = 9,
}

/// Head or tail.
#[derive(Clone, Copy)]
pub struct End {
    pub index: u64,
    pub block: BlockNumber,
}

/// A thread's ring, and where its call stands with that call's own numbers.
#[derive(Clone)]
pub struct Thread {
    pub ring: Ring,
    /// None: no call is open.
    pub line: Option<Line>,
    pub call: Call,
    /// t of a push, h of a steal, the first tail of a length, the head of an empty.
    pub index: u64,
    /// The block loaded with that index.
    pub block: BlockNumber,
    /// A push's block that is not linked yet.
    pub held: Option<BlockNumber>,
    pub(crate) spent: bool,
    /// A steal's claim: so many slots from the offset of `index` on.
    pub(crate) advance: usize,
    /// S4's new value; length's head.
    pub(crate) new_head: u64,
    pub(crate) next: BlockNumber,
    pub(crate) next_has_next: bool,
    /// The slot that S9 to S13 look at.
    pub slot: usize,
    /// Tokens read and not yet in the ring.
    pub(crate) read: [u64; BLOCK_CAP],
}

impl Thread {
    fn new(lifo: bool) -> Thread {
        Thread {
            ring: Ring::new(lifo),
            line: None,
            call: Call::Empty,
            index: 0,
            block: 0,
            held: None,
            spent: false,
            advance: 0,
            new_head: 0,
            next: 0,
            next_has_next: false,
            slot: 0,
            read: [0; BLOCK_CAP],
        }
    }

    /// The call goes on at this line.
    pub(crate) fn to(&mut self, line: Line) -> Option<Answer> {
        self.line = Some(line);
        None
    }

    /// The call ends.
    pub(crate) fn end(&mut self, answer: Answer) -> Option<Answer> {
        self.line = None;
        Some(answer)
    }
}

pub struct Machine {
    pub head: End,
    pub tail: End,
    pub pool: Pool,
    pub(crate) ceiling: u64,
    pub threads: Vec<Thread>,
}

/// What a run came to.
pub struct Ran {
    pub steps: u64,
    /// None: the budget is used and the call still open.
    pub answer: Option<Answer>,
}

impl Machine {
    /// None where a count is out of its range.
    pub fn setup(threads: u64, blocks: u64, ceiling: u64, lifo: &[u64]) -> Option<Machine> {
        let allowed = (1..=8).contains(&threads)
            && (2..=32).contains(&blocks)
            && (1..=4_294_967_295).contains(&ceiling);
        if !allowed {
            return None;
        }
        let mut pool = Pool::new(blocks as usize);
        let block = pool.take()?;
        Some(Machine {
            head: End { index: 0, block },
            tail: End { index: 0, block },
            pool,
            ceiling,
            threads: (0..threads)
                .map(|thread| Thread::new(lifo.contains(&thread)))
                .collect(),
        })
    }

    fn thread(&mut self, thread: u64) -> Result<&mut Thread, Refusal> {
        let thread = usize::try_from(thread).map_err(|_| Refusal::NoThread)?;
        self.threads.get_mut(thread).ok_or(Refusal::NoThread)
    }

    fn idle(&mut self, thread: u64) -> Result<&mut Thread, Refusal> {
        let thread = self.thread(thread)?;
        if thread.line.is_some() {
            return Err(Refusal::Busy);
        }
        Ok(thread)
    }

    pub fn begin(&mut self, thread: u64, call: Call) -> Result<(), Refusal> {
        let thread = self.idle(thread)?;
        let arriving = match call {
            Call::Batch(0) | Call::Take(0) => return Err(Refusal::NoLimit),
            Call::Batch(limit) => limit.min(63) as usize,
            Call::Take(limit) => limit.min(63) as usize - 1,
            _ => 0,
        };
        if !thread.ring.has_room(arriving) {
            return Err(Refusal::NoRoom);
        }
        thread.call = call;
        thread.spent = false;
        thread.line = Some(match call {
            Call::Push(_) => Line::P1,
            Call::Steal | Call::Batch(_) | Call::Take(_) => Line::S1,
            Call::Length => Line::L1,
            Call::Empty => Line::E1,
        });
        Ok(())
    }

    pub fn pop(&mut self, thread: u64) -> Result<Option<u64>, Refusal> {
        Ok(self.idle(thread)?.ring.pop())
    }

    /// One step of a thread; an answer if its call ended.
    pub fn step<W: Watch>(
        &mut self,
        thread: u64,
        watch: &mut W,
    ) -> Result<Option<Answer>, Refusal> {
        let line = self.thread(thread)?.line.ok_or(Refusal::Idle)?;
        Ok(self.make(thread as usize, line, watch))
    }

    /// As a step, but a compare fails (document 02 [1]).
    pub fn slip<W: Watch>(
        &mut self,
        thread: u64,
        watch: &mut W,
    ) -> Result<Option<Answer>, Refusal> {
        let line = self.thread(thread)?.line.ok_or(Refusal::Idle)?;
        let call = &mut self.threads[thread as usize];
        Ok(match line {
            Line::P4 => {
                watch.step();
                watch.reach(Branch::P4Slipped);
                call.compare_failed(self.tail.index)
            }
            Line::S4 => {
                watch.step();
                watch.reach(Branch::S4Slipped);
                call.end(Answer::Retry)
            }
            _ => self.make(thread as usize, line, watch),
        })
    }

    /// Steps until the call ends or the budget is used.
    pub fn run<W: Watch>(
        &mut self,
        thread: u64,
        budget: u64,
        watch: &mut W,
    ) -> Result<Ran, Refusal> {
        let mut line = self.thread(thread)?.line.ok_or(Refusal::Idle)?;
        let thread = thread as usize;
        let mut left = budget;
        while left > 0 {
            if let Some(turn) = self.can_only_wait(thread) {
                if left >= turn {
                    watch.reach(Branch::RunWaits);
                    // Nobody else moves: whole turns are counted and not made.
                    left %= turn;
                    continue;
                }
            }
            left -= 1;
            if let Some(answer) = self.make(thread, line, watch) {
                return Ok(Ran {
                    steps: budget - left,
                    answer: Some(answer),
                });
            }
            let next = self.threads[thread].line;
            line = next.expect("a call without an answer is open");
        }
        Ok(Ran {
            steps: budget,
            answer: None,
        })
    }

    /// The number of steps after which this call, alone, stands where it stands now.
    pub fn can_only_wait(&self, thread: usize) -> Option<u64> {
        let call = &self.threads[thread];
        match call.line? {
            Line::P1 if offset(self.tail.index) == BLOCK_CAP => Some(2),
            Line::S1 if offset(self.head.index) == BLOCK_CAP => Some(2),
            Line::S5 if self.pool[call.block].next.is_none() => Some(1),
            Line::S9 if self.pool[call.block].states[call.slot] & WRITE == 0 => Some(1),
            _ => None,
        }
    }

    #[inline]
    fn make(&mut self, thread: usize, line: Line, watch: &mut impl Watch) -> Option<Answer> {
        watch.step();
        match line {
            Line::P1 => self.p1(thread, watch),
            Line::P2 => self.p2(thread, watch),
            Line::P3 => self.p3(thread, watch),
            Line::P4 => self.p4(thread, watch),
            Line::P5 => self.p5(thread, watch),
            Line::P6 => self.p6(thread, watch),
            Line::P7 => self.p7(thread, watch),
            Line::P8 => self.p8(thread, watch),
            Line::P9 => self.p9(thread, watch),
            Line::P10 => self.p10(thread, watch),
            Line::S1 => self.s1(thread, watch),
            Line::S2 => self.s2(thread, watch),
            Line::S3 => self.s3(thread, watch),
            Line::S4 => self.s4(thread, watch),
            Line::S5 => self.s5(thread, watch),
            Line::S6 => self.s6(thread, watch),
            Line::S7 => self.s7(thread, watch),
            Line::S8 => self.s8(thread, watch),
            Line::S9 => self.s9(thread, watch),
            Line::S10 => self.s10(thread, watch),
            Line::S11 => self.s11(thread, watch),
            Line::S12 => self.s12(thread, watch),
            Line::S13 => self.s13(thread, watch),
            Line::S14 => self.s14(thread, watch),
            Line::L1 => self.l1(thread, watch),
            Line::L2 => self.l2(thread, watch),
            Line::L3 => self.l3(thread, watch),
            Line::E1 => self.e1(thread, watch),
            Line::E2 => self.e2(thread, watch),
        }
    }
}
