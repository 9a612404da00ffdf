//! Lines P1 to P10, a function a line.

use crate::coverage::{Branch, Watch};
use crate::index::{advanced, lap, offset, BLOCK_CAP};
use crate::machine::{Answer, Call, Line, Machine, Refusal, Thread};
use crate::memory::WRITE;

/// The slot whose push has to link the next block.
const LAST_SLOT: usize = BLOCK_CAP - 1;

impl Machine {
    pub(crate) fn p1(&mut self, thread: usize, watch: &mut impl Watch) -> Option<Answer> {
        watch.reach(Branch::P1);
        let call = &mut self.threads[thread];
        call.index = self.tail.index;
        call.to(Line::P2)
    }

    pub(crate) fn p2(&mut self, thread: usize, watch: &mut impl Watch) -> Option<Answer> {
        let call = &mut self.threads[thread];
        call.block = self.tail.block;
        let slot = offset(call.index);
        if slot == BLOCK_CAP {
            watch.reach(Branch::P2Offset63);
            return call.to(Line::P1);
        }
        if lap(call.index) >= self.ceiling {
            return call.spend(watch);
        }
        match (slot == LAST_SLOT, call.held.is_some()) {
            (true, false) => {
                watch.reach(Branch::P2Take);
                return call.to(Line::P3);
            }
            (true, true) => watch.reach(Branch::P2HeldAt62),
            (false, true) => watch.reach(Branch::P2CompareHeld),
            (false, false) => watch.reach(Branch::P2Compare),
        }
        call.to(Line::P4)
    }

    pub(crate) fn p3(&mut self, thread: usize, watch: &mut impl Watch) -> Option<Answer> {
        let call = &mut self.threads[thread];
        let Some(block) = self.pool.take() else {
            watch.reach(Branch::P3None);
            return call.end(Answer::Refused(Refusal::NoBlock));
        };
        watch.reach(Branch::P3Taken);
        watch.taken(block);
        call.held = Some(block);
        call.to(Line::P4)
    }

    pub(crate) fn p4(&mut self, thread: usize, watch: &mut impl Watch) -> Option<Answer> {
        let call = &mut self.threads[thread];
        let held = call.held.is_some();
        if self.tail.index != call.index {
            watch.either(held, Branch::P4FailedHeld, Branch::P4Failed);
            return call.compare_failed(self.tail.index);
        }
        self.tail.index = advanced(call.index, 1);
        if offset(call.index) != LAST_SLOT {
            watch.either(held, Branch::P4SetHeld, Branch::P4Set);
            return call.to(Line::P8);
        }
        watch.reach(Branch::P4SetAt62);
        self.count_racers(thread, watch);
        self.threads[thread].to(Line::P5)
    }

    pub(crate) fn p5(&mut self, thread: usize, watch: &mut impl Watch) -> Option<Answer> {
        watch.reach(Branch::P5);
        let call = &mut self.threads[thread];
        self.tail.block = call.held.expect("P5 holds a block");
        call.to(Line::P6)
    }

    pub(crate) fn p6(&mut self, thread: usize, watch: &mut impl Watch) -> Option<Answer> {
        watch.reach(Branch::P6);
        let call = &mut self.threads[thread];
        self.tail.index = advanced(call.index, 2);
        call.to(Line::P7)
    }

    pub(crate) fn p7(&mut self, thread: usize, watch: &mut impl Watch) -> Option<Answer> {
        watch.reach(Branch::P7);
        let call = &mut self.threads[thread];
        self.pool[call.block].next = call.held.take();
        call.to(Line::P8)
    }

    pub(crate) fn p8(&mut self, thread: usize, watch: &mut impl Watch) -> Option<Answer> {
        watch.reach(Branch::P8);
        let call = &mut self.threads[thread];
        let Call::Push(token) = call.call else {
            unreachable!("P8 is a line of push");
        };
        self.pool[call.block].tokens[offset(call.index)] = token;
        call.to(Line::P9)
    }

    pub(crate) fn p9(&mut self, thread: usize, watch: &mut impl Watch) -> Option<Answer> {
        let call = &mut self.threads[thread];
        self.pool[call.block].fetch_or(offset(call.index), WRITE);
        if call.held.is_some() {
            watch.reach(Branch::P9Held);
            return call.to(Line::P10);
        }
        watch.reach(Branch::P9Pushed);
        call.end(Answer::Pushed)
    }

    pub(crate) fn p10(&mut self, thread: usize, watch: &mut impl Watch) -> Option<Answer> {
        let call = &mut self.threads[thread];
        let held = call.held.take().expect("P10 holds a block");
        self.pool.give_back(held);
        if call.spent {
            watch.reach(Branch::P10Spent);
            return call.end(Answer::Refused(Refusal::Spent));
        }
        watch.reach(Branch::P10Pushed);
        call.end(Answer::Pushed)
    }

    /// How many other pushers were about to end the same lap.
    fn count_racers<W: Watch>(&self, thread: usize, watch: &mut W) {
        if !W::COUNTS {
            return;
        }
        let index = self.threads[thread].index;
        let racers = self.threads.iter().enumerate().filter(|&(other, call)| {
            let about_to = matches!(call.line, Some(Line::P2 | Line::P3 | Line::P4));
            other != thread && about_to && call.index == index
        });
        match racers.count() {
            0 => {}
            1 => watch.reach(Branch::LapEndRacedByTwo),
            _ => watch.reach(Branch::LapEndRacedByThree),
        }
    }
}

impl Thread {
    /// P2 found the lap at the ceiling.
    fn spend(&mut self, watch: &mut impl Watch) -> Option<Answer> {
        if self.held.is_some() {
            watch.reach(Branch::P2SpentHeld);
            self.spent = true;
            return self.to(Line::P10);
        }
        watch.reach(Branch::P2Spent);
        self.end(Answer::Refused(Refusal::Spent))
    }

    /// P4 failed: round again with the value seen.
    pub(crate) fn compare_failed(&mut self, seen: u64) -> Option<Answer> {
        self.index = seen;
        self.to(Line::P2)
    }
}
