//! Lines S1 to S14 of steal and both batches, a function a line.

use crate::coverage::{Branch, Watch};
use crate::index::{advanced, has_next, lap, offset, position, BLOCK_CAP, HAS_NEXT};
use crate::machine::{Answer, Call, Line, Machine, Thread};
use crate::memory::{DESTROY, READ, WRITE};

/// The claim.
impl Machine {
    pub(crate) fn s1(&mut self, thread: usize, watch: &mut impl Watch) -> Option<Answer> {
        watch.reach(Branch::S1);
        let call = &mut self.threads[thread];
        call.index = self.head.index;
        call.to(Line::S2)
    }

    pub(crate) fn s2(&mut self, thread: usize, watch: &mut impl Watch) -> Option<Answer> {
        let call = &mut self.threads[thread];
        call.block = self.head.block;
        if offset(call.index) == BLOCK_CAP {
            watch.reach(Branch::S2Offset63);
            return call.to(Line::S1);
        }
        if has_next(call.index) {
            watch.reach(Branch::S2HasNext);
            return call.claim_of_rest(watch);
        }
        watch.reach(Branch::S2Plain);
        call.to(Line::S3)
    }

    pub(crate) fn s3(&mut self, thread: usize, watch: &mut impl Watch) -> Option<Answer> {
        let call = &mut self.threads[thread];
        let tail = self.tail.index;
        if position(tail) == position(call.index) {
            watch.reach(Branch::S3Empty);
            return call.end(Answer::Empty);
        }
        if lap(tail) != lap(call.index) {
            watch.reach(Branch::S3OtherLap);
            return call.claim_of_rest(watch);
        }
        let at_end = offset(tail) == BLOCK_CAP;
        watch.either(at_end, Branch::S3TailAt63, Branch::S3SameLap);
        call.claim_of_half(position(tail) - position(call.index), watch)
    }

    pub(crate) fn s4(&mut self, thread: usize, watch: &mut impl Watch) -> Option<Answer> {
        let call = &mut self.threads[thread];
        if self.head.index != call.index {
            watch.reach(Branch::S4Failed);
            return call.end(Answer::Retry);
        }
        self.head.index = call.new_head;
        call.slot = offset(call.index);
        if call.ends_block() {
            watch.reach(Branch::block_ended_by(call.call));
            return call.to(Line::S5);
        }
        watch.reach(Branch::S4Set);
        call.to(Line::S9)
    }
}

impl Thread {
    /// HAS_NEXT is set or added: a batch may have all up to the block's end.
    fn claim_of_rest(&mut self, watch: &mut impl Watch) -> Option<Answer> {
        let rest = BLOCK_CAP - offset(self.index);
        watch.reach(Branch::advance_of_rest(self.call, rest));
        self.advance = self.within_limit(rest);
        self.new_head = advanced(self.index, self.advance) | HAS_NEXT;
        self.to(Line::S4)
    }

    /// The last block: a batch may have half of what is there.
    fn claim_of_half(&mut self, length: u64, watch: &mut impl Watch) -> Option<Answer> {
        let half = length.div_ceil(2) as usize;
        watch.reach(Branch::advance_of_half(self.call, half));
        self.advance = self.within_limit(half);
        self.new_head = advanced(self.index, self.advance);
        self.to(Line::S4)
    }

    fn within_limit(&self, available: usize) -> usize {
        match self.call {
            Call::Batch(limit) | Call::Take(limit) => limit.min(available as u64) as usize,
            _ => 1,
        }
    }

    /// The slots claimed by a steal past its S4.
    pub fn claim_slots(&self) -> std::ops::Range<usize> {
        let first = offset(self.index);
        first..first + self.advance
    }

    fn ends_block(&self) -> bool {
        self.claim_slots().end == BLOCK_CAP
    }
}

/// The head moves to the next block.
impl Machine {
    pub(crate) fn s5(&mut self, thread: usize, watch: &mut impl Watch) -> Option<Answer> {
        let call = &mut self.threads[thread];
        let Some(next) = self.pool[call.block].next else {
            watch.reach(Branch::S5Waits);
            return None;
        };
        watch.reach(Branch::S5Next);
        call.next = next;
        call.to(Line::S6)
    }

    pub(crate) fn s6(&mut self, thread: usize, watch: &mut impl Watch) -> Option<Answer> {
        let call = &mut self.threads[thread];
        call.next_has_next = self.pool[call.next].next.is_some();
        watch.either(call.next_has_next, Branch::S6Next, Branch::S6None);
        call.to(Line::S7)
    }

    pub(crate) fn s7(&mut self, thread: usize, watch: &mut impl Watch) -> Option<Answer> {
        watch.reach(Branch::S7);
        let call = &mut self.threads[thread];
        self.head.block = call.next;
        call.to(Line::S8)
    }

    pub(crate) fn s8(&mut self, thread: usize, watch: &mut impl Watch) -> Option<Answer> {
        let call = &mut self.threads[thread];
        watch.either(call.next_has_next, Branch::S8HasNext, Branch::S8Plain);
        let start = advanced(call.new_head & !HAS_NEXT, 1);
        self.head.index = start | u64::from(call.next_has_next);
        call.to(Line::S9)
    }
}

/// The tokens.
impl Machine {
    pub(crate) fn s9(&mut self, thread: usize, watch: &mut impl Watch) -> Option<Answer> {
        let call = &mut self.threads[thread];
        if self.pool[call.block].states[call.slot] & WRITE == 0 {
            watch.reach(Branch::S9Waits);
            return None;
        }
        watch.reach(Branch::S9Written);
        call.to(Line::S10)
    }

    /// The first token of a steal or batch-and-pop is the answer, the rest wait for the last one.
    pub(crate) fn s10(&mut self, thread: usize, watch: &mut impl Watch) -> Option<Answer> {
        let call = &mut self.threads[thread];
        let claim = call.claim_slots();
        call.read[call.slot - claim.start] = self.pool[call.block].tokens[call.slot];
        call.slot += 1;
        if call.slot < claim.end {
            watch.reach(Branch::S10More);
            return call.to(Line::S9);
        }
        match call.call {
            Call::Batch(_) => call.ring.put(&call.read[..call.advance]),
            Call::Take(_) => call.ring.put(&call.read[1..call.advance]),
            _ => {}
        }
        if call.ends_block() {
            watch.either(claim.start == 0, Branch::S10WholeBlock, Branch::S10Walk);
            return call.walk();
        }
        watch.reach(Branch::S10Mark);
        call.slot = claim.start;
        call.to(Line::S11)
    }

    pub(crate) fn s11(&mut self, thread: usize, watch: &mut impl Watch) -> Option<Answer> {
        let call = &mut self.threads[thread];
        let before = self.pool[call.block].fetch_or(call.slot, READ);
        let claim = call.claim_slots();
        let last = call.slot + 1 == claim.end;
        if before & DESTROY != 0 {
            watch.reach(match (last, claim.start) {
                (false, _) => Branch::S11DestroyEarly,
                (true, 0) => Branch::S11DestroyFromSlot0,
                (true, _) => Branch::S11Destroy,
            });
            return call.walk();
        }
        if last {
            watch.reach(Branch::answered_at_s11(call.call));
            return call.finish();
        }
        watch.reach(Branch::S11More);
        call.slot += 1;
        None
    }
}

/// The walk.
impl Machine {
    pub(crate) fn s12(&mut self, thread: usize, watch: &mut impl Watch) -> Option<Answer> {
        let call = &mut self.threads[thread];
        if self.pool[call.block].states[call.slot] & READ == 0 {
            watch.reach(Branch::S12Unread);
            return call.to(Line::S13);
        }
        watch.either(call.slot == 0, Branch::S12PastSlot0, Branch::S12Read);
        call.lower()
    }

    pub(crate) fn s13(&mut self, thread: usize, watch: &mut impl Watch) -> Option<Answer> {
        let call = &mut self.threads[thread];
        let before = self.pool[call.block].fetch_or(call.slot, DESTROY);
        if before & READ == 0 {
            watch.reach(Branch::answered_at_s13(call.call));
            watch.handed_over(call.block);
            return call.finish();
        }
        watch.either(call.slot == 0, Branch::S13PastSlot0, Branch::S13Read);
        call.lower()
    }

    pub(crate) fn s14(&mut self, thread: usize, watch: &mut impl Watch) -> Option<Answer> {
        let call = &mut self.threads[thread];
        watch.reach(Branch::S14);
        watch.reach(Branch::answered_at_s14(call.call));
        watch.given_back(call.block);
        self.pool.give_back(call.block);
        call.finish()
    }
}

impl Thread {
    /// Down from the slot below the first claimed one.
    fn walk(&mut self) -> Option<Answer> {
        self.slot = self.claim_slots().start;
        self.lower()
    }

    fn lower(&mut self) -> Option<Answer> {
        if self.slot == 0 {
            return self.to(Line::S14);
        }
        self.slot -= 1;
        self.to(Line::S12)
    }

    fn finish(&mut self) -> Option<Answer> {
        let answer = match self.call {
            Call::Batch(_) => Answer::Moved,
            _ => Answer::Task(self.read[0]),
        };
        self.end(answer)
    }
}
