//! The loads of length (L1 to L3) and empty (E1, E2), a function a line.

use crate::coverage::{Branch, Watch};
use crate::index::{length, offset, position, BLOCK_CAP};
use crate::machine::{Answer, Line, Machine};

impl Machine {
    pub(crate) fn l1(&mut self, thread: usize, watch: &mut impl Watch) -> Option<Answer> {
        watch.reach(Branch::L1);
        let call = &mut self.threads[thread];
        call.index = self.tail.index;
        call.to(Line::L2)
    }

    pub(crate) fn l2(&mut self, thread: usize, watch: &mut impl Watch) -> Option<Answer> {
        watch.reach(Branch::L2);
        let call = &mut self.threads[thread];
        call.new_head = self.head.index;
        call.to(Line::L3)
    }

    pub(crate) fn l3(&mut self, thread: usize, watch: &mut impl Watch) -> Option<Answer> {
        let call = &mut self.threads[thread];
        if self.tail.index != call.index {
            watch.reach(Branch::L3Again);
            return call.to(Line::L1);
        }
        watch.reach(match (offset(call.index), offset(call.new_head)) {
            (BLOCK_CAP, _) => Branch::L3TailAt63,
            (_, BLOCK_CAP) => Branch::L3HeadAt63,
            _ => Branch::L3,
        });
        call.end(Answer::Length(length(call.new_head, call.index)))
    }

    pub(crate) fn e1(&mut self, thread: usize, watch: &mut impl Watch) -> Option<Answer> {
        let call = &mut self.threads[thread];
        call.index = self.head.index;
        watch.either(
            offset(call.index) == BLOCK_CAP,
            Branch::E1HeadAt63,
            Branch::E1,
        );
        call.to(Line::E2)
    }

    pub(crate) fn e2(&mut self, thread: usize, watch: &mut impl Watch) -> Option<Answer> {
        let call = &mut self.threads[thread];
        let tail = self.tail.index;
        if offset(tail) == BLOCK_CAP {
            watch.reach(Branch::E2TailAt63);
        }
        if position(call.index) == position(tail) {
            watch.reach(Branch::E2Yes);
            return call.end(Answer::Yes);
        }
        watch.reach(Branch::E2No);
        call.end(Answer::No)
    }
}
