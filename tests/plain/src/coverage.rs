//! Which lines and branches of the step table a replay reaches. The ordinary replay watches with
//! `Unwatched`, which the compiler removes.

use crate::machine::{Call, Refusal};
use crate::memory::BlockNumber;

/// Told of every branch that a step takes.
pub trait Watch {
    /// Whether looking around for the sake of counting is worth its time.
    const COUNTS: bool;

    fn reach(&mut self, branch: Branch);
    /// A step was really made, not only counted.
    fn step(&mut self);
    /// A block was taken: nobody has handed on its giving back yet.
    fn taken(&mut self, block: BlockNumber);
    /// A walk ended without giving back: a slower thief will walk on.
    fn handed_over(&mut self, block: BlockNumber);
    fn given_back(&mut self, block: BlockNumber);

    fn either(&mut self, which: bool, one: Branch, other: Branch) {
        self.reach(if which { one } else { other });
    }
}

pub struct Unwatched;

impl Watch for Unwatched {
    const COUNTS: bool = false;

    fn reach(&mut self, _: Branch) {}
    fn step(&mut self) {}
    fn taken(&mut self, _: BlockNumber) {}
    fn handed_over(&mut self, _: BlockNumber) {}
    fn given_back(&mut self, _: BlockNumber) {}
}

/// How often each branch was reached.
#[derive(Clone)]
pub struct Counts {
    reached: [u64; Branch::ALL.len()],
    pub steps: u64,
    hand_overs: [u32; 32],
}

impl Default for Counts {
    fn default() -> Self {
        Counts {
            reached: [0; Branch::ALL.len()],
            steps: 0,
            hand_overs: [0; 32],
        }
    }
}

impl Watch for Counts {
    const COUNTS: bool = true;

    fn reach(&mut self, branch: Branch) {
        self.reached[branch as usize] += 1;
    }

    fn step(&mut self) {
        self.steps += 1;
    }

    fn taken(&mut self, block: BlockNumber) {
        self.hand_overs[usize::from(block)] = 0;
    }

    fn handed_over(&mut self, block: BlockNumber) {
        self.hand_overs[usize::from(block)] += 1;
    }

    fn given_back(&mut self, block: BlockNumber) {
        self.reach(match self.hand_overs[usize::from(block)] {
            0 => Branch::S14NoHandOver,
            1 => Branch::S14OneHandOver,
            2 => Branch::S14TwoHandOvers,
            _ => Branch::S14MoreHandOvers,
        });
    }
}

impl Counts {
    pub fn reached(&self) -> impl Iterator<Item = (Branch, u64)> + '_ {
        Branch::ALL.into_iter().zip(self.reached)
    }
}

macro_rules! branches {
    ($($name:ident = $text:literal,)*) => {
        /// A line or branch of the step table, or a place in it that is hard to reach.
        #[derive(Clone, Copy, PartialEq, Eq, Debug)]
        pub enum Branch { $($name,)* }

        impl Branch {
            pub const ALL: [Branch; [$(Branch::$name,)*].len()] = [$(Branch::$name,)*];

            pub fn text(self) -> &'static str {
                match self { $(Branch::$name => $text,)* }
            }
        }
    };
}

branches! {
    P1 = "P1",
    P2Offset63 = "P2 offset 63, to P1",
    P2Spent = "P2 lap spent, none held",
    P2SpentHeld = "P2 lap spent, block held, to P10",
    P2Take = "P2 offset 62, none held, to P3",
    P2HeldAt62 = "P2 offset 62, block held from an earlier lap, to P4",
    P2CompareHeld = "P2 other offset, block held, to P4",
    P2Compare = "P2 other offset, none held, to P4",
    P3None = "P3 none free",
    P3Taken = "P3 taken",
    P4Failed = "P4 failed, none held",
    P4FailedHeld = "P4 failed, block held",
    P4Slipped = "P4 slipped (only with --slip)",
    P4Set = "P4 set, none held",
    P4SetHeld = "P4 set, block held, not offset 62",
    P4SetAt62 = "P4 set at offset 62, to P5",
    LapEndRacedByTwo = "P4 set at offset 62 with one other pusher about to",
    LapEndRacedByThree = "P4 set at offset 62 with two or more others about to",
    P5 = "P5",
    P6 = "P6",
    P7 = "P7",
    P8 = "P8",
    P9Pushed = "P9 none held, pushed",
    P9Held = "P9 block held, to P10",
    P10Pushed = "P10 pushed",
    P10Spent = "P10 spent",
    S1 = "S1",
    S2Offset63 = "S2 offset 63, to S1",
    S2HasNext = "S2 HAS_NEXT, to S4",
    S2Plain = "S2 no HAS_NEXT, to S3",
    S3Empty = "S3 empty",
    S3SameLap = "S3 same lap",
    S3TailAt63 = "S3 same lap, tail at offset 63",
    S3OtherLap = "S3 other lap, HAS_NEXT added",
    AdvanceSteal = "advance: steal 1",
    BatchRest = "advance: batch, rest of the block",
    BatchRestLimit = "advance: batch, rest cut by the limit",
    BatchHalf = "advance: batch, half",
    BatchHalfLimit = "advance: batch, half cut by the limit",
    TakeRest = "advance: take, rest of the block",
    TakeRestLimit = "advance: take, rest cut by the limit",
    TakeHalf = "advance: take, half",
    TakeHalfLimit = "advance: take, half cut by the limit",
    S4Failed = "S4 failed, retry",
    S4Slipped = "S4 slipped, retry (only with --slip)",
    S4Set = "S4 set, to S9",
    S4EndedBySteal = "S4 set to offset 63 by a steal, to S5",
    S4EndedByBatch = "S4 set to offset 63 by a batch, to S5",
    S4EndedByTake = "S4 set to offset 63 by a take, to S5",
    S5Waits = "S5 no next, waits for a late P7",
    S5Next = "S5 next",
    S6Next = "S6 next has a next",
    S6None = "S6 next has none",
    S7 = "S7",
    S8HasNext = "S8 with HAS_NEXT",
    S8Plain = "S8 without HAS_NEXT",
    S9Waits = "S9 no WRITE, waits for a late P9",
    S9Written = "S9 WRITE",
    S10More = "S10, more slots claimed",
    S10Mark = "S10 last, to S11",
    S10Walk = "S10 last, block ended, walk",
    S10WholeBlock = "S10 last, block ended from slot 0, S14 at once",
    S11More = "S11, more slots claimed",
    S11Steal = "S11 last, steal answered",
    S11Batch = "S11 last, batch answered",
    S11Take = "S11 last, take answered",
    S11Destroy = "S11 DESTROY seen on the last slot, walk",
    S11DestroyFromSlot0 = "S11 DESTROY seen, claim from slot 0, S14 at once",
    S11DestroyEarly = "S11 DESTROY seen before the last slot (not reachable)",
    S12Read = "S12 READ, next lower",
    S12PastSlot0 = "S12 READ at slot 0, to S14",
    S12Unread = "S12 no READ, to S13",
    S13Read = "S13 READ seen, next lower",
    S13PastSlot0 = "S13 READ seen at slot 0, to S14",
    S13Steal = "S13 no READ seen, steal answered",
    S13Batch = "S13 no READ seen, batch answered",
    S13Take = "S13 no READ seen, take answered",
    S14 = "S14",
    S14Steal = "S14, steal answered",
    S14Batch = "S14, batch answered",
    S14Take = "S14, take answered",
    S14NoHandOver = "S14, block never handed over",
    S14OneHandOver = "S14, block handed over once",
    S14TwoHandOvers = "S14, block handed over twice",
    S14MoreHandOvers = "S14, block handed over three times or more",
    L1 = "L1",
    L2 = "L2",
    L3Again = "L3 tails differ, to L1",
    L3 = "L3 answered",
    L3TailAt63 = "L3 answered, tail at offset 63",
    L3HeadAt63 = "L3 answered, head at offset 63",
    E1 = "E1",
    E1HeadAt63 = "E1, head at offset 63",
    E2Yes = "E2 yes",
    E2No = "E2 no",
    E2TailAt63 = "E2, tail at offset 63",
    PopTask = "pop task",
    PopNone = "pop none",
    RunOpen = "run used up",
    RunWaits = "run that can only wait",
    RefusedBadSetup = "refused 1",
    RefusedNoThread = "refused 3",
    RefusedBusy = "refused 4",
    RefusedNoLimit = "refused 5",
    RefusedNoRoom = "refused 6",
    RefusedIdle = "refused 7",
    Bad = "bad line",
    StepsSaturated = "step count stopped at 2^64 - 1",
    LapsTen = "tail's lap 10 or more at the end",
    LapsHundred = "tail's lap 100 or more at the end",
    LapsThreeHundred = "tail's lap 300 or more at the end",
}

impl Branch {
    /// How a claim up to the block's end came to its advance.
    pub fn advance_of_rest(call: Call, rest: usize) -> Branch {
        let rest = rest as u64;
        match call {
            Call::Batch(limit) if limit < rest => Branch::BatchRestLimit,
            Call::Batch(_) => Branch::BatchRest,
            Call::Take(limit) if limit < rest => Branch::TakeRestLimit,
            Call::Take(_) => Branch::TakeRest,
            _ => Branch::AdvanceSteal,
        }
    }

    /// How a claim in the last block came to its advance.
    pub fn advance_of_half(call: Call, half: usize) -> Branch {
        let half = half as u64;
        match call {
            Call::Batch(limit) if limit < half => Branch::BatchHalfLimit,
            Call::Batch(_) => Branch::BatchHalf,
            Call::Take(limit) if limit < half => Branch::TakeHalfLimit,
            Call::Take(_) => Branch::TakeHalf,
            _ => Branch::AdvanceSteal,
        }
    }

    pub fn block_ended_by(call: Call) -> Branch {
        by_kind(
            call,
            Branch::S4EndedBySteal,
            Branch::S4EndedByBatch,
            Branch::S4EndedByTake,
        )
    }

    pub fn answered_at_s11(call: Call) -> Branch {
        by_kind(call, Branch::S11Steal, Branch::S11Batch, Branch::S11Take)
    }

    pub fn answered_at_s13(call: Call) -> Branch {
        by_kind(call, Branch::S13Steal, Branch::S13Batch, Branch::S13Take)
    }

    pub fn answered_at_s14(call: Call) -> Branch {
        by_kind(call, Branch::S14Steal, Branch::S14Batch, Branch::S14Take)
    }

    /// Of the refusals that are no branch of a line.
    pub fn refused(refusal: Refusal) -> Option<Branch> {
        Some(match refusal {
            Refusal::BadSetup => Branch::RefusedBadSetup,
            Refusal::NoThread => Branch::RefusedNoThread,
            Refusal::Busy => Branch::RefusedBusy,
            Refusal::NoLimit => Branch::RefusedNoLimit,
            Refusal::NoRoom => Branch::RefusedNoRoom,
            Refusal::Idle => Branch::RefusedIdle,
            Refusal::NoBlock | Refusal::Spent => return None,
        })
    }
}

fn by_kind(call: Call, steal: Branch, batch: Branch, take: Branch) -> Branch {
    match call {
        Call::Batch(_) => batch,
        Call::Take(_) => take,
        _ => steal,
    }
}
