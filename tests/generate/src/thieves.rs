//! Programs about claims, walks and the head's end of a block.

use plain::index::offset;
use plain::machine::{Call, Line, Thread};

use crate::author::Author;
use crate::schedule::settle;

/// A claim that leaves the rest of the block to others, or takes it all.
pub fn claim(author: &mut Author, thread: usize) -> Call {
    let room = 64 - author.thread(thread).ring.len() as u64;
    let left = 63 - offset(author.machine.head.index).min(62) as u64;
    let size = author
        .random
        .pick(&[1, 1, 2, 3, left.div_ceil(3), left.div_ceil(2), left]);
    match author.random.below(5) {
        0 | 1 if room > 0 => Call::Batch(size.clamp(1, room)),
        2 | 3 => Call::Take(size.clamp(1, room + 1)),
        _ => Call::Steal,
    }
}

/// A full block is claimed in parts; the walk meets thieves that have not marked theirs yet.
pub fn walk(author: &mut Author) {
    let more = author.random.below(8);
    author.fill_until(|author| author.tail_lap() > 0 && author.tail_offset() >= more);
    if author.random.percent(40) {
        let at = author.random.below(60);
        author.drain_until(|author| author.head_lap() > 0 || author.head_offset() >= at);
    }
    claim_block(author);
    for _ in 0..40 {
        let open = author.open();
        if open.is_empty() {
            break;
        }
        let thread = author.random.pick(&open);
        match author.random.below(5) {
            0 => {
                author.step(thread);
            }
            1 => {
                author.bring_to(thread, Line::S11);
            }
            2 | 3 => {
                author.bring_to(thread, Line::S13);
                meet(author, thread);
            }
            _ => {
                author.run(thread, 400);
            }
        }
    }
    settle(author);
}

/// Thieves claim the rest of the head's block; some are left standing at once, some go on.
fn claim_block(author: &mut Author) {
    let lap = author.head_lap();
    let stops = [
        Line::S9,
        Line::S9,
        Line::S10,
        Line::S11,
        Line::S11,
        Line::S5,
        Line::S12,
    ];
    // Enough for a block of one-slot claims, with some refused.
    for _ in 0..100 {
        let idle = author.idle();
        if idle.is_empty() || author.head_lap() > lap {
            break;
        }
        let thread = author.random.pick(&idle);
        let mut call = claim(author, thread);
        if author.head_offset() == 0 && author.random.percent(30) {
            call = Call::Steal;
        }
        // The last idle thread has to end the block, or nobody walks.
        if idle.len() == 1 {
            call = Call::Take(63.min(65 - author.thread(thread).ring.len() as u64));
        }
        if !author.begin(thread, call) {
            author.pop(thread);
        } else if idle.len() > 1 && author.random.percent(25) {
            author.run(thread, 400);
        } else {
            let stop = author.random.pick(&stops);
            author.bring_to(thread, stop);
        }
    }
}

/// A walker stands before S13: in half of the cases the thief of that slot marks it first.
fn meet(author: &mut Author, walker: usize) {
    if author.line(walker) != Some(Line::S13) || author.random.percent(50) {
        return;
    }
    let Thread { block, slot, .. } = *author.thread(walker);
    let thief = author.open().into_iter().find(|&other| {
        let thief = author.thread(other);
        let reading = matches!(thief.line, Some(Line::S9 | Line::S10 | Line::S11));
        reading && thief.block == block && thief.claim_slots().contains(&slot)
    });
    if let Some(thief) = thief {
        author.run(thief, 400);
        author.step(walker);
    }
}

/// Brings a thief to S5 to S8 of the head's block, if one is idle and gets that far.
pub fn end_head(author: &mut Author) {
    author.drain_until(|author| author.head_offset() >= 62);
    let idle = author.idle();
    if let Some(&thief) = idle.first() {
        let call = author
            .random
            .pick(&[Call::Steal, Call::Take(2), Call::Batch(1)]);
        if author.begin(thief, call) {
            let stop = author
                .random
                .pick(&[Line::S5, Line::S6, Line::S7, Line::S8]);
            author.bring(thief, |call| {
                call.line == Some(stop) || call.line == Some(Line::S9)
            });
        }
    }
}
