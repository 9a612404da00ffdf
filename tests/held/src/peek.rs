//! A look at the private fields of the published file: where an address lies, and what the queue
//! and the rings hold. Nobody is let through a gate by it.

use ::core::mem::{offset_of, size_of};
use ::core::sync::atomic::{AtomicUsize, Ordering};
use rust::vec::Vec;

use crate::{pool, Block, Injector, Slot, Worker, BLOCK_CAP};

/// What lies at an address that a call is about to touch.
#[derive(Clone, Copy, PartialEq, Eq, Debug)]
pub enum Place {
    HeadIndex,
    HeadBlock,
    TailIndex,
    TailBlock,
    /// The next of this block.
    Next(usize),
    /// The state of this block's slot.
    State(usize, usize),
    /// The task of this block's slot.
    Task(usize, usize),
    /// The block as a whole.
    Block(usize),
    /// The pool, or nothing that the table knows.
    Elsewhere,
}

/// The addresses of head index, head block, tail index and tail block of the queue in use.
static ENDS: [AtomicUsize; 4] = [const { AtomicUsize::new(0) }; 4];

/// From now on addresses are those of this queue.
pub fn look_at(queue: &Injector<u64>) {
    let addresses = [
        queue.head.index.address(),
        queue.head.block.address(),
        queue.tail.index.address(),
        queue.tail.block.address(),
    ];
    for (end, address) in ENDS.iter().zip(addresses) {
        end.store(address, Ordering::Relaxed);
    }
}

/// What lies at this address.
pub fn place(address: usize) -> Place {
    const OF_ENDS: [Place; 4] = [
        Place::HeadIndex,
        Place::HeadBlock,
        Place::TailIndex,
        Place::TailBlock,
    ];
    if let Some(block) = pool::number(address) {
        return within(block, address - pool::address(block));
    }
    for (end, place) in ENDS.iter().zip(OF_ENDS) {
        if end.load(Ordering::Relaxed) == address {
            return place;
        }
    }
    Place::Elsewhere
}

/// What lies this far into a block; the compiler chose the order of the fields.
fn within(block: usize, distance: usize) -> Place {
    if distance == offset_of!(Block<u64>, next) {
        return Place::Next(block);
    }
    let into_slots = distance - offset_of!(Block<u64>, slots);
    let slot = into_slots / size_of::<Slot<u64>>();
    if into_slots % size_of::<Slot<u64>>() == offset_of!(Slot<u64>, state) {
        Place::State(block, slot)
    } else {
        Place::Task(block, slot)
    }
}

/// Head or tail: the raw index and the number of the block.
pub struct End {
    pub index: u64,
    pub block: usize,
}

pub fn head(queue: &Injector<u64>) -> End {
    end(&queue.head)
}

pub fn tail(queue: &Injector<u64>) -> End {
    end(&queue.tail)
}

fn end(position: &crate::Position<u64>) -> End {
    let block = position.block.load(Ordering::SeqCst) as usize;
    End {
        index: position.index.load(Ordering::SeqCst),
        block: pool::number(block).expect("head and tail have a block of the pool"),
    }
}

/// One block: its next, its slot states and its tokens.
pub struct BlockView {
    pub next: Option<usize>,
    pub states: Vec<usize>,
    pub tokens: Vec<u64>,
}

/// Only for a block that is taken: its memory was zeroed then, so each token has a value.
pub fn block(number: usize) -> BlockView {
    let block = unsafe { &*(pool::address(number) as *const Block<u64>) };
    let next = block.next.load(Ordering::SeqCst) as usize;
    BlockView {
        next: pool::number(next),
        states: (0..BLOCK_CAP)
            .map(|slot| block.slots[slot].state.load(Ordering::SeqCst))
            .collect(),
        tokens: (0..BLOCK_CAP)
            .map(|slot| unsafe { block.slots[slot].task.get().read().assume_init() })
            .collect(),
    }
}

/// The tokens of a ring from front to back.
pub fn ring(worker: &Worker<u64>) -> Vec<u64> {
    let front = worker.inner.front.load(Ordering::SeqCst);
    let back = worker.inner.back.load(Ordering::SeqCst);
    (front..back)
        .map(|at| unsafe { worker.buffer.get().read(at).assume_init() })
        .collect()
}
