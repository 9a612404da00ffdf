//! The pool: memory for 32 blocks, of which a queue uses as many as its first line says. Taking
//! gives the lowest-numbered free block, cleared, as document 01 has it; the Rust would ask the
//! allocator and never looks at which block it got.

use ::core::alloc::Layout;
use ::core::sync::atomic::{AtomicU32, AtomicUsize, Ordering};
use rust::alloc::{alloc_zeroed, handle_alloc_error};
use rust::sync::OnceLock;

use crate::Block;

const MOST_BLOCKS: usize = 32;

/// One bit a block; only the thread whose turn it is looks or changes.
static FREE: AtomicU32 = AtomicU32::new(0);
static SIZE: AtomicUsize = AtomicUsize::new(0);
static BASE: OnceLock<usize> = OnceLock::new();

fn base() -> usize {
    *BASE.get_or_init(|| {
        let layout = Layout::array::<Block<u64>>(MOST_BLOCKS).expect("32 blocks are not too many");
        let memory = unsafe { alloc_zeroed(layout) };
        if memory.is_null() {
            handle_alloc_error(layout)
        }
        memory as usize
    })
}

const fn block_size() -> usize {
    size_of::<Block<u64>>()
}

/// All blocks up to this number are free, all others are not there.
pub fn open(blocks: usize) {
    assert!((1..=MOST_BLOCKS).contains(&blocks));
    SIZE.store(blocks, Ordering::Relaxed);
    FREE.store(u32::MAX >> (MOST_BLOCKS - blocks), Ordering::Relaxed);
}

/// The lowest-numbered free block, cleared; null if none is free.
pub fn take(layout: Layout) -> *mut u8 {
    assert_eq!(layout, Layout::new::<Block<u64>>());
    let free = FREE.load(Ordering::Relaxed);
    if free == 0 {
        return ::core::ptr::null_mut();
    }
    FREE.store(free & (free - 1), Ordering::Relaxed);
    let block = address(free.trailing_zeros() as usize) as *mut u8;
    unsafe { block.write_bytes(0, block_size()) };
    block
}

/// A block given back twice would be a fault of the Rust: then everything stops here.
pub fn give_back(address: usize) {
    let block = number(address).expect("only blocks of the pool come here");
    let free = FREE.load(Ordering::Relaxed);
    assert_eq!(free >> block & 1, 0, "block {block} was given back twice");
    FREE.store(free | 1 << block, Ordering::Relaxed);
}

pub fn is_free(block: usize) -> bool {
    FREE.load(Ordering::Relaxed) >> block & 1 == 1
}

pub fn holds(address: usize) -> bool {
    number(address).is_some()
}

/// The number of the block that this address lies in.
pub fn number(address: usize) -> Option<usize> {
    let block = address.checked_sub(base())? / block_size();
    (block < MOST_BLOCKS).then_some(block)
}

pub fn address(block: usize) -> usize {
    base() + block * block_size()
}

/// The blocks that are taken, upwards.
pub fn taken() -> impl Iterator<Item = usize> {
    let blocks = SIZE.load(Ordering::Relaxed);
    (0..blocks).filter(|&block| !is_free(block))
}
