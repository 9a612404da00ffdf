//! Blocks of 63 slots, and the pool that they come from.

use crate::index::BLOCK_CAP;

pub const WRITE: u8 = 1;
pub const READ: u8 = 2;
pub const DESTROY: u8 = 4;

/// A block's number; there are at most 32.
pub type BlockNumber = u8;

#[derive(Clone)]
pub struct Block {
    pub tokens: [u64; BLOCK_CAP],
    pub states: [u8; BLOCK_CAP],
    pub next: Option<BlockNumber>,
}

impl Block {
    const CLEARED: Block = Block {
        tokens: [0; BLOCK_CAP],
        states: [0; BLOCK_CAP],
        next: None,
    };

    /// Sets bits of a slot's state and answers what was there before.
    pub fn fetch_or(&mut self, slot: usize, bits: u8) -> u8 {
        let before = self.states[slot];
        self.states[slot] = before | bits;
        before
    }
}

pub struct Pool {
    blocks: Vec<Block>,
    /// One bit a block, set while it is free.
    free: u32,
}

impl Pool {
    pub fn new(blocks: usize) -> Pool {
        Pool {
            blocks: vec![Block::CLEARED; blocks],
            free: u32::MAX >> (32 - blocks),
        }
    }

    /// The lowest-numbered free block, cleared.
    pub fn take(&mut self) -> Option<BlockNumber> {
        if self.free == 0 {
            return None;
        }
        let block = self.free.trailing_zeros() as BlockNumber;
        self.free &= self.free - 1;
        self.blocks[block as usize] = Block::CLEARED;
        Some(block)
    }

    pub fn give_back(&mut self, block: BlockNumber) {
        self.free |= 1 << block;
    }

    /// The numbers of the blocks that are not free, upwards.
    pub fn taken(&self) -> impl Iterator<Item = BlockNumber> + '_ {
        (0..self.blocks.len() as BlockNumber).filter(|block| self.free >> block & 1 == 0)
    }

    pub fn taken_count(&self) -> u64 {
        self.blocks.len() as u64 - u64::from(self.free.count_ones())
    }
}

impl std::ops::Index<BlockNumber> for Pool {
    type Output = Block;

    fn index(&self, block: BlockNumber) -> &Block {
        &self.blocks[block as usize]
    }
}

impl std::ops::IndexMut<BlockNumber> for Pool {
    fn index_mut(&mut self, block: BlockNumber) -> &mut Block {
        &mut self.blocks[block as usize]
    }
}
