//! The packed index: position = index / 2, lap = position / 64, offset = position % 64; the low bit
//! is HAS_NEXT.

pub const LAP: u64 = 64;
pub const BLOCK_CAP: usize = 63;
pub const SHIFT: u32 = 1;
pub const HAS_NEXT: u64 = 1;

pub fn position(index: u64) -> u64 {
    index >> SHIFT
}

pub fn lap(index: u64) -> u64 {
    position(index) / LAP
}

pub fn offset(index: u64) -> usize {
    (position(index) % LAP) as usize
}

pub fn has_next(index: u64) -> bool {
    index & HAS_NEXT != 0
}

/// The index this many positions on, HAS_NEXT kept.
pub fn advanced(index: u64, positions: usize) -> u64 {
    index + ((positions as u64) << SHIFT)
}

/// How many tasks lie between the two; an offset of 63 counts as the next lap's start.
pub fn length(head: u64, tail: u64) -> u64 {
    let head = started(position(head));
    let first = head / LAP * LAP;
    let tail = started(position(tail)) - first;
    tail - (head - first) - tail / LAP
}

fn started(position: u64) -> u64 {
    if position % LAP == LAP - 1 {
        position + 1
    } else {
        position
    }
}

#[cfg(test)]
mod tests {
    use super::*;

    /// Examples E1 to E4 of document 01.
    #[test]
    fn lengths() {
        for (head, tail, expected) in [(10, 130, 118), (63, 63, 0), (63, 64, 0), (62, 63, 1)] {
            assert_eq!(length(head * 2, tail * 2), expected);
        }
    }
}
