//! An owner's ring of 64 tokens that nobody else steals from.

const PLACES: usize = 64;

#[derive(Clone)]
pub struct Ring {
    tokens: [u64; PLACES],
    front: usize,
    count: usize,
    lifo: bool,
}

impl Ring {
    pub fn new(lifo: bool) -> Ring {
        Ring {
            tokens: [0; PLACES],
            front: 0,
            count: 0,
            lifo,
        }
    }

    pub fn len(&self) -> usize {
        self.count
    }

    pub fn is_empty(&self) -> bool {
        self.count == 0
    }

    /// Whether so many more tokens fit.
    pub fn has_room(&self, more: usize) -> bool {
        self.count + more <= PLACES
    }

    /// The owner's pop: Fifo the oldest, Lifo the newest.
    pub fn pop(&mut self) -> Option<u64> {
        if self.count == 0 {
            return None;
        }
        self.count -= 1;
        if self.lifo {
            return Some(self.tokens[(self.front + self.count) % PLACES]);
        }
        let oldest = self.tokens[self.front];
        self.front = (self.front + 1) % PLACES;
        Some(oldest)
    }

    /// A batch in ticket order; a Lifo ring gets it reversed, so that its first ticket is popped
    /// first.
    pub fn put(&mut self, batch: &[u64]) {
        let end = self.front + self.count;
        for (i, &token) in batch.iter().enumerate() {
            let place = if self.lifo { batch.len() - 1 - i } else { i };
            self.tokens[(end + place) % PLACES] = token;
        }
        self.count += batch.len();
    }

    /// The tokens from front to back.
    pub fn tokens(&self) -> impl Iterator<Item = u64> + '_ {
        (0..self.count).map(|i| self.tokens[(self.front + i) % PLACES])
    }
}
