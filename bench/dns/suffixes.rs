//! A table of the names' ends that a message has, by their digests.

/// Where an end of a name is in the message, how many pointers are followed from there, and its digest.
#[derive(Clone, Copy)]
pub struct Suffix {
    pub digest: u32,
    pub at: u16,
    pub pointers: u8,
}

/// How many slots a table has at first. It has at least twice as many as suffixes.
const SLOTS: usize = 128;

/// What a slot has that no suffix is in. A message has fewer than so many suffixes that a pointer can lead to.
const EMPTY: u16 = u16::MAX;

/// The suffixes in the order of their places, and slots with their numbers, where one of a digest is looked for from
/// the slot that the digest's highest bits say.
pub struct Suffixes {
    suffixes: Vec<Suffix>,
    slots: Vec<u16>,
}

impl Suffixes {
    pub fn new() -> Self {
        Suffixes { suffixes: Vec::new(), slots: vec![EMPTY; SLOTS] }
    }

    pub fn clear(&mut self) {
        self.suffixes.clear();
        self.slots.clear();
        self.slots.resize(SLOTS, EMPTY);
    }

    /// The first suffix of a digest that is the one looked for.
    #[inline]
    pub fn find(&self, digest: u32, is_it: impl Fn(&Suffix) -> bool) -> Option<Suffix> {
        let mut slot = self.slot_of(digest);
        loop {
            let suffix = self.suffixes.get(usize::from(self.slots[slot]))?;
            if suffix.digest == digest && is_it(suffix) {
                return Some(*suffix);
            }
            slot = self.slot_after(slot);
        }
    }

    #[inline]
    pub fn add(&mut self, suffix: Suffix) {
        self.suffixes.push(suffix);
        if 2 * self.suffixes.len() > self.slots.len() {
            self.grow();
        } else {
            self.put(self.suffixes.len() - 1);
        }
    }

    fn slot_of(&self, digest: u32) -> usize {
        (digest >> (32 - self.slots.len().trailing_zeros())) as usize
    }

    fn slot_after(&self, slot: usize) -> usize {
        (slot + 1) & (self.slots.len() - 1)
    }

    /// Puts the number of a suffix into the first slot for it that is empty.
    #[inline]
    fn put(&mut self, number: usize) {
        let mut slot = self.slot_of(self.suffixes[number].digest);
        while self.slots[slot] != EMPTY {
            slot = self.slot_after(slot);
        }
        self.slots[slot] = number as u16;
    }

    #[cold]
    fn grow(&mut self) {
        let len = 2 * self.slots.len();
        self.slots.clear();
        self.slots.resize(len, EMPTY);
        for number in 0..self.suffixes.len() {
            self.put(number);
        }
    }
}
