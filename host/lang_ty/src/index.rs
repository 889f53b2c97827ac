/// The numbers of nodes by the hashes of their words.
#[derive(Clone, Default)]
pub(crate) struct Index {
    /// A hash and the node's number plus one; 0 is a free slot. The length is 0 or a power of two.
    slots: Vec<(u32, u32)>,
    count: usize,
}

/// A hash of words, whose upper half is mixed best.
pub(crate) fn hash(words: impl Iterator<Item = u32>) -> u32 {
    let mix = |hash: u64, word: u32| {
        (hash.rotate_left(5) ^ u64::from(word)).wrapping_mul(0x9e37_79b9_7f4a_7c15)
    };
    (words.fold(0, mix) >> 32) as u32
}

impl Index {
    /// The slots for a hash, in the order in which they are tried.
    fn tried(&self, hash: u32) -> impl Iterator<Item = usize> {
        let last = self.slots.len().wrapping_sub(1);
        (hash as usize..).map(move |at| at & last)
    }

    /// The node with this hash that is the same.
    pub fn find(&self, hash: u32, same: impl Fn(u32) -> bool) -> Option<u32> {
        if self.slots.is_empty() {
            return None;
        }
        let taken = self
            .tried(hash)
            .map(|at| self.slots[at])
            .take_while(|slot| slot.1 > 0);
        let mut alike = taken.filter(|slot| slot.0 == hash);
        alike.find(|slot| same(slot.1 - 1)).map(|slot| slot.1 - 1)
    }

    /// Takes in a node that isn't there.
    pub fn insert(&mut self, hash: u32, number: u32) {
        if 2 * (self.count + 1) > self.slots.len() {
            let larger = vec![(0, 0); (2 * self.slots.len()).max(64)];
            for slot in std::mem::replace(&mut self.slots, larger) {
                if slot.1 > 0 {
                    self.put(slot);
                }
            }
        }
        self.put((hash, number + 1));
        self.count += 1;
    }

    fn put(&mut self, slot: (u32, u32)) {
        let free = self.tried(slot.0).find(|&at| self.slots[at].1 == 0);
        self.slots[free.expect("half of the slots are free")] = slot;
    }
}
