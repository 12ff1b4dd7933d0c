//! A set of numbered keys with open addressing.

/// Memory for a set, kept from one to the next.
#[derive(Default)]
pub struct Slots(Vec<u32>);

/// A slot is 0, or a key's number and one, with 16 bits of the key's hash above it as a tag.
pub struct Set<'a> {
    slots: &'a mut [u32],
    shift: u32,
}

impl Slots {
    /// An empty set with room for so many keys: at most half of the slots are used.
    pub fn set(&mut self, keys: usize) -> Set<'_> {
        let size = (2 * keys).next_power_of_two();
        self.0.clear();
        self.0.resize(size, 0);
        Set { slots: &mut self.0, shift: 64 - size.trailing_zeros() }
    }
}

impl Set<'_> {
    /// The key of the set that is the same as this one; if there is none, this one is put in. Keys are below 65535.
    #[inline(always)]
    pub fn find_or_put(&mut self, hash: u64, key: usize, same: impl Fn(usize) -> bool) -> Option<usize> {
        let tagged = (hash as u32) << 16 | (key as u32 + 1);
        let last = self.slots.len() - 1;
        let mut at = (hash >> self.shift) as usize & last;
        loop {
            let slot = self.slots[at];
            if slot == 0 {
                self.slots[at] = tagged;
                return None;
            }
            let other = (slot & 65535) as usize - 1;
            if slot >> 16 == tagged >> 16 && same(other) {
                return Some(other);
            }
            at = (at + 1) & last;
        }
    }
}
