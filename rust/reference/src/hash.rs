//! A cheap hasher for states and names.

use std::collections::HashSet;
use std::hash::{BuildHasherDefault, Hasher};

/// A set that uses the cheap hasher.
pub(crate) type Set<T> = HashSet<T, BuildHasherDefault<Mix>>;

/// Multiplies each eight bytes by an odd constant and folds the upper half of
/// the product onto the lower, since the table looks at both ends of a hash.
#[derive(Default)]
pub(crate) struct Mix(u64);

impl Hasher for Mix {
    fn finish(&self) -> u64 {
        self.0
    }

    fn write_u64(&mut self, value: u64) {
        let product = u128::from(self.0 ^ value) * 0x9e37_79b9_7f4a_7c15;
        self.0 = (product >> 64) as u64 ^ product as u64;
    }

    fn write(&mut self, bytes: &[u8]) {
        for chunk in bytes.chunks(8) {
            let mut word = [0; 8];
            word[..chunk.len()].copy_from_slice(chunk);
            self.write_u64(u64::from_le_bytes(word));
        }
    }

    fn write_usize(&mut self, value: usize) {
        self.write_u64(value as u64);
    }
}
