//! Seeds for hashing keys.

use std::collections::hash_map::RandomState;
use std::hash::BuildHasher;

/// 16 random bytes, so that whoever chooses keys can't choose ones that collide.
pub fn draw() -> [u8; 16] {
    let source = RandomState::new();
    let mut seed = [0; 16];
    for (number, half) in seed.chunks_exact_mut(8).enumerate() {
        half.copy_from_slice(&source.hash_one(number).to_ne_bytes());
    }
    seed
}
