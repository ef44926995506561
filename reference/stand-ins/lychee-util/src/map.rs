//! The maps of the stand-ins. Without observers they have a hash that takes less time than std's, so that no time that is
//! measured of the source is owed to a stand-in. The source's own maps are std's.
use std::collections::HashMap;
#[cfg(not(feature = "observe"))]
use std::hash::{BuildHasherDefault, Hasher};

#[cfg(feature = "observe")]
pub type Map<K, V> = HashMap<K, V>;
#[cfg(not(feature = "observe"))]
pub type Map<K, V> = HashMap<K, V, BuildHasherDefault<Multiply>>;

/// Each word is added, and the sum multiplied by an odd constant.
#[cfg(not(feature = "observe"))]
#[derive(Clone, Copy, Default)]
pub struct Multiply(u64);

#[cfg(not(feature = "observe"))]
impl Multiply {
    #[inline]
    fn word(&mut self, word: u64) {
        self.0 = self.0.wrapping_add(word).wrapping_mul(0xF135_7AEA_2E62_A9C5);
    }
}

#[cfg(not(feature = "observe"))]
impl Hasher for Multiply {
    #[inline]
    fn write(&mut self, bytes: &[u8]) {
        for chunk in bytes.chunks(8) {
            let mut word = [0; 8];
            word[..chunk.len()].copy_from_slice(chunk);
            self.word(u64::from_le_bytes(word));
        }
    }
    #[inline]
    fn write_u8(&mut self, n: u8) {
        self.word(u64::from(n));
    }
    #[inline]
    fn write_u32(&mut self, n: u32) {
        self.word(u64::from(n));
    }
    #[inline]
    fn write_u64(&mut self, n: u64) {
        self.word(n);
    }
    #[inline]
    fn write_usize(&mut self, n: usize) {
        self.word(n as u64);
    }
    #[inline]
    fn finish(&self) -> u64 {
        self.0.rotate_left(26)
    }
}
