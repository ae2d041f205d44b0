//! Names of objects, and a fast hash for them.

use std::collections::HashMap;
use std::hash::{BuildHasherDefault, Hasher};

/// The object of a serial in a segment. Serials are never used again.
#[derive(Clone, Copy, Debug, PartialEq, Eq, Hash)]
pub struct Name {
    pub segment: u32,
    pub serial: u32,
}

/// Where an object lies, with its serial, so that a stale reference is told.
#[derive(Clone, Copy, Debug, PartialEq, Eq)]
pub struct Reference {
    pub segment: u32,
    pub slot: u32,
    pub serial: u32,
}

impl Reference {
    pub fn name(self) -> Name {
        Name {
            segment: self.segment,
            serial: self.serial,
        }
    }
}

/// The hash that rustc uses for its own tables.
#[derive(Default)]
pub struct FastHasher {
    hash: u64,
}

impl FastHasher {
    fn add(&mut self, word: u64) {
        self.hash = (self.hash.rotate_left(5) ^ word).wrapping_mul(0x517c_c1b7_2722_0a95);
    }
}

impl Hasher for FastHasher {
    fn write(&mut self, bytes: &[u8]) {
        for byte in bytes {
            self.add(u64::from(*byte));
        }
    }

    fn write_u32(&mut self, word: u32) {
        self.add(u64::from(word));
    }

    fn finish(&self) -> u64 {
        self.hash
    }
}

pub type NameMap<V> = HashMap<Name, V, BuildHasherDefault<FastHasher>>;
