//! Names, references and the hash of names, and vectors of one value.

use std::hint::black_box;

#[derive(Clone, Copy, PartialEq, Eq)]
pub struct Seg(pub u32);

#[derive(Clone, Copy, PartialEq, Eq)]
pub struct Serial(pub u32);

#[derive(Clone, Copy, PartialEq, Eq)]
pub struct Name {
    pub seg: Seg,
    pub serial: Serial,
}

#[derive(Clone, Copy)]
pub struct Link {
    pub seg: Seg,
    #[allow(dead_code)]
    pub slot: usize,
    pub serial: Serial,
}

impl Link {
    pub fn name(&self) -> Name {
        Name {
            seg: self.seg,
            serial: self.serial,
        }
    }
}

const SPREAD: u64 = 0x9E37_79B9_7F4A_7C15;

/// The number of the chain of a name, of so many.
pub fn chain_of(chains: usize, target: Name) -> usize {
    let key = ((target.seg.0 as u64) << 32) + target.serial.0 as u64;
    let high = key.wrapping_mul(SPREAD) >> 32;
    ((high * chains as u64) >> 32) as usize
}

/// So many of a value, each written: zeroed memory comes from the system untouched, and would first be touched in the phase that is
/// measured.
pub fn filled<T: Copy>(value: T, count: usize) -> Vec<T> {
    let mut all = vec![value; count];
    black_box(&mut all).fill(value);
    all
}
