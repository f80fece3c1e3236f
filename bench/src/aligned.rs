//! Buffers at a chosen offset in a page: where two buffers stand to each other
//! modulo 4,096 decides how fast a copy between them is.

use std::ops::{Deref, DerefMut};

const PAGE: usize = 4096;

pub struct Aligned {
    bytes: Vec<u8>,
    start: usize,
    length: usize,
}

impl Aligned {
    /// Bytes of one value, the first of them so far behind a page's start.
    pub fn new(length: usize, offset: usize, fill: u8) -> Aligned {
        let bytes = vec![fill; length + offset + PAGE];
        let start = bytes.as_ptr().align_offset(PAGE) + offset;
        Aligned {
            bytes,
            start,
            length,
        }
    }
}

impl Deref for Aligned {
    type Target = [u8];

    fn deref(&self) -> &[u8] {
        &self.bytes[self.start..][..self.length]
    }
}

impl DerefMut for Aligned {
    fn deref_mut(&mut self) -> &mut [u8] {
        &mut self.bytes[self.start..][..self.length]
    }
}
