//! One buffer over an input: what isn't used yet moves to its front before more is read.

use std::io::{self, Read};

/// As large as the library's program has it, and larger than any record.
const SIZE: usize = 262_144;

pub struct Buffer<R> {
    input: R,
    all: Vec<u8>,
    from: usize,
    to: usize,
}

impl<R: Read> Buffer<R> {
    pub fn new(input: R) -> Self {
        Buffer {
            input,
            all: vec![0; SIZE],
            from: 0,
            to: 0,
        }
    }

    /// The bytes that were read and not used yet.
    pub fn bytes(&self) -> &[u8] {
        &self.all[self.from..self.to]
    }

    pub fn use_up(&mut self, size: usize) {
        self.from += size;
    }

    /// Reads once; false where the input ends.
    pub fn read_on(&mut self) -> io::Result<bool> {
        self.all.copy_within(self.from..self.to, 0);
        self.to -= self.from;
        self.from = 0;
        let got = self.input.read(&mut self.all[self.to..])?;
        self.to += got;
        Ok(got > 0)
    }
}
