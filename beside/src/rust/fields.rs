//! Marks and fields, read off the front of job bytes.

use super::refusal;

pub struct Fields<'a> {
    rest: &'a [u8],
}

impl<'a> Fields<'a> {
    pub fn new(bytes: &'a [u8]) -> Self {
        Self { rest: bytes }
    }

    pub fn at_end(&self) -> bool {
        self.rest.is_empty()
    }

    pub fn mark(&mut self) -> Result<[u8; 2], u8> {
        self.take()
    }

    /// A 32-bit field, low byte first.
    pub fn number(&mut self) -> Result<u32, u8> {
        self.take().map(u32::from_le_bytes)
    }

    /// Whether so many 32-bit fields are there.
    pub fn has_numbers(&self, count: u64) -> bool {
        count <= self.rest.len() as u64 / 4
    }

    fn take<const N: usize>(&mut self) -> Result<[u8; N], u8> {
        let (taken, rest) = self.rest.split_first_chunk().ok_or(refusal::RECORD)?;
        self.rest = rest;
        Ok(*taken)
    }
}
