//! Where a decoder takes its words from.

#[derive(Debug, Clone, Copy, PartialEq, Eq)]
pub enum ReadError {
    ExhaustedInput,
}

pub trait Reader<Address, Item> {
    /// Fills `buf` with the next items; an error if there are too few.
    fn next_n(&mut self, buf: &mut [Item]) -> Result<(), ReadError>;
}

/// Reads bytes from a slice.
pub struct U8Reader<'data> {
    rest: &'data [u8],
}

impl<'data> U8Reader<'data> {
    pub fn new(data: &'data [u8]) -> Self {
        U8Reader { rest: data }
    }
}

impl<Address> Reader<Address, u8> for U8Reader<'_> {
    fn next_n(&mut self, buf: &mut [u8]) -> Result<(), ReadError> {
        if self.rest.len() < buf.len() {
            return Err(ReadError::ExhaustedInput);
        }
        let (taken, rest) = self.rest.split_at(buf.len());
        buf.copy_from_slice(taken);
        self.rest = rest;
        Ok(())
    }
}
