//! A cursor over lent bytes. Whatever does not fit, or is left over, is refusal 7.

use crate::refusal::MALFORMED;

/// Bytes still to be read, and where the next one stands in the section.
#[derive(Clone, Copy)]
pub struct Reader<'a> {
    rest: &'a [u8],
    position: usize,
}

impl<'a> Reader<'a> {
    /// Reads `bytes`, the first of which stands at `position` in the section.
    pub fn new(bytes: &'a [u8], position: usize) -> Self {
        Reader {
            rest: bytes,
            position,
        }
    }

    /// Where the next byte stands in the section.
    pub fn position(&self) -> usize {
        self.position
    }

    /// How many bytes are left.
    pub fn left(&self) -> usize {
        self.rest.len()
    }

    /// Whether nothing is left.
    pub fn is_empty(&self) -> bool {
        self.rest.is_empty()
    }

    /// Refuses bytes left over.
    pub fn end(&self) -> Result<(), u8> {
        if self.is_empty() {
            Ok(())
        } else {
            Err(MALFORMED)
        }
    }

    /// The next `N` bytes.
    pub fn bytes<const N: usize>(&mut self) -> Result<[u8; N], u8> {
        let (&bytes, rest) = self.rest.split_first_chunk::<N>().ok_or(MALFORMED)?;
        self.rest = rest;
        self.position += N;
        Ok(bytes)
    }

    /// The next byte.
    pub fn u8(&mut self) -> Result<u8, u8> {
        self.bytes::<1>().map(|[byte]| byte)
    }

    /// The next 16 bits, most significant first.
    pub fn u16(&mut self) -> Result<u16, u8> {
        self.bytes().map(u16::from_be_bytes)
    }

    /// The next 32 bits, most significant first.
    pub fn u32(&mut self) -> Result<u32, u8> {
        self.bytes().map(u32::from_be_bytes)
    }

    /// The next `length` bytes, as a reader of their own.
    pub fn part(&mut self, length: usize) -> Result<Reader<'a>, u8> {
        let (part, rest) = self.rest.split_at_checked(length).ok_or(MALFORMED)?;
        let part = Reader::new(part, self.position);
        self.rest = rest;
        self.position += length;
        Ok(part)
    }

    /// An 8-bit length and that many bytes.
    pub fn part8(&mut self) -> Result<Reader<'a>, u8> {
        let length = self.u8()?;
        self.part(usize::from(length))
    }

    /// Four reserved bits, a 12-bit length and that many bytes.
    pub fn part12(&mut self) -> Result<Reader<'a>, u8> {
        let length = self.u16()? & 0x0FFF;
        self.part(usize::from(length))
    }

    /// A 16-bit length and that many bytes.
    pub fn part16(&mut self) -> Result<Reader<'a>, u8> {
        let length = self.u16()?;
        self.part(usize::from(length))
    }
}
