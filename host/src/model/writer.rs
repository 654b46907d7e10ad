//! Bytes laid one behind another into a buffer that was measured for them.

pub struct Writer<'a> {
    out: &'a mut [u8],
    end: usize,
}

impl<'a> Writer<'a> {
    pub fn new(out: &'a mut [u8]) -> Writer<'a> {
        Writer { out, end: 0 }
    }

    /// How much was written.
    pub fn end(&self) -> usize {
        self.end
    }

    pub fn put<const N: usize>(&mut self, bytes: [u8; N]) {
        self.put_all(&bytes);
    }

    pub fn put_number(&mut self, number: u16) {
        self.put(number.to_be_bytes());
    }

    #[inline]
    pub fn put_all(&mut self, bytes: &[u8]) {
        self.out[self.end..][..bytes.len()].copy_from_slice(bytes);
        self.end += bytes.len();
    }

    pub fn put_repeated(&mut self, byte: u8, count: usize) {
        self.out[self.end..][..count].fill(byte);
        self.end += count;
    }

    /// Writes a number over what stands at an offset.
    pub fn set_number(&mut self, offset: usize, number: u16) {
        self.out[offset..][..2].copy_from_slice(&number.to_be_bytes());
    }
}
