// Readers that fail, a reader without an end, and writers that fail or take little.
pub use nvme_texts::{Takes, TakesOne};
use std::io::{Error, ErrorKind, Read, Result};

/// A reader of which one read, by its number from 0, fails. Each other read gives up to ten bytes of text.
#[derive(Clone, Copy)]
pub struct FailsAt<'a> {
    pub text: &'a [u8],
    pub reads: usize,
    pub fails_at: usize,
}

impl Read for FailsAt<'_> {
    fn read(&mut self, buf: &mut [u8]) -> Result<usize> {
        if self.reads == self.fails_at {
            return Err(Error::from(ErrorKind::Other));
        }
        self.reads = self.reads.saturating_add(1);
        let count = self.text.len().min(buf.len()).min(10);
        buf[..count].copy_from_slice(&self.text[..count]);
        self.text = &self.text[count..];
        Ok(count)
    }
}

/// A reader whose reads fail.
#[derive(Clone, Copy)]
pub struct Fails;

impl Read for Fails {
    fn read(&mut self, _buf: &mut [u8]) -> Result<usize> {
        Err(Error::from(ErrorKind::Other))
    }
}

/// A reader of zeros without an end.
#[derive(Clone, Copy)]
pub struct Endless;

impl Read for Endless {
    fn read(&mut self, buf: &mut [u8]) -> Result<usize> {
        buf.fill(b'0');
        Ok(buf.len())
    }
}
