use std::io::{Error, ErrorKind, Result, Write};

/// A writer that takes a number of bytes and then fails, or answers 0.
#[derive(Drop)]
pub struct Takes {
    pub taken: Vec<u8>,
    pub room: usize,
    pub fails: bool,
}

impl Write for Takes {
    fn write(&mut self, buf: &[u8]) -> Result<usize> {
        let count = buf.len().min(self.room);
        if count == 0 && self.fails {
            return Err(Error::from(ErrorKind::Other));
        }
        self.taken.extend_from_slice(&buf[..count])?;
        self.room -= count;
        Ok(count)
    }

    fn flush(&mut self) -> Result<()> {
        Ok(())
    }
}

/// A writer that takes one byte at a time.
#[derive(Drop)]
pub struct TakesOne {
    pub taken: Vec<u8>,
}

impl Write for TakesOne {
    fn write(&mut self, buf: &[u8]) -> Result<usize> {
        let count = buf.len().min(1);
        self.taken.extend_from_slice(&buf[..count])?;
        Ok(count)
    }

    fn flush(&mut self) -> Result<()> {
        Ok(())
    }
}
