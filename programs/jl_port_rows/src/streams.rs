//! Streams of std that fail.
ghost use Rattle.std.specs.Io.{ReadsAtMost};

use std::io::{Error, ErrorKind, Read, Write};

/// Gives "abc", fails, gives "de", and ends.
#[derive(Drop)]
pub struct BrokenReader {
    reads: u8,
}

impl BrokenReader {
    pub fn new() -> BrokenReader {
        BrokenReader { reads: 0 }
    }
}

impl Read for BrokenReader {
    fn read(&mut self, buf: &mut [u8]) -> std::io::Result<usize> {
        self.reads = self.reads.saturating_add(1);
        match self.reads {
            1 => fill(buf, b"abc"),
            2 => Err(Error::from(ErrorKind::BrokenPipe)),
            3 => fill(buf, b"de"),
            _ => Ok(0),
        }
    }
}

fn fill(buf: &mut [u8], bytes: &[u8]) -> std::io::Result<usize>
    ensures { ReadsAtMost result buf.new }
{
    let n = bytes.len().min(buf.len());
    buf[..n].copy_from_slice(&bytes[..n]);
    Ok(n)
}

/// Takes three bytes, fails, and takes nothing from then on.
#[derive(Drop)]
pub struct ClosedWriter {
    writes: u8,
}

impl ClosedWriter {
    pub fn new() -> ClosedWriter {
        ClosedWriter { writes: 0 }
    }
}

impl Write for ClosedWriter {
    fn write(&mut self, buf: &[u8]) -> std::io::Result<usize> {
        self.writes = self.writes.saturating_add(1);
        match self.writes {
            1 => Ok(buf.len().min(3)),
            2 => Err(Error::from(ErrorKind::BrokenPipe)),
            _ => Ok(0),
        }
    }

    fn flush(&mut self) -> std::io::Result<()> {
        Ok(())
    }
}
