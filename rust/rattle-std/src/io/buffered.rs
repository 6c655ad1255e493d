//! A writer that collects bytes, and writes them in blocks.

use super::{Result, Write};
use crate::alloc::Global;
use crate::vec::Vec;

/// The maximum number of bytes that are buffered.
const BLOCK: usize = 8192;

/// A writer that buffers bytes, and writes them to another writer in blocks.
pub struct BufWriter<W: Write> {
    block: Vec<u8>,
    inner: W,
}

impl<W: Write> BufWriter<W> {
    /// Returns a writer that buffers bytes and writes them to `inner`.
    ///
    /// # Errors
    ///
    /// Returns an error of the kind `OutOfMemory` if memory runs out.
    pub fn new(alloc: Global, inner: W) -> Result<BufWriter<W>> {
        let block = Vec::with_capacity(alloc, BLOCK)?;
        Ok(BufWriter { block, inner })
    }

    fn write_block(&mut self) -> Result<()> {
        let written = self.inner.write_all(&self.block);
        self.block.clear();
        written
    }
}

impl<W: Write> Write for BufWriter<W> {
    fn write(&mut self, buf: &[u8]) -> Result<usize> {
        if self.block.len() + buf.len() > BLOCK {
            self.write_block()?;
        }
        if buf.len() > BLOCK {
            self.inner.write_all(buf)?;
        } else {
            self.block.extend_from_slice(buf)?;
        }
        Ok(buf.len())
    }

    fn flush(&mut self) -> Result<()> {
        self.write_block()?;
        self.inner.flush()
    }
}

impl<W: Write> Drop for BufWriter<W> {
    fn drop(&mut self) {
        // To learn whether the bytes were written, callers use `flush`.
        let _ = self.write_block();
    }
}
