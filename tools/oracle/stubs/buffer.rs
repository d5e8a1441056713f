//! Stands in for the original's buffer: the fields that error contexts read.

/// Never made here: no error context is asked for.
pub struct ReadBuffer {
    pub consumed: usize,
    pub record_pos: u64,
    pub reader_pos: u64,
    bytes: Vec<u8>,
}

impl AsRef<[u8]> for ReadBuffer {
    fn as_ref(&self) -> &[u8] {
        &self.bytes
    }
}
