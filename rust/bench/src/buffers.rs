//! Where the loader's bytes and lent words lie in memory.

/// The bytes of a page.
const PAGE: usize = 4096;

/// Room for a file's bytes and for its words, at the same places of their pages in every build and
/// every run. They are half a page apart: where a load comes soon after a store that is whole pages
/// away, a processor may take the one's address for the other's and wait.
#[repr(C, align(4096))]
pub struct Buffers {
    bytes: [u8; 3 * PAGE],
    _gap: [u8; PAGE / 2],
    words: [u32; 3 * PAGE / 4],
}

impl Buffers {
    /// The buffers with a file's bytes in them; panics where those are more than three pages.
    pub fn with(bytes: &[u8]) -> Self {
        let mut buffers = Buffers {
            bytes: [0; 3 * PAGE],
            _gap: [0; PAGE / 2],
            words: [0; 3 * PAGE / 4],
        };
        buffers.bytes[..bytes.len()].copy_from_slice(bytes);
        buffers
    }

    /// The bytes of a file of `count` words, and as many lent words.
    pub fn split(&mut self, count: usize) -> (&[u8], &mut [u32]) {
        (&self.bytes[..4 * count], &mut self.words[..count])
    }
}
