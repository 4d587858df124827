//! Dumps put together page by page.

use crate::second::layout::Layout;

/// A dump in the making: every byte is 0xFF until it is set.
pub struct Builder {
    pub layout: Layout,
    pub bytes: Vec<u8>,
}

impl Builder {
    pub fn new(layout: Layout, pages: usize) -> Builder {
        let bytes = vec![0xFF; pages * layout.page()];
        Builder { layout, bytes }
    }

    /// Number of pages.
    pub fn pages(&self) -> usize {
        self.bytes.len() / self.layout.page()
    }

    /// The data bytes of a page.
    pub fn data(&mut self, page: usize) -> &mut [u8] {
        let at = page * self.layout.page();
        &mut self.bytes[at..at + self.layout.data]
    }

    fn put(&mut self, at: usize, word: u32) {
        self.bytes[at..at + 4].copy_from_slice(&word.to_le_bytes());
    }

    /// Set the tag words of a page: sequence, object, chunk and count.
    pub fn tags(&mut self, page: usize, words: [u32; 4]) {
        self.tags_under(self.layout, page, words);
    }

    /// Set the tag words where another layout would have them.
    pub fn tags_under(&mut self, layout: Layout, page: usize, words: [u32; 4]) {
        let at = page * layout.page() + layout.data + layout.tag;
        for (i, word) in words.into_iter().enumerate() {
            self.put(at + 4 * i, word);
        }
    }

    /// Set the header fields of a page that decide something: type, parent, file
    /// size and shrink. All others stay as they are.
    pub fn header(&mut self, page: usize, words: [u32; 4]) {
        let at = page * self.layout.page();
        for (place, word) in [0x0, 0x4, 0x124, 0x1FC].into_iter().zip(words) {
            self.put(at + place, word);
        }
    }
}
