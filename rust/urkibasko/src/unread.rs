//! Bytes of an accepted image that no answer depends on.

use std::ops::Range;

use crate::{Database, Kind};

/// Where such bytes lie.
#[derive(Clone, Copy, Debug, PartialEq, Eq, Hash)]
pub enum Unread {
    /// A free leaf page, all of it.
    FreePage,
    /// Between the cell pointers of a tree page and its content.
    Gap,
    /// The bytes that the header reserves at the end of every page; of a free leaf page they are told with it.
    Tail,
}

impl Database<'_> {
    /// The bytes of the image that may hold anything: free leaf pages, the gaps of tree pages, the reserved ends of all pages; by rising offset, none empty.
    ///
    /// It is proved that an image that differs in such bytes alone is accepted too, with the same ledger, and that lookups, rows and payloads of it are the same. That these ranges
    /// are those of the proof is tested. Freeblocks inside a page, which may hold deleted rows too, are not among them.
    ///
    /// ```
    /// # let image = include_bytes!("../../../examples/counter.db");
    /// let database = urkibasko::Database::new(image)?;
    /// let mut scrubbed = image.to_vec();
    /// for (_, range) in database.unread() {
    ///     scrubbed[range].fill(0);
    /// }
    /// assert_eq!(urkibasko::Database::new(&scrubbed)?.ledger(), database.ledger());
    /// # Ok::<(), urkibasko::Refusal>(())
    /// ```
    pub fn unread(&self) -> impl Iterator<Item = (Unread, Range<usize>)> + '_ {
        let two = |at: usize| usize::from(u16::from_be_bytes([self.image()[at], self.image()[at + 1]]));
        // An accepted image passed the tests of its header, and holds the pages of its ledger.
        let size = match two(16) {
            1 => 65536,
            size => size,
        };
        let usable = size - usize::from(self.image()[20]);
        let on_page = move |page: u32| {
            let start = (page as usize - 1) * size;
            let tail = (Unread::Tail, start + usable..start + size);
            match self.ledger().kind(page) {
                Some(Kind::FreeLeaf) => [Some((Unread::FreePage, start..start + size)), None],
                Some(Kind::Root | Kind::Tree) => {
                    let head = start + if page == 1 { 100 } else { 0 };
                    let interior = matches!(self.image()[head], 2 | 5);
                    let content = match two(head + 5) {
                        0 => 65536,
                        content => content,
                    };
                    let gap = head + if interior { 12 } else { 8 } + 2 * two(head + 3)..start + content;
                    [Some((Unread::Gap, gap)), Some(tail)]
                }
                _ => [None, Some(tail)],
            }
        };
        (1..=self.ledger().pages()).flat_map(on_page).flatten().filter(|(_, range)| !range.is_empty())
    }
}
