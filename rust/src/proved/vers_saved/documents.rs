//! Documents with costs, saved by the documents and then their costs, each as a word.

use crate::rattle::prelude::*;

use crate::proved::vers_saved::form::Shape;
use crate::proved::vers_saved::kind::{Kind, POSTING_LISTS};
use crate::proved::vers_saved::numbers::{are_words, copy_elements};
use crate::proved::vers_saved::saved::{Loaded, Saved};
use crate::proved::postings::Postings;
use crate::rattle::AllocError;
use crate::rattle::Allocator;
use crate::proved::vers_rmq::rmq::fast_rmq::MAX_LEN;

impl<A: Allocator + Copy> Saved for Postings<A> {
    type Prepared = ();

    fn kind() -> Kind {
        POSTING_LISTS
    }

    fn shape(&self) -> Option<Shape> {
        let count = self.len();
        if count > MAX_LEN {
            return None;
        }
        are_words(self.costs());
        Some(Shape { count, width: 128 })
    }

    #[inline]
    fn word(&self, k: usize) -> u64 {
        let count = self.len();
        if k < count {
            self.documents().get_unchecked(k)
        } else {
            self.costs()[k - count]
        }
    }

    fn copy_words(&self, from: usize, out: &mut [u64]) {
        copy_elements(self.documents().iter(), self.costs(), from, out)
    }

    fn prepare(&self) {}
}

impl<A: Allocator + Copy> Loaded<A> for Postings<A> {
    fn make(of: Shape, held: &mut Vec<u64, A>) -> Result<Self, AllocError> {
        let alloc = *held.allocator();
        let (documents, costs) = held.as_slice().split_at(of.count);
        let costs = Vec::from_slice(alloc, costs)?;
        match Postings::from_sorted(documents, costs) {
            Ok(postings) => Ok(postings),
            Err(_) => Err(AllocError),
        }
    }
}
