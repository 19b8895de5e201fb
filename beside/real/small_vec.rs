//! A vector whose first few items lie in itself; once there are more, all of them move to the heap.

use std::mem;
use std::ops::{Deref, DerefMut};

/// The places in the vector itself.
pub trait Inline {
    type Item: Default;

    fn blank() -> Self;
    fn places(&self) -> &[Self::Item];
    fn places_mut(&mut self) -> &mut [Self::Item];
}

impl<T: Default, const N: usize> Inline for [T; N] {
    type Item = T;

    fn blank() -> Self {
        std::array::from_fn(|_| T::default())
    }

    fn places(&self) -> &[T] {
        self
    }

    fn places_mut(&mut self) -> &mut [T] {
        self
    }
}

#[derive(Clone, Debug)]
enum Storage<A, T> {
    /// Places past `len` are never read.
    Here {
        len: usize,
        places: A,
    },
    Heap(Vec<T>),
}

#[derive(Clone, Debug)]
pub struct SmallVec<A: Inline>(Storage<A, A::Item>);

impl<A: Inline> SmallVec<A> {
    pub fn new() -> Self {
        Self(Storage::Here { len: 0, places: A::blank() })
    }

    pub fn with_capacity(capacity: usize) -> Self {
        let mut items = Self::new();
        if let Storage::Here { places, .. } = &items.0
            && capacity > places.places().len()
        {
            items.0 = Storage::Heap(Vec::with_capacity(capacity));
        }
        items
    }

    pub fn len(&self) -> usize {
        match &self.0 {
            Storage::Here { len, .. } => *len,
            Storage::Heap(items) => items.len(),
        }
    }

    pub fn push(&mut self, item: A::Item) {
        match &mut self.0 {
            Storage::Heap(items) => items.push(item),
            Storage::Here { len, places } => match places.places_mut().get_mut(*len) {
                Some(place) => {
                    *place = item;
                    *len += 1;
                }
                None => self.spill(item),
            },
        }
    }

    #[cold]
    fn spill(&mut self, item: A::Item) {
        let mut items = Vec::with_capacity(2 * (self.len() + 1));
        items.extend(self.iter_mut().map(mem::take));
        items.push(item);
        self.0 = Storage::Heap(items);
    }

    pub fn pop(&mut self) -> Option<A::Item> {
        match &mut self.0 {
            Storage::Heap(items) => items.pop(),
            Storage::Here { len, places } => {
                *len = len.checked_sub(1)?;
                Some(mem::take(&mut places.places_mut()[*len]))
            }
        }
    }

    pub fn swap_remove(&mut self, index: usize) -> A::Item {
        let last = self.len() - 1;
        self.swap(index, last);
        self.pop().expect("a vector with an item at the index")
    }

    pub fn retain(&mut self, mut keep: impl FnMut(&mut A::Item) -> bool) {
        match &mut self.0 {
            Storage::Heap(items) => items.retain_mut(keep),
            Storage::Here { len, places } => {
                let mut kept = 0;
                for index in 0..*len {
                    if keep(&mut places.places_mut()[index]) {
                        places.places_mut().swap(kept, index);
                        kept += 1;
                    }
                }
                *len = kept;
            }
        }
    }
}

impl<A: Inline> Default for SmallVec<A> {
    fn default() -> Self {
        Self::new()
    }
}

impl<A: Inline> Deref for SmallVec<A> {
    type Target = [A::Item];

    fn deref(&self) -> &[A::Item] {
        match &self.0 {
            Storage::Here { len, places } => &places.places()[..*len],
            Storage::Heap(items) => items,
        }
    }
}

impl<A: Inline> DerefMut for SmallVec<A> {
    fn deref_mut(&mut self) -> &mut [A::Item] {
        match &mut self.0 {
            Storage::Here { len, places } => &mut places.places_mut()[..*len],
            Storage::Heap(items) => items,
        }
    }
}

impl<A: Inline> Extend<A::Item> for SmallVec<A> {
    fn extend<I: IntoIterator<Item = A::Item>>(&mut self, items: I) {
        for item in items {
            self.push(item);
        }
    }
}

impl<A: Inline> FromIterator<A::Item> for SmallVec<A> {
    fn from_iter<I: IntoIterator<Item = A::Item>>(items: I) -> Self {
        let mut all = Self::new();
        all.extend(items);
        all
    }
}

impl<'a, A: Inline> IntoIterator for &'a SmallVec<A> {
    type Item = &'a A::Item;
    type IntoIter = std::slice::Iter<'a, A::Item>;

    fn into_iter(self) -> Self::IntoIter {
        self.iter()
    }
}

impl<A: Inline> IntoIterator for SmallVec<A> {
    type Item = A::Item;
    type IntoIter = IntoIter<A>;

    fn into_iter(self) -> IntoIter<A> {
        IntoIter { items: self, next: 0 }
    }
}

pub struct IntoIter<A: Inline> {
    items: SmallVec<A>,
    next: usize,
}

impl<A: Inline> Iterator for IntoIter<A> {
    type Item = A::Item;

    fn next(&mut self) -> Option<A::Item> {
        let item = self.items.get_mut(self.next)?;
        self.next += 1;
        Some(mem::take(item))
    }
}

#[macro_export]
macro_rules! smallvec {
    ($($item:expr),*) => {{
        let mut items = $crate::SmallVec::new();
        $(items.push($item);)*
        items
    }};
}
