//! What the sources of the crates find where Rattle's library would be: collections whose calls answer `Result`, over
//! those of plain Rust, and types that are there for proofs.

pub use crate::standard::rt::{AllocGlobal, Eprint, HostRuntime, Print};
use std::borrow::Borrow;
use std::collections::{BinaryHeap as PlainHeap, LinkedList as PlainList, linked_list};
use std::fmt::{Arguments, Debug, Display, Formatter, Write};
use std::marker::PhantomData;
use std::ops::{Deref, DerefMut};
use std::slice;
use std::string::String as PlainString;
use std::vec::{IntoIter, Vec as PlainVec};

pub type Global = ();

#[derive(Clone, Copy, Debug)]
pub struct AllocError;

/// No memory for an item, which is given back.
pub struct AllocFailed<T> {
    pub value: T,
}

impl<T> Debug for AllocFailed<T> {
    fn fmt(&self, formatter: &mut Formatter<'_>) -> std::fmt::Result {
        formatter.write_str("AllocFailed")
    }
}

impl<T> From<AllocFailed<T>> for AllocError {
    fn from(_: AllocFailed<T>) -> Self {
        AllocError
    }
}

type Found<T> = Result<T, AllocError>;

#[derive(Debug)]
pub struct Snapshot<T>(PhantomData<T>);

impl<T> Snapshot<T> {
    pub fn of(_: &T) -> Self {
        Snapshot(PhantomData)
    }
}

/// Traits that say how contracts see a type.
pub trait Model {}

#[derive(Debug, PartialEq)]
pub struct Vec<T>(pub PlainVec<T>);

impl<T> Vec<T> {
    pub fn new(_: Global) -> Self {
        Vec(PlainVec::new())
    }

    pub fn with_capacity(_: Global, count: usize) -> Found<Self> {
        Ok(Vec(PlainVec::with_capacity(count)))
    }

    pub fn from_slice(_: Global, items: &[T]) -> Found<Self>
    where
        T: Clone,
    {
        Ok(Vec(items.to_vec()))
    }

    pub fn clone(&self) -> Found<Self>
    where
        T: Clone,
    {
        Ok(Vec(self.0.clone()))
    }

    pub fn allocator(&self) -> &Global {
        &()
    }

    pub fn capacity(&self) -> usize {
        self.0.capacity()
    }

    pub fn reserve_exact(&mut self, more: usize) -> Found<()> {
        self.0.reserve_exact(more);
        Ok(())
    }

    #[inline]
    pub fn push(&mut self, item: T) -> Result<(), AllocFailed<T>> {
        self.0.push(item);
        Ok(())
    }

    /// Drops a list that has no items.
    pub fn destroy_empty(self) {}

    pub fn pop(&mut self) -> Option<T> {
        self.0.pop()
    }

    pub fn extend_from_slice(&mut self, items: &[T]) -> Found<()>
    where
        T: Clone,
    {
        self.0.extend_from_slice(items);
        Ok(())
    }

    pub fn append(&mut self, other: &mut Vec<T>) -> Found<()> {
        self.0.append(&mut other.0);
        Ok(())
    }

    pub fn split_off(&mut self, place: usize) -> Found<Self> {
        Ok(Vec(self.0.split_off(place)))
    }

    pub fn insert(&mut self, place: usize, item: T) -> Found<()> {
        self.0.insert(place, item);
        Ok(())
    }

    pub fn remove(&mut self, place: usize) -> T {
        self.0.remove(place)
    }

    pub fn swap_remove(&mut self, place: usize) -> T {
        self.0.swap_remove(place)
    }

    pub fn clear(&mut self) {
        self.0.clear();
    }

    pub fn truncate(&mut self, count: usize) {
        self.0.truncate(count);
    }

    pub fn retain(&mut self, keeps: impl FnMut(&T) -> bool) {
        self.0.retain(keeps);
    }

    pub fn dedup(&mut self)
    where
        T: PartialEq,
    {
        self.0.dedup();
    }

    pub fn as_slice(&self) -> &[T] {
        &self.0
    }

    pub fn as_mut_slice(&mut self) -> &mut [T] {
        &mut self.0
    }
}

impl<T> Deref for Vec<T> {
    type Target = [T];

    #[inline]
    fn deref(&self) -> &[T] {
        &self.0
    }
}

impl<T> DerefMut for Vec<T> {
    #[inline]
    fn deref_mut(&mut self) -> &mut [T] {
        &mut self.0
    }
}

impl<T> IntoIterator for Vec<T> {
    type Item = T;
    type IntoIter = IntoIter<T>;

    fn into_iter(self) -> IntoIter<T> {
        self.0.into_iter()
    }
}

impl<'a, T> IntoIterator for &'a Vec<T> {
    type Item = &'a T;
    type IntoIter = slice::Iter<'a, T>;

    fn into_iter(self) -> slice::Iter<'a, T> {
        self.0.iter()
    }
}

impl<'a, T> IntoIterator for &'a mut Vec<T> {
    type Item = &'a mut T;
    type IntoIter = slice::IterMut<'a, T>;

    fn into_iter(self) -> slice::IterMut<'a, T> {
        self.0.iter_mut()
    }
}

impl std::io::Write for Vec<u8> {
    fn write(&mut self, piece: &[u8]) -> std::io::Result<usize> {
        self.0.write(piece)
    }

    fn flush(&mut self) -> std::io::Result<()> {
        Ok(())
    }
}

pub trait CopyIn<T> {
    fn copy_in(&self, _: Global) -> Found<Vec<T>>;
}

impl<T: Clone> CopyIn<T> for [T] {
    fn copy_in(&self, _: Global) -> Found<Vec<T>> {
        Ok(Vec(self.to_vec()))
    }
}

pub trait CollectIn: Iterator + Sized {
    fn collect_in(self, _: Global) -> Found<Vec<Self::Item>> {
        Ok(Vec(self.collect()))
    }
}

impl<I: Iterator> CollectIn for I {}

#[derive(Debug)]
pub struct BinaryHeap<T>(PlainHeap<T>);

impl<T: Ord> BinaryHeap<T> {
    pub fn with_capacity(_: Global, count: usize) -> Found<Self> {
        Ok(BinaryHeap(PlainHeap::with_capacity(count)))
    }

    #[inline]
    pub fn push(&mut self, item: T) -> Found<()> {
        self.0.push(item);
        Ok(())
    }

    #[inline]
    pub fn pop(&mut self) -> Option<T> {
        self.0.pop()
    }

    #[inline]
    pub fn peek(&self) -> Option<&T> {
        self.0.peek()
    }

    pub fn as_slice(&self) -> &[T] {
        self.0.as_slice()
    }

    pub fn len(&self) -> usize {
        self.0.len()
    }

    pub fn is_empty(&self) -> bool {
        self.0.is_empty()
    }

    pub fn clear(&mut self) {
        self.0.clear();
    }
}

/// A list of which a part is split off without a copy.
#[derive(Debug)]
pub struct LinkedList<T>(PlainList<T>);

impl<T> LinkedList<T> {
    pub fn new(_: Global) -> Self {
        LinkedList(PlainList::new())
    }

    pub fn push_back(&mut self, item: T) -> Result<(), AllocFailed<T>> {
        self.0.push_back(item);
        Ok(())
    }

    pub fn front(&self) -> Option<&T> {
        self.0.front()
    }

    pub fn len(&self) -> usize {
        self.0.len()
    }

    pub fn is_empty(&self) -> bool {
        self.0.is_empty()
    }

    pub fn iter(&self) -> linked_list::Iter<'_, T> {
        self.0.iter()
    }

    pub fn split_off(&mut self, place: usize) -> Found<Self> {
        Ok(LinkedList(self.0.split_off(place)))
    }

    pub fn append(&mut self, other: &mut Self) -> Found<()> {
        self.0.append(&mut other.0);
        Ok(())
    }
}

#[derive(Debug, PartialEq, Eq, Hash)]
pub struct String(pub PlainString);

impl String {
    pub fn new(_: Global) -> Self {
        String(PlainString::new())
    }

    pub fn from_str(_: Global, text: &str) -> Found<Self> {
        Ok(String(text.to_owned()))
    }

    pub fn from_utf8_lossy(_: Global, bytes: &[u8]) -> Found<Self> {
        Ok(String(PlainString::from_utf8_lossy(bytes).into_owned()))
    }

    pub fn push(&mut self, letter: char) -> Found<()> {
        self.0.push(letter);
        Ok(())
    }

    pub fn push_str(&mut self, text: &str) -> Found<()> {
        self.0.push_str(text);
        Ok(())
    }

    pub fn as_str(&self) -> &str {
        &self.0
    }

    /// What `write!` calls.
    pub fn write_fmt(&mut self, words: Arguments<'_>) -> Found<()> {
        self.0.write_fmt(words).map_err(|_| AllocError)
    }
}

impl Deref for String {
    type Target = str;

    fn deref(&self) -> &str {
        &self.0
    }
}

impl Borrow<str> for String {
    fn borrow(&self) -> &str {
        &self.0
    }
}

impl Display for String {
    fn fmt(&self, formatter: &mut Formatter<'_>) -> std::fmt::Result {
        Display::fmt(&self.0, formatter)
    }
}
