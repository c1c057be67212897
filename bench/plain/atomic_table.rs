//! A table of words that change in atomic steps, and of slots that only who may do so takes from. What the rule of a
//! table says is for the proof; here its steps are made, under a lock.

use crate::prelude::{Global, Vec};
use crate::standard::sync::Wait;
use std::marker::PhantomData;
use std::sync::{Condvar, Mutex, MutexGuard, PoisonError};

pub trait TableRule<T, V, K> {}
pub trait Play<T, V> {}
pub trait Split<V> {}
pub trait Join<V> {}

/// What a seat leaves behind between two turns.
pub struct Badge<V>(PhantomData<fn(V)>);

impl<V> Badge<V> {
    pub fn into_seat<T>(self) -> Seat<T, V> {
        Seat(PhantomData)
    }
}

/// Who makes steps.
pub struct Seat<T, V>(PhantomData<fn(T, V)>);

impl<T, V> Seat<T, V> {
    pub fn into_badge(self) -> Badge<V> {
        Badge(PhantomData)
    }
}

/// No memory for a table. The slots are given back.
pub struct Refused<T> {
    pub slots: Vec<T>,
}

pub struct Shared<T, V> {
    words: Mutex<std::vec::Vec<u64>>,
    changed: Condvar,
    slots: Mutex<std::vec::Vec<T>>,
    views: PhantomData<fn(V)>,
}

impl<T, V> Shared<T, V> {
    fn words(&self) -> MutexGuard<'_, std::vec::Vec<u64>> {
        self.words.lock().unwrap_or_else(PoisonError::into_inner)
    }

    /// Writes a word where it is the old one, and returns what it was.
    pub fn compare_exchange<P: Play<T, V>>(&self, _: &mut Seat<T, V>, k: usize, old: u64, new: u64) -> u64 {
        let mut words = self.words();
        let found = words[k];
        if found == old {
            words[k] = new;
        }
        found
    }

    pub fn store<P: Play<T, V>>(&self, _: &mut Seat<T, V>, k: usize, word: u64) {
        self.words()[k] = word;
    }

    pub fn load<P: Play<T, V>>(&self, _: &mut Seat<T, V>, k: usize) -> u64 {
        self.words()[k]
    }

    pub fn exchange(&self, _: &mut Seat<T, V>, k: usize, item: T) -> T {
        let mut slots = self.slots.lock().unwrap_or_else(PoisonError::into_inner);
        std::mem::replace(&mut slots[k], item)
    }

    /// Sleeps while the low half of a word is what was found there.
    pub fn park<R: Wait>(&self, _: &R, k: usize, found: u32) {
        let is_found = |words: &mut std::vec::Vec<u64>| words[k] as u32 == found;
        drop(self.changed.wait_while(self.words(), is_found).unwrap_or_else(PoisonError::into_inner));
    }

    pub fn wake_one(&self, _: usize) {
        self.changed.notify_one();
    }

    pub fn split_seat<S: Split<V>>(&self, _: &mut Seat<T, V>) -> Seat<T, V> {
        Seat(PhantomData)
    }

    pub fn join_seat<J: Join<V>>(&self, _: &mut Seat<T, V>, _: Seat<T, V>) {}
}

pub struct Table<T, V, K, L, A> {
    pub shared: Shared<T, V>,
    rule: PhantomData<fn(K, L, A)>,
}

impl<T, V, K, L> Table<T, V, K, L, Global> {
    pub fn new(_: Global, words: &[u64], slots: Vec<T>, _: &K) -> Result<(Self, Seat<T, V>), Refused<T>> {
        let shared = Shared {
            words: Mutex::new(words.to_vec()),
            changed: Condvar::new(),
            slots: Mutex::new(slots.0),
            views: PhantomData,
        };
        Ok((Table { shared, rule: PhantomData }, Seat(PhantomData)))
    }

    pub fn close_with(self, _: Seat<T, V>) -> Closed<T> {
        let slots = self.shared.slots.into_inner().unwrap_or_else(PoisonError::into_inner);
        Closed(slots.into_iter().map(Some).collect())
    }
}

/// The slots of a table that is no more.
pub struct Closed<T>(std::vec::Vec<Option<T>>);

impl<T> Closed<T> {
    pub fn take(&mut self, k: usize) -> T {
        self.0[k].take().expect("a slot that wasn't taken")
    }

    pub fn free(self) {}
}
