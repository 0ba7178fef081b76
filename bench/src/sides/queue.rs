//! A queue of pairs by std: a map of queues, and a queue of keys.
use crate::multimap::{Lens, Queue};
use std::collections::{HashMap, VecDeque};
use std::hash::BuildHasher;

/// The map has the values of each key, and the queue a key for each pair.
#[derive(Default)]
pub struct KeyedQueue<S> {
    keys: HashMap<u64, VecDeque<u64>, S>,
    order: VecDeque<u64>,
}

impl<S: BuildHasher + Default> Queue for KeyedQueue<S> {
    #[inline(always)]
    fn append(&mut self, key: u64, value: u64) -> bool {
        self.order.push_back(key);
        let values = self.keys.entry(key).or_default();
        values.push_back(value);
        values.len() > 1
    }

    #[inline(always)]
    fn pop_front(&mut self) -> Option<(u64, bool)> {
        let key = self.order.pop_front()?;
        let values = self.keys.get_mut(&key)?;
        let old = values.pop_front()?;
        let is_last = values.is_empty();
        if is_last {
            self.keys.remove(&key);
        }
        Some((old, is_last))
    }

    fn lens(&self) -> Lens {
        let (keys, values) = (self.keys.len() as u64, self.order.len() as u64);
        Lens { keys, values }
    }
}
