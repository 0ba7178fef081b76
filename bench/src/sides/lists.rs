//! Maps with a vector of values a key: those of std and of indexmap.
use crate::multimap::{Counter, Lens, Multimap, Names};
use std::collections::HashMap;
use std::hash::BuildHasher;

/// A map from keys to anything. Each call is the map's own of that name.
pub trait Table<K: 'static, V: 'static>: Default {
    fn entry_or_default(&mut self, key: K) -> &mut V;
    fn get(&self, key: &K) -> Option<&V>;
    fn get_mut(&mut self, key: &K) -> Option<&mut V>;
    fn remove(&mut self, key: &K) -> Option<V>;
    fn retain(&mut self, keeps: impl FnMut(&mut V) -> bool);
    fn reserve(&mut self, keys: usize);
    fn iter(&self) -> impl Iterator<Item = (&K, &V)>;
    fn iter_mut(&mut self) -> impl Iterator<Item = (&K, &mut V)>;
    fn keys(&self) -> impl Iterator<Item = &K>;
    fn len(&self) -> usize;
}

macro_rules! table {
    ($map:ident, $remove:ident) => {
        impl<K, V, S> $crate::sides::lists::Table<K, V> for $map<K, V, S>
        where
            K: Eq + std::hash::Hash + 'static,
            V: Default + 'static,
            S: std::hash::BuildHasher + Default,
        {
            #[inline(always)]
            fn entry_or_default(&mut self, key: K) -> &mut V {
                self.entry(key).or_default()
            }

            #[inline(always)]
            fn get(&self, key: &K) -> Option<&V> {
                $map::get(self, key)
            }

            #[inline(always)]
            fn get_mut(&mut self, key: &K) -> Option<&mut V> {
                $map::get_mut(self, key)
            }

            #[inline(always)]
            fn remove(&mut self, key: &K) -> Option<V> {
                $map::$remove(self, key)
            }

            #[inline(always)]
            fn retain(&mut self, mut keeps: impl FnMut(&mut V) -> bool) {
                $map::retain(self, |_, value| keeps(value));
            }

            fn reserve(&mut self, keys: usize) {
                $map::reserve(self, keys);
            }

            #[inline(always)]
            fn iter(&self) -> impl Iterator<Item = (&K, &V)> {
                $map::iter(self)
            }

            #[inline(always)]
            fn iter_mut(&mut self) -> impl Iterator<Item = (&K, &mut V)> {
                $map::iter_mut(self)
            }

            #[inline(always)]
            fn keys(&self) -> impl Iterator<Item = &K> {
                $map::keys(self)
            }

            fn len(&self) -> usize {
                $map::len(self)
            }
        }
    };
}
#[cfg(feature = "peers")]
pub(crate) use table;

table!(HashMap, remove);

/// A multimap as one would write it with such a map, which counts the values.
#[derive(Clone, Default)]
pub struct Lists<M> {
    pub keys: M,
    values_len: u64,
}

impl<M> Lists<M> {
    fn lens_of<K: 'static>(&self) -> Lens
    where
        M: Table<K, Vec<u64>>,
    {
        let keys = self.keys.len() as u64;
        Lens {
            keys,
            values: self.values_len,
        }
    }

    #[inline(always)]
    fn push<K: 'static>(&mut self, key: K, value: u64) -> bool
    where
        M: Table<K, Vec<u64>>,
    {
        let values = self.keys.entry_or_default(key);
        let was_present = !values.is_empty();
        values.push(value);
        self.values_len += 1;
        was_present
    }

    #[inline(always)]
    fn put<K: 'static>(&mut self, key: K, value: u64) -> Option<u64>
    where
        M: Table<K, Vec<u64>>,
    {
        let values = self.keys.entry_or_default(key);
        let old = values.first().copied();
        self.values_len = self.values_len + 1 - values.len() as u64;
        values.clear();
        values.push(value);
        old
    }
}

impl<M: Table<u64, Vec<u64>>> Multimap for Lists<M> {
    #[inline(always)]
    fn append(&mut self, key: u64, value: u64) -> bool {
        self.push(key, value)
    }

    #[inline(always)]
    fn insert(&mut self, key: u64, value: u64) -> Option<u64> {
        self.put(key, value)
    }

    #[inline(always)]
    fn remove_all(&mut self, key: u64, each: impl FnMut(u64)) {
        let values = self.keys.remove(&key).unwrap_or_default();
        self.values_len -= values.len() as u64;
        values.into_iter().for_each(each);
    }

    #[inline(always)]
    fn retain(&mut self, mut keeps: impl FnMut(u64) -> bool) {
        let mut left = 0;
        self.keys.retain(|values| {
            values.retain(|value| keeps(*value));
            left += values.len() as u64;
            !values.is_empty()
        });
        self.values_len = left;
    }

    #[inline(always)]
    fn get(&self, key: u64) -> Option<u64> {
        self.keys.get(&key)?.first().copied()
    }

    #[inline(always)]
    fn for_each_of(&self, key: u64, mut each: impl FnMut(u64)) {
        for value in self.keys.get(&key).map_or(&[][..], Vec::as_slice) {
            each(*value);
        }
    }

    #[inline(always)]
    fn for_each_of_mut(&mut self, key: u64, mut each: impl FnMut(&mut u64)) {
        for value in self
            .keys
            .get_mut(&key)
            .map_or(&mut [][..], Vec::as_mut_slice)
        {
            each(value);
        }
    }

    #[inline(always)]
    fn for_each(&self, mut each: impl FnMut(u64, u64)) {
        for (key, values) in self.keys.iter() {
            for value in values {
                each(*key, *value);
            }
        }
    }

    #[inline(always)]
    fn for_each_mut(&mut self, mut each: impl FnMut(u64, &mut u64)) {
        for (key, values) in self.keys.iter_mut() {
            for value in values {
                each(*key, value);
            }
        }
    }

    #[inline(always)]
    fn for_each_key(&self, mut each: impl FnMut(u64)) {
        self.keys.keys().for_each(|key| each(*key));
    }

    #[inline(always)]
    fn for_each_list(&self, each: impl FnMut(u64, u64)) {
        self.for_each(each);
    }

    /// Each key is new, so room is asked for as many keys as the iterator tells of.
    fn from_pairs(pairs: impl Iterator<Item = (u64, u64)>) -> Self {
        let mut map = Self::default();
        map.keys.reserve(pairs.size_hint().0);
        map.extend(pairs);
        map
    }

    fn extend(&mut self, pairs: impl Iterator<Item = (u64, u64)>) {
        pairs.for_each(|(key, value)| {
            self.push(key, value);
        });
    }

    fn lens(&self) -> Lens {
        self.lens_of()
    }
}

/// Each key has one number, so this is a map of numbers and not of vectors.
#[derive(Default)]
pub struct Counts<M>(M);

impl<M: Table<u64, u64>> Counter for Counts<M> {
    #[inline(always)]
    fn count(&mut self, key: u64) -> u64 {
        let count = self.0.entry_or_default(key);
        *count += 1;
        *count
    }

    fn lens(&self) -> Lens {
        let keys = self.0.len() as u64;
        Lens { keys, values: keys }
    }
}

/// A look-up of a name by its text.
pub trait ByText {
    fn by_text(&self, name: &str) -> Option<&Vec<u64>>;
}

impl<S: BuildHasher> ByText for HashMap<String, Vec<u64>, S> {
    #[inline(always)]
    fn by_text(&self, name: &str) -> Option<&Vec<u64>> {
        self.get(name)
    }
}

impl<M: Table<String, Vec<u64>> + ByText> Names for Lists<M> {
    #[inline(always)]
    fn append(&mut self, name: &str, value: u64) -> bool {
        self.push(name.to_string(), value)
    }

    #[inline(always)]
    fn insert(&mut self, name: &str, value: u64) -> Option<u64> {
        self.put(name.to_string(), value)
    }

    #[inline(always)]
    fn get(&self, name: &str) -> Option<u64> {
        self.keys.by_text(name)?.first().copied()
    }

    fn lens(&self) -> Lens {
        self.lens_of()
    }
}
