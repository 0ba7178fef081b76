//! The `HeaderMap` of http, whose keys are names of headers, in lower case. It takes no hasher.
use crate::multimap::{Lens, Names};
use http::header::{HeaderMap, HeaderName};

/// A type of this crate around it, for the trait of this crate.
pub struct Headers(HeaderMap<u64>);

impl Default for Headers {
    fn default() -> Self {
        Headers(HeaderMap::with_capacity(0))
    }
}

/// A name is parsed where it is stored, as one that is read from a message.
#[inline(always)]
fn parsed(name: &str) -> HeaderName {
    HeaderName::from_bytes(name.as_bytes()).expect("the names are those of headers")
}

impl Names for Headers {
    #[inline(always)]
    fn append(&mut self, name: &str, value: u64) -> bool {
        self.0.append(parsed(name), value)
    }

    #[inline(always)]
    fn insert(&mut self, name: &str, value: u64) -> Option<u64> {
        self.0.insert(parsed(name), value)
    }

    #[inline(always)]
    fn get(&self, name: &str) -> Option<u64> {
        self.0.get(name).copied()
    }

    fn lens(&self) -> Lens {
        let (keys, values) = (self.0.keys_len() as u64, self.0.len() as u64);
        Lens { keys, values }
    }
}
