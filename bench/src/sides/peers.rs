//! The types of the crates that Debian packages.
mod header_map;
mod index_map;
mod multi_map;
mod original;

use super::finds::{on_counter, on_multimap, on_names, on_queue};
use super::lists::{Counts, Lists};
use super::{Order, Runner, Side, side};
use crate::hashers::DefaultState;
use crate::workloads::Run;
use header_map::Headers;
use indexmap::IndexMap;
use multi_map::Counted;
use original::Original;
use std::hash::{BuildHasher, RandomState};

/// `retain` of the original panics where neighbouring values of one key go.
fn on_original<S: BuildHasher + Default + Clone>(name: &str) -> Option<Runner> {
    let found: Option<Run> = match name {
        "retain_half_multi" => None,
        _ => on_multimap::<Original<u64, S>>(name)
            .or_else(|| on_counter::<Original<u64, S>>(name))
            .or_else(|| on_queue::<Original<u64, S>>(name))
            .or_else(|| on_names::<Original<String, S>>(name)),
    };
    found.map(Runner::Own)
}

fn on_index_map<S: BuildHasher + Default + Clone>(name: &str) -> Option<Runner> {
    let found: Option<Run> = match name {
        "sort_keys" => Some(index_map::sort_keys::<S>),
        _ => on_multimap::<Lists<IndexMap<u64, Vec<u64>, S>>>(name)
            .or_else(|| on_counter::<Counts<IndexMap<u64, u64, S>>>(name))
            .or_else(|| on_names::<Lists<IndexMap<String, Vec<u64>, S>>>(name)),
    };
    found.map(Runner::Own)
}

fn on_multi_map<S: BuildHasher + Default + Clone>(name: &str) -> Option<Runner> {
    let found = on_multimap::<Counted<u64, S>>(name)
        .or_else(|| on_counter::<Counted<u64, S>>(name))
        .or_else(|| on_names::<Counted<String, S>>(name));
    found.map(Runner::Own)
}

pub fn original() -> [Side; 2] {
    [
        side("original", Order::Pairs, on_original::<DefaultState>),
        side("original, own", Order::Pairs, on_original::<RandomState>),
    ]
}

pub fn others() -> [Side; 5] {
    [
        side("IndexMap", Order::Keys, on_index_map::<DefaultState>),
        side("IndexMap, own", Order::Keys, on_index_map::<RandomState>),
        side("MultiMap", Order::Any, on_multi_map::<DefaultState>),
        side("MultiMap, own", Order::Any, on_multi_map::<RandomState>),
        side("HeaderMap, own", Order::Any, |name| {
            on_names::<Headers>(name).map(Runner::Own)
        }),
    ]
}
