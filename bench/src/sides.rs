//! The columns: the map, and what people use in its place.
mod finds;
mod lists;
#[cfg(feature = "peers")]
mod peers;
mod queue;

use crate::hashers::{DefaultState, FastState};
use crate::workloads::{HELD, Run, WORKLOADS};
use finds::{on_std, on_std_with_names};
use std::hash::RandomState;

/// What std's users write.
pub type Std<S> = lists::Lists<std::collections::HashMap<u64, Vec<u64>, S>>;

/// In which order a walk over all pairs goes.
#[derive(Clone, Copy, PartialEq)]
pub enum Order {
    Pairs,
    Keys,
    Any,
}

/// What runs a workload: a function of this program, or the static library by the workload's number
/// and that of the side there.
#[derive(Clone, Copy)]
pub enum Runner {
    Own(Run),
    Library { workload: u64, side: u64 },
}

// The static library's function is safe for all numbers.
unsafe extern "C" {
    safe fn bench(workload: u64, side: u64, n: u64, seed: u64) -> u64;
}

impl Runner {
    pub fn call(self, n: u64, seed: u64) -> u64 {
        match self {
            Runner::Own(run) => run(n, seed),
            Runner::Library { workload, side } => bench(workload, side, n, seed),
        }
    }
}

pub struct Side {
    pub name: &'static str,
    pub order: Order,
    find: fn(&str) -> Option<Runner>,
}

impl Side {
    /// What runs the workload of this name on this side, if anything.
    pub fn runner(&self, name: &str) -> Option<Runner> {
        (self.find)(name)
    }
}

/// The sides of the library: the map with its default hasher, and with the fast one; the kit's maps
/// with a vector of values a key, whose default hasher is the map's.
const MAP: u64 = 0;
const MAP_FAST: u64 = 1;
const KIT_HASH_MAP: u64 = 2;
const KIT_INDEX_MAP: u64 = 3;

/// The timed workloads that the library has for the kit's maps.
const ON_KIT: [&str; 9] = [
    "append_distinct",
    "append_few",
    "append_grouped",
    "append_scattered",
    "get_hit",
    "get_all_walk",
    "remove_all_half",
    "clone",
    "small_maps",
];

fn number_of(name: &str) -> Option<u64> {
    let timed = WORKLOADS.iter().map(|workload| workload.name);
    let place = timed.chain(HELD).position(|it| it == name)?;
    Some(place as u64)
}

fn library(name: &str, side: u64) -> Option<Runner> {
    Some(Runner::Library {
        workload: number_of(name)?,
        side,
    })
}

fn kit(name: &str, side: u64) -> Option<Runner> {
    let is_there = ON_KIT.contains(&name) || HELD.contains(&name);
    if is_there { library(name, side) } else { None }
}

const fn side(name: &'static str, order: Order, find: fn(&str) -> Option<Runner>) -> Side {
    Side { name, order, find }
}

/// The columns that are timed. A type that takes a hasher has two: with that of the map, and with
/// its own.
pub fn timed() -> Vec<Side> {
    let mut sides = vec![side("map", Order::Pairs, |name| library(name, MAP))];
    #[cfg(feature = "peers")]
    sides.extend(peers::original());
    sides.extend([
        side("HashMap", Order::Any, |name| {
            on_std_with_names::<DefaultState>(name).map(Runner::Own)
        }),
        side("HashMap, own", Order::Any, |name| {
            on_std_with_names::<RandomState>(name).map(Runner::Own)
        }),
    ]);
    #[cfg(feature = "peers")]
    sides.extend(peers::others());
    sides.extend([
        side("kit's HashMap", Order::Any, |name| kit(name, KIT_HASH_MAP)),
        side("kit's IndexMap", Order::Keys, |name| {
            kit(name, KIT_INDEX_MAP)
        }),
    ]);
    sides
}

/// The two columns that `bench/count` compares, with the map's default hasher or the fast one.
pub fn counted(has_default_hasher: bool) -> [Side; 2] {
    if has_default_hasher {
        [
            side("map", Order::Pairs, |name| library(name, MAP)),
            side("std", Order::Any, |name| {
                on_std_with_names::<DefaultState>(name).map(Runner::Own)
            }),
        ]
    } else {
        [
            side("map", Order::Pairs, |name| library(name, MAP_FAST)),
            side("std", Order::Any, |name| {
                on_std::<FastState>(name).map(Runner::Own)
            }),
        ]
    }
}
