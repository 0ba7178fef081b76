//! What runs a workload on a type of std.
use super::lists::{Counts, Lists};
use super::queue::KeyedQueue;
use crate::multimap::{Counter, Multimap, Names, Queue};
use crate::work::{changes, fills, holds, lookups, names, orders};
use crate::workloads::Run;
use std::collections::HashMap;
use std::hash::BuildHasher;

/// The workloads of any multimap.
pub fn on_multimap<M: Multimap + Clone>(name: &str) -> Option<Run> {
    Some(match name {
        "append_distinct" => fills::append_distinct::<M>,
        "append_few" => fills::append_few::<M>,
        "append_grouped" => fills::append_grouped::<M>,
        "append_scattered" => fills::append_scattered::<M>,
        "from_iter" => fills::from_iter::<M>,
        "extend" => fills::extend::<M>,
        "small_maps" => fills::small_maps::<M>,
        "get_hit" => lookups::get_hit::<M>,
        "get_miss" => lookups::get_miss::<M>,
        "get_all_walk" => lookups::get_all_walk::<M>,
        "get_all_walk_scattered" => lookups::get_all_walk_scattered::<M>,
        "iter_all" => lookups::iter_all::<M>,
        "keys_all" => lookups::keys_all::<M>,
        "pairs_all" => lookups::pairs_all::<M>,
        "clone" => lookups::clone::<M>,
        "insert_replace" => changes::insert_replace::<M>,
        "set_over_eight" => changes::set_over_eight::<M>,
        "remove_all_half" => changes::remove_all_half::<M>,
        "remove_single" => changes::remove_single::<M>,
        "retain_half" => changes::retain_half::<M>,
        "retain_half_multi" => changes::retain_half_multi::<M>,
        "iter_mut_all" | "update_values" => changes::iter_mut_all::<M>,
        "get_all_mut_walk" | "update_all" => changes::get_all_mut_walk::<M>,
        "hold_distinct" => holds::hold_distinct::<M>,
        "hold_grouped" => holds::hold_grouped::<M>,
        "hold_few" => holds::hold_few::<M>,
        _ => return None,
    })
}

pub fn on_counter<C: Counter>(name: &str) -> Option<Run> {
    (name == "entry_count").then_some(changes::entry_count::<C> as Run)
}

pub fn on_queue<Q: Queue>(name: &str) -> Option<Run> {
    Some(match name {
        "fifo_churn" => changes::fifo_churn::<Q>,
        "fifo_churn_few" => changes::fifo_churn_few::<Q>,
        "fifo_small" => changes::fifo_small::<Q>,
        _ => return None,
    })
}

pub fn on_names<M: Names>(name: &str) -> Option<Run> {
    Some(match name {
        "request_headers" => names::request_headers::<M>,
        "form_fields" => names::form_fields::<M>,
        "config_section" => names::config_section::<M>,
        "forty_headers" => names::forty_headers::<M>,
        _ => return None,
    })
}

/// Std has no queue of pairs and sorts no map, so the nearest thing stands beside these.
pub fn on_std<S: BuildHasher + Default + Clone>(name: &str) -> Option<Run> {
    match name {
        "sort_keys" => Some(orders::sort_keys_aside::<Lists<HashMap<u64, Vec<u64>, S>>>),
        "sort_by" => Some(orders::sort_by_aside::<Lists<HashMap<u64, Vec<u64>, S>>>),
        _ => on_multimap::<Lists<HashMap<u64, Vec<u64>, S>>>(name)
            .or_else(|| on_counter::<Counts<HashMap<u64, u64, S>>>(name))
            .or_else(|| on_queue::<KeyedQueue<S>>(name)),
    }
}

/// The workloads of a std map whose hasher takes texts too.
pub fn on_std_with_names<S: BuildHasher + Default + Clone>(name: &str) -> Option<Run> {
    on_std::<S>(name).or_else(|| on_names::<Lists<HashMap<String, Vec<u64>, S>>>(name))
}
