//! The workloads by name.

/// A workload at so many pairs and a seed. It answers a checksum.
pub type Run = fn(u64, u64) -> u64;

pub struct Workload {
    pub name: &'static str,
    /// The workload that this one starts with.
    pub start: Option<&'static str>,
    /// How many operations are timed: so many for each sixteen pairs.
    pub operations: u64,
}

const DISTINCT: Option<&str> = Some("append_distinct");
const FEW: Option<&str> = Some("append_few");
const GROUPED: Option<&str> = Some("append_grouped");
const SCATTERED: Option<&str> = Some("append_scattered");

const fn after(start: Option<&'static str>, name: &'static str, operations: u64) -> Workload {
    Workload {
        name,
        start,
        operations,
    }
}

/// Every workload that is timed. Its place is its number in the static library.
pub const WORKLOADS: [Workload; 35] = [
    after(None, "append_distinct", 16),
    after(None, "append_few", 16),
    after(None, "append_grouped", 16),
    after(None, "append_scattered", 16),
    after(DISTINCT, "get_hit", 64),
    after(DISTINCT, "get_miss", 64),
    after(GROUPED, "get_all_walk", 64),
    after(SCATTERED, "get_all_walk_scattered", 64),
    after(SCATTERED, "iter_all", 256),
    after(DISTINCT, "fifo_churn", 64),
    after(FEW, "fifo_churn_few", 64),
    after(None, "fifo_small", 64),
    after(DISTINCT, "insert_replace", 64),
    after(SCATTERED, "remove_all_half", 8),
    after(SCATTERED, "keys_all", 32),
    after(SCATTERED, "pairs_all", 256),
    after(SCATTERED, "clone", 64),
    after(DISTINCT, "retain_half", 16),
    after(SCATTERED, "retain_half_multi", 16),
    after(None, "entry_count", 64),
    after(None, "small_maps", 16),
    after(SCATTERED, "iter_mut_all", 256),
    after(GROUPED, "get_all_mut_walk", 64),
    after(SCATTERED, "update_values", 256),
    after(GROUPED, "update_all", 64),
    after(None, "from_iter", 16),
    after(None, "extend", 16),
    after(DISTINCT, "sort_keys", 16),
    after(SCATTERED, "sort_by", 16),
    after(None, "request_headers", 1),
    after(None, "form_fields", 1),
    after(None, "config_section", 1),
    after(None, "forty_headers", 1),
    after(SCATTERED, "set_over_eight", 2),
    after(DISTINCT, "remove_single", 8),
];

/// The workloads whose memory is measured, by the numbers behind those.
pub const HELD: [&str; 3] = ["hold_distinct", "hold_grouped", "hold_few"];

pub fn named(name: &str) -> Option<&'static Workload> {
    WORKLOADS.iter().find(|workload| workload.name == name)
}
