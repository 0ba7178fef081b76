//! Compares the checksums of all sides.
use crate::SEED;
use crate::hashers::DefaultState;
use crate::sides::{Order, Side, Std};
use crate::work::orders;
use crate::workloads::WORKLOADS;

/// Runs every workload once on every side. Each checksum is to be that of std's side, or, where the
/// workload goes over pairs in order, the one computed in the order that the side keeps, if any.
pub fn wrong_checksums(sides: &[Side], pairs: u64) -> Vec<String> {
    let mut wrong = Vec::new();
    for workload in &WORKLOADS {
        let name = workload.name;
        for side in sides {
            let Some(expected) = expected(name, side.order, sides, pairs) else {
                continue;
            };
            let found = side.runner(name).map(|runner| runner.call(pairs, SEED));
            if found.is_some_and(|found| found != expected) {
                wrong.push(format!("{name}, {}: the checksum is wrong", side.name));
            }
        }
    }
    wrong
}

fn expected(name: &str, order: Order, sides: &[Side], pairs: u64) -> Option<u64> {
    if name == "iter_all" {
        return match order {
            Order::Pairs => Some(orders::iter_all_by_pairs::<Std<DefaultState>>(pairs, SEED)),
            Order::Keys => Some(orders::iter_all_by_keys::<Std<DefaultState>>(pairs, SEED)),
            Order::Any => None,
        };
    }
    let std = sides.iter().find(|side| side.name == "HashMap")?;
    Some(std.runner(name)?.call(pairs, SEED))
}
