//! Fills a map and holds it, for `bench/memory`.
use crate::sides::timed;
use crate::work::holds::mark;
use crate::workloads::HELD;
use crate::{SEED, VERSIONS, parse_pairs};
use std::hint::black_box;

/// Runs a workload of `HELD` between two marks. The words are the side, the workload and the pairs;
/// with none it prints the versions, and the pairs of side and workload that there are.
pub fn run_once(words: &[String]) -> Option<()> {
    let sides = timed();
    if words.is_empty() {
        println!("{VERSIONS}");
        for side in &sides {
            for workload in HELD.iter().filter(|it| side.runner(it).is_some()) {
                println!("{}\t{workload}", side.name);
            }
        }
        return Some(());
    }
    let [side, workload, pairs] = words else {
        return None;
    };
    let side = sides.iter().find(|it| it.name == *side)?;
    let runner = side.runner(HELD.iter().find(|it| *it == workload)?)?;
    let pairs = parse_pairs(pairs)?;
    mark();
    black_box(runner.call(black_box(pairs), black_box(SEED)));
    Some(())
}
