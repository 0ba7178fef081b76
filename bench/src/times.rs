//! Times the workloads, all sides in turn.
use crate::SEED;
use crate::sides::{Runner, Side};
use crate::workloads::{Workload, named};
use std::fmt;
use std::hint::black_box;
use std::time::{Duration, Instant};

/// Sizes below this many pairs are run several times in a row for one timing.
const ENOUGH_PAIRS: u64 = 200_000;

/// The least times of a workload on a side: of its start, and of the whole.
#[derive(Clone, Copy)]
pub struct Least {
    start: Duration,
    whole: Duration,
}

/// A time, by how well it stands out of what was subtracted.
#[derive(Clone, Copy)]
pub enum Own {
    Clear(f64),
    Rough(f64),
    Lost,
}

impl fmt::Display for Own {
    fn fmt(&self, f: &mut fmt::Formatter<'_>) -> fmt::Result {
        match self {
            Own::Clear(number) => write!(f, "{number:.2}"),
            Own::Rough(number) => write!(f, "~{number:.2}"),
            Own::Lost => f.write_str("?"),
        }
    }
}

fn time(runner: Runner, pairs: u64) -> Duration {
    let rounds = (ENOUGH_PAIRS / pairs).max(1);
    let began = Instant::now();
    for _ in 0..rounds {
        black_box(runner.call(black_box(pairs), black_box(SEED)));
    }
    began.elapsed() / rounds as u32
}

/// Times the workloads in turn, and within each the sides in turn. What a workload starts with is
/// timed just before it. None is where the side can't have the workload.
pub fn least_times(
    workloads: &[&Workload],
    sides: &[Side],
    pairs: u64,
    runs: u32,
) -> Vec<Vec<Option<Least>>> {
    let mut all = vec![vec![None; sides.len()]; workloads.len()];
    for _ in 0..runs {
        for (workload, row) in workloads.iter().zip(&mut all) {
            for (side, least) in sides.iter().zip(row) {
                if let Some(seen) = once(workload, side, pairs) {
                    *least = Some(least.map_or(seen, |it| lesser(it, seen)));
                }
            }
        }
    }
    all
}

fn once(workload: &Workload, side: &Side, pairs: u64) -> Option<Least> {
    let runner = side.runner(workload.name)?;
    let start = match workload.start {
        Some(name) => time(side.runner(named(name)?.name)?, pairs),
        None => Duration::ZERO,
    };
    Some(Least {
        start,
        whole: time(runner, pairs),
    })
}

fn lesser(one: Least, other: Least) -> Least {
    Least {
        start: one.start.min(other.start),
        whole: one.whole.min(other.whole),
    }
}

/// What an operation takes.
pub fn own_time(workload: &Workload, least: Least, pairs: u64) -> Own {
    let Some(time) = least.whole.checked_sub(least.start) else {
        return Own::Lost;
    };
    if time.is_zero() {
        return Own::Lost;
    }
    let each = time.as_nanos() as f64 / (workload.operations * pairs / 16) as f64;
    if time * 4 < least.start {
        Own::Rough(each)
    } else {
        Own::Clear(each)
    }
}
