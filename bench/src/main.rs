//! Times, counts or holds the workloads of the map and of what people use in its place.
mod checks;
mod count;
mod hashers;
mod hold;
mod multimap;
mod numbers;
mod sides;
mod table;
mod times;
mod work;
mod workloads;

use std::process::ExitCode;
use workloads::Workload;

/// The seed of all numbers.
pub const SEED: u64 = 1;

/// The crates beside the map, with their versions, and the compiler.
pub const VERSIONS: &str = env!("BENCH_VERSIONS", "build the benchmark by bench/build");

/// What the command line asks for.
struct Wanted {
    pairs: u64,
    runs: u32,
    keeps_heap: bool,
}

fn main() -> ExitCode {
    let words: Vec<String> = std::env::args().skip(1).collect();
    match words.split_first() {
        Some((word, rest)) if word == "count" => print_counts(rest),
        Some((word, rest)) if word == "once" => match count::run_once(rest) {
            Some(()) => ExitCode::SUCCESS,
            None => fail("give once default|fast map|std WORKLOAD N TIMES"),
        },
        Some((word, rest)) if word == "hold" => match hold::run_once(rest) {
            Some(()) => ExitCode::SUCCESS,
            None => fail("give hold SIDE WORKLOAD N, of the pairs that hold prints"),
        },
        _ => print_times(&words),
    }
}

fn fail(line: &str) -> ExitCode {
    eprintln!("bench: {line}");
    ExitCode::FAILURE
}

fn print_counts(words: &[String]) -> ExitCode {
    let has_default_hasher = match words.get(1) {
        Some(word) if word == "default" => true,
        Some(_) => return fail("give count N [default]"),
        None => false,
    };
    let Some(pairs) = words.first().and_then(|word| parse_pairs(word)) else {
        return fail("give count N [default]: N a multiple of 16 below 2^29");
    };
    match count::print_counts(pairs, has_default_hasher) {
        Ok(()) => ExitCode::SUCCESS,
        Err(error) => fail(&error.to_string()),
    }
}

/// The workloads take a multiple of 16 pairs. Numbers from 2^29 on don't fit their arithmetic.
pub fn parse_pairs(word: &str) -> Option<u64> {
    let pairs: u64 = word.parse().ok()?;
    (pairs > 0 && pairs % 16 == 0 && pairs < 1 << 29).then_some(pairs)
}

fn print_times(words: &[String]) -> ExitCode {
    let Some(Wanted {
        pairs,
        runs,
        keeps_heap,
    }) = parse(words)
    else {
        return fail("give N [RUNS [fresh]]: N a multiple of 16 below 2^29, RUNS above 0");
    };
    if keeps_heap {
        keep_the_heap();
    }
    let sides = sides::timed();
    let wrong = checks::wrong_checksums(&sides, pairs);
    for line in &wrong {
        eprintln!("bench: {line}");
    }
    if !wrong.is_empty() {
        return ExitCode::FAILURE;
    }
    // New memory costs more at one time than at another, so a difference of two times says nothing.
    let is_timed = |workload: &&Workload| keeps_heap || workload.start.is_none();
    let workloads: Vec<&Workload> = workloads::WORKLOADS.iter().filter(is_timed).collect();
    let times = times::least_times(&workloads, &sides, pairs, runs);
    println!("{pairs} pairs, nanoseconds an operation, least of {runs} runs");
    println!("{VERSIONS}\n");
    table::print(&workloads, &sides, &times, pairs);
    ExitCode::SUCCESS
}

fn parse(words: &[String]) -> Option<Wanted> {
    let pairs = parse_pairs(words.first()?)?;
    let runs = match words.get(1) {
        Some(word) => word.parse().ok()?,
        None => 5,
    };
    let keeps_heap = match words.get(2) {
        Some(word) if word == "fresh" => false,
        Some(_) => return None,
        None => true,
    };
    (runs > 0 && words.len() < 4).then_some(Wanted {
        pairs,
        runs,
        keeps_heap,
    })
}

/// Lets the allocator give no memory back to the system, so that the timings have no page faults.
#[cfg(target_env = "gnu")]
fn keep_the_heap() {
    unsafe extern "C" {
        safe fn mallopt(parameter: i32, value: i32) -> i32;
    }
    const TRIM_THRESHOLD: i32 = -1;
    const MMAP_MAX: i32 = -4;
    let trims_never = mallopt(TRIM_THRESHOLD, i32::MAX);
    let maps_never = mallopt(MMAP_MAX, 0);
    if trims_never != 1 || maps_never != 1 {
        eprintln!("bench: the heap is not kept, so times include that of new memory");
    }
}

#[cfg(not(target_env = "gnu"))]
fn keep_the_heap() {
    eprintln!("bench: only glibc's heap can be kept, so times include that of new memory");
}
