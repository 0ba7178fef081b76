//! Counts what the workloads take, by running this program under valgrind.
use crate::sides::{Runner, Side, counted};
use crate::workloads::{WORKLOADS, Workload};
use crate::{SEED, VERSIONS};
use std::hint::black_box;
use std::io::{Error, Result};
use std::process::Command;

/// What a run took: instructions, blocks that were asked for, and the most bytes in use at a time.
#[derive(Clone, Copy)]
struct Counts {
    instructions: u64,
    blocks: u64,
    bytes: u64,
}

/// What a workload takes an operation, and its map's bytes a pair.
struct Own {
    instructions: f64,
    blocks: f64,
    bytes: f64,
}

/// A block of so many bytes is held while workloads run, so that the most bytes in use are those of
/// a workload, and not of the program's start.
const HELD: usize = 1 << 20;

/// Runs a workload so many times: what is counted. The words are the hasher, the side, the
/// workload, the pairs and the times.
pub fn run_once(words: &[String]) -> Option<()> {
    let [hasher, side, name, pairs, rounds] = words else {
        return None;
    };
    let sides = counted(hasher == "default");
    let side = sides.iter().find(|it| it.name == *side)?;
    let runner: Runner = side.runner(name)?;
    let pairs: u64 = pairs.parse().ok()?;
    let held = black_box(vec![0u8; HELD]);
    for _ in 0..rounds.parse().ok()? {
        black_box(runner.call(black_box(pairs), black_box(SEED)));
    }
    drop(held);
    Some(())
}

/// Prints the table of all workloads at so many pairs, of the map and of std's with the same
/// hasher. The fast one takes no texts, so it has no maps with text keys.
pub fn print_counts(pairs: u64, has_default_hasher: bool) -> Result<()> {
    let sides = counted(has_default_hasher);
    let hasher = if has_default_hasher {
        "default"
    } else {
        "fast"
    };
    println!("{pairs} pairs, each as map, std");
    println!("{VERSIONS}\n");
    println!("| Workload | instructions | ratio | blocks | bytes a pair at most |");
    println!("|---|---|---|---|---|");
    for workload in WORKLOADS
        .iter()
        .filter(|it| sides[1].runner(it.name).is_some())
    {
        let [map, std] = sides
            .each_ref()
            .map(|side| own(workload, (hasher, side), pairs));
        let (map, std) = (map?, std?);
        println!(
            "| `{}` | {:.0}, {:.0} | {:.2} | {:.3}, {:.3} | {:.0}, {:.0} |",
            workload.name,
            map.instructions,
            std.instructions,
            map.instructions / std.instructions,
            map.blocks,
            std.blocks,
            map.bytes,
            std.bytes,
        );
    }
    Ok(())
}

fn own(workload: &Workload, column: (&str, &Side), pairs: u64) -> Result<Own> {
    let whole = counts(workload.name, column, pairs)?;
    let start = match workload.start {
        Some(name) => counts(name, column, pairs)?,
        None => Counts {
            instructions: 0,
            blocks: 0,
            bytes: 0,
        },
    };
    let operations = (workload.operations * pairs / 16) as f64;
    Ok(Own {
        instructions: (whole.instructions - start.instructions) as f64 / operations,
        blocks: (whole.blocks - start.blocks) as f64 / operations,
        bytes: whole.bytes as f64 / pairs as f64,
    })
}

/// The counts of one round: those of a run of more rounds less those of a run of fewer, so that the
/// start of the program isn't counted.
fn counts(name: &str, column: (&str, &Side), pairs: u64) -> Result<Counts> {
    let (hasher, side) = column;
    let words = |rounds: u64| {
        let (pairs, rounds) = (pairs.to_string(), rounds.to_string());
        [hasher, side.name, name, &pairs, &rounds].map(String::from)
    };
    let instructions = |rounds| {
        let said = valgrind("callgrind", "callgrind-out-file", words(rounds))?;
        number_behind(&said, "Collected : ")
    };
    let memory = |rounds| {
        let said = valgrind("dhat", "dhat-out-file", words(rounds))?;
        let blocks = number_behind(line_of(&said, "Total: ")?, "bytes in ")?;
        let bytes = number_behind(&said, "At t-gmax: ")?;
        Ok::<(u64, u64), Error>((blocks, bytes))
    };
    let (none, once, twice) = (memory(0)?, memory(1)?, memory(2)?);
    Ok(Counts {
        instructions: instructions(2)? - instructions(1)?,
        blocks: twice.0 - once.0,
        bytes: once.1 - none.1,
    })
}

/// What a tool of valgrind says of a run of this program.
fn valgrind(tool: &str, out_file: &str, words: [String; 5]) -> Result<String> {
    let output = Command::new("valgrind")
        .arg(format!("--tool={tool}"))
        .arg(format!("--{out_file}=/dev/null"))
        .arg(std::env::current_exe()?)
        .arg("once")
        .args(words)
        .output()?;
    let said = String::from_utf8_lossy(&output.stderr).into_owned();
    if output.status.success() {
        Ok(said)
    } else {
        Err(Error::other(format!("valgrind failed: {said}")))
    }
}

fn line_of<'said>(said: &'said str, mark: &str) -> Result<&'said str> {
    said.lines()
        .find(|line| line.contains(mark))
        .ok_or_else(|| missing(mark))
}

/// The number behind the mark, in which commas may stand.
fn number_behind(said: &str, mark: &str) -> Result<u64> {
    let line = line_of(said, mark)?;
    let (_, rest) = line.split_once(mark).ok_or_else(|| missing(mark))?;
    let digits: String = rest
        .trim_start()
        .chars()
        .take_while(|c| c.is_ascii_digit() || *c == ',')
        .filter(|c| *c != ',')
        .collect();
    digits.parse().map_err(|_| missing(mark))
}

fn missing(mark: &str) -> Error {
    Error::other(format!("valgrind said nothing behind {mark:?}"))
}
