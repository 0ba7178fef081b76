//! Prints times as a table in Markdown.
use crate::sides::Side;
use crate::times::{Least, own_time};
use crate::workloads::Workload;

pub fn print(workloads: &[&Workload], sides: &[Side], all: &[Vec<Option<Least>>], pairs: u64) {
    let names: Vec<&str> = sides.iter().map(|side| side.name).collect();
    println!("| Workload | {} |", names.join(" | "));
    println!("|---|{}", "---|".repeat(sides.len()));
    for (workload, row) in workloads.iter().zip(all) {
        let cells: Vec<String> = row
            .iter()
            .map(|least| {
                least.map_or_else(String::new, |it| own_time(workload, it, pairs).to_string())
            })
            .collect();
        println!("| `{}` | {} |", workload.name, cells.join(" | "));
    }
    println!("\nA column has the map's hasher, or, with the word own, its type's own one.");
    println!("The last four rows have nanoseconds a map with text keys.");
    println!("Empty is what a type can't do.");
    println!(
        "~ is less than a quarter of the time of the start that was subtracted, so it is rough."
    );
    println!("? is less than the noise: the whole was not slower than its start.");
}
