//! What the program `group_report` does, with the standard library's collections: a map from each
//! group to its summary, and a list of the groups in the order in which they first occur.
use std::collections::HashMap;
use std::fmt::Write as _;
use std::io::{Read, Write};

#[derive(Clone, Copy)]
struct Summary {
    count: usize,
    sum: i64,
    least: i64,
    greatest: i64,
}

fn one(value: i64) -> Summary {
    Summary { count: 1, sum: value, least: value, greatest: value }
}

fn join(one: Summary, other: Summary) -> Option<Summary> {
    Some(Summary {
        count: one.count + other.count,
        sum: one.sum.checked_add(other.sum)?,
        least: one.least.min(other.least),
        greatest: one.greatest.max(other.greatest),
    })
}

fn push_line(report: &mut String, head: &str, all: Summary) {
    let Summary { count, sum, least, greatest } = all;
    writeln!(report, "{head} count {count}, sum {sum}, least {least}, greatest {greatest}").unwrap();
}

fn push_report(report: &mut String, summaries: &[(&str, Summary)]) {
    let mut total = None;
    for (group, summary) in summaries {
        push_line(report, &format!("{group}:"), *summary);
        total = Some(total.map_or(*summary, |all| join(all, *summary).expect("the total fits")));
    }
    match total {
        Some(total) => push_line(report, &format!("total: groups {},", summaries.len()), total),
        None => report.push_str("total: groups 0\n"),
    }
}

fn main() {
    let mut text = String::new();
    std::io::stdin().read_to_string(&mut text).expect("a text");
    let (mut groups, mut all, mut bound) = (Vec::new(), HashMap::<&str, Summary>::new(), None);
    for (index, line) in text.lines().enumerate().filter(|(_, line)| !line.is_empty()) {
        let (group, value) = line.split_once(' ').expect("a group and a value");
        let value = value.parse().expect("a number");
        if index == 0 && group == "bound" {
            bound = Some(value);
            continue;
        }
        all.entry(group).and_modify(|own| *own = join(*own, one(value)).expect("the sum fits")).or_insert_with(|| {
            groups.push(group);
            one(value)
        });
    }
    let mut summaries: Vec<_> = groups.iter().map(|group| (*group, all[group])).collect();
    let mut report = String::new();
    push_report(&mut report, &summaries);
    if let Some(bound) = bound {
        summaries.retain(|(_, summary)| summary.sum >= bound);
        report.push('\n');
        push_report(&mut report, &summaries);
    }
    std::io::stdout().write_all(report.as_bytes()).expect("the output");
}
