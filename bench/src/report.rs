//! The tables, in Markdown, and the documents that they stand in.

use crate::calls::{Call, CALLS, MAIN};
use crate::measure::{Case, Times};
use crate::workloads::Workload;
use std::fs::{read_to_string, write};

/// A number with its thousands marked.
pub fn number(n: usize) -> String {
    if n < 1_000 {
        return n.to_string();
    }
    format!("{},{:03}", number(n / 1_000), n % 1_000)
}

/// Microseconds, to three places that count.
pub fn micros(time: f64) -> String {
    match time {
        t if t < 10.0 => format!("{t:.2}"),
        t if t < 100.0 => format!("{t:.1}"),
        t => number(t.round() as usize),
    }
}

pub fn ratio(ratio: f64) -> String {
    if ratio < 10.0 {
        return format!("{ratio:.2}");
    }
    format!("{ratio:.0}")
}

/// The least and the greatest of values, if there are any.
pub fn range(values: impl Iterator<Item = f64>, text: impl Fn(f64) -> String) -> Option<String> {
    let (mut least, mut most) = (f64::INFINITY, f64::NEG_INFINITY);
    values.for_each(|value| (least, most) = (least.min(value), most.max(value)));
    match (text(least), text(most)) {
        _ if least > most => None,
        (least, most) if least == most => Some(least),
        (least, most) => Some(format!("{least} to {most}")),
    }
}

/// The machine's load: the mean number of processes that wanted to run in the last 1, 5 and 15 minutes.
pub fn load() -> String {
    let load = read_to_string("/proc/loadavg").unwrap_or_default();
    load.split(' ').take(3).collect::<Vec<_>>().join(" ")
}

/// The processor and its clock, as the system names them.
fn machine() -> String {
    let text = read_to_string("/proc/cpuinfo").unwrap_or_default();
    let of = |key: &str| {
        let line = text.lines().find(|line| line.starts_with(key)).unwrap_or_default();
        line.split(": ").nth(1).unwrap_or("unknown").to_string()
    };
    let cores = text.lines().filter(|line| line.starts_with("processor")).count();
    format!("{}, {cores} cores, {} MHz", of("model name"), of("cpu MHz"))
}

/// Where and how it was measured.
pub fn run(cases: &[Case], rounds: usize, load_before: &str) -> String {
    let turns = || cases.iter().map(Case::turns);
    format!(
        "Machine: {}. Load before {load_before}, after {}.\n{rounds} rounds, {} to {} turns of each case.\n",
        machine(),
        load(),
        number(turns().min().unwrap_or(0)),
        number(turns().max().unwrap_or(0)),
    )
}

pub fn workloads(workloads: &[Workload]) -> String {
    let mut table = "| workload | records, question and extracts |\n|---|---|\n".to_string();
    table.extend(workloads.iter().map(|workload| format!("| {} | {} |\n", workload.name, workload.about)));
    table
}

/// Time, and the ratios beside the baseline and, for a call that has it, beside the tuned heap.
fn cells(times: Option<Times>, has_tuned: bool) -> String {
    let Some(times) = times else {
        return if has_tuned { " | | |" } else { " | |" }.to_string();
    };
    let mut cells = format!(" {} | {} |", micros(times.product), ratio(times.ratio()));
    if has_tuned {
        cells += &format!(" {} |", times.tuned_ratio().map(ratio).unwrap_or_default());
    }
    cells
}

/// The main calls at full size: a line for each workload.
pub fn full_size(cases: &[Case]) -> String {
    let at_full = |call: &Call, workload: &str| {
        cases.iter().find(|case| case.part == 1 && case.call == call.name() && case.workload == workload)
    };
    let of_call = |call: &Call| cases.iter().filter(|case| case.call == call.name()).collect::<Vec<_>>();
    let calls: Vec<Call> = MAIN.into_iter().filter(|call| !of_call(call).is_empty()).collect();
    if calls.is_empty() {
        return String::new();
    }
    let has_tuned = |call: &Call| of_call(call).iter().any(|case| case.medians().tuned.is_some());
    let mut workloads: Vec<&str> = Vec::new();
    for case in calls.iter().flat_map(of_call) {
        if !workloads.contains(&case.workload) {
            workloads.push(case.workload);
        }
    }
    let (mut head, mut rule) = ("| workload |".to_string(), "|---|".to_string());
    for call in &calls {
        let tuned = if has_tuned(call) { (" tuned |", "--:|") } else { ("", "") };
        head += &format!(" {} µs | plain |{}", call.short_name(), tuned.0);
        rule += &format!("--:|--:|{}", tuned.1);
    }
    let mut table = format!("{head}\n{rule}\n");
    for workload in workloads {
        table += &format!("| {workload} |");
        for call in &calls {
            table += &cells(at_full(call, workload).map(Case::medians), has_tuned(call));
        }
        table.push('\n');
    }
    table
}

/// The other calls at full size: the least and the greatest of the workloads.
pub fn others(cases: &[Case]) -> String {
    let mut table = "| call | µs | ratio |\n|---|--:|--:|\n".to_string();
    let mut names: Vec<&str> = CALLS.iter().filter(|call| !MAIN.contains(call)).map(|call| call.name()).collect();
    names.extend(cases.iter().map(|case| case.call).filter(|name| !CALLS.iter().any(|call| call.name() == *name)));
    let mut told: Vec<&str> = Vec::new();
    for name in names {
        let of_call = || cases.iter().filter(|case| case.part == 1 && case.call == name).map(Case::medians);
        let (times, ratios) = (of_call().map(|times| times.product), of_call().map(|times| times.ratio()));
        if let (false, Some(times), Some(ratios)) = (told.contains(&name), range(times, micros), range(ratios, ratio)) {
            table += &format!("| {name} | {times} | {ratios} |\n");
            told.push(name);
        }
    }
    table
}

/// All times.
pub fn times(cases: &[Case]) -> String {
    let mut table =
        "| call | workload | size | product µs | baseline µs | ratio | tuned µs | ratio | least product µs | least baseline µs | ratio |\n\
         |---|---|---|--:|--:|--:|--:|--:|--:|--:|--:|\n"
            .to_string();
    for case in cases {
        let both = |times: &Times| {
            format!("{} | {} | {}", micros(times.product), micros(times.baseline), ratio(times.ratio()))
        };
        let medians = case.medians();
        let tuned = match (medians.tuned, medians.tuned_ratio()) {
            (Some(tuned), Some(beside)) => format!(" {} | {} ", micros(tuned), ratio(beside)),
            _ => " | ".to_string(),
        };
        let (call, workload, size) = (case.call, case.workload, &case.size);
        table += &format!("| {call} | {workload} | {size} | {} |{tuned}| {} |\n", both(&medians), both(&case.least()));
    }
    table
}

/// The stack of each call, the greatest first.
pub fn stack(most: &[(&str, usize)]) -> String {
    let mut sorted = most.to_vec();
    sorted.sort_by_key(|&(_, bytes)| std::cmp::Reverse(bytes));
    let mut table = "| call | bytes of stack |\n|---|--:|\n".to_string();
    table.extend(sorted.iter().map(|&(name, bytes)| format!("| {name} | {} |\n", number(bytes))));
    table
}

/// A block of a document, by the name in the mark that it stands behind.
pub type Block = (&'static str, String);

/// A document with blocks put in the place of those that stand between their marks.
fn with_blocks(mut text: String, blocks: &[Block]) -> String {
    for (name, block) in blocks {
        let mark = format!("<!-- {name} -->\n");
        if let Some(place) = text.find(&mark) {
            let start = place + mark.len();
            let end = start + text[start..].find("<!-- end -->").expect("a block has an end");
            text.replace_range(start..end, &format!("\n{block}\n"));
        }
    }
    text
}

/// Puts the blocks into the two documents.
pub fn put(blocks: &[Block]) {
    for name in ["PERFORMANCE.md", "PERFORMANCE-TABLES.md"] {
        let path = format!("{}/../docs/{name}", env!("CARGO_MANIFEST_DIR"));
        let text = read_to_string(&path).expect("the document can be read");
        write(&path, with_blocks(text, blocks)).expect("the document can be written");
    }
}
