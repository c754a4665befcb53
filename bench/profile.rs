//! Where instructions are: what `valgrind --tool=callgrind` counts within one export, by function, and the function with
//! the most by instruction.
use std::collections::HashMap;
use std::process::Command;

/// Counts by function, and within it by address.
type Counts = HashMap<String, HashMap<u64, f64>>;

/// Runs so many rounds of a row of ours, and counts within the export.
fn counted(export: &str, row: usize, rounds: u64) -> Counts {
    let own = std::env::current_exe().expect("the program's own name");
    let file = own.with_file_name("profile.out");
    let status = Command::new("valgrind")
        .args(["--tool=callgrind", "--dump-instr=yes", "-q"])
        .arg(format!("--toggle-collect={export}"))
        .arg(format!("--callgrind-out-file={}", file.display()))
        .arg(&own)
        .args(["one", &row.to_string(), "0", &rounds.to_string()])
        .output()
        .expect("valgrind runs")
        .status;
    assert!(status.success(), "valgrind ended with {status}");
    read(&std::fs::read_to_string(file).expect("valgrind's counts"))
}

/// A name, which stands whole once and then by its number alone.
fn name(names: &mut HashMap<String, String>, text: &str) -> String {
    let (number, whole) = text.split_once(' ').unwrap_or((text, ""));
    if !whole.is_empty() {
        names.insert(number.to_owned(), whole.to_owned());
    }
    names.get(number).cloned().unwrap_or_default()
}

/// Reads callgrind's format: lines `fn=` begin a function, a line with an address (whole, or from the one before) counts,
/// and the line behind `calls=` counts what was called, which is counted there.
fn read(text: &str) -> Counts {
    let (mut names, mut counts) = (HashMap::new(), Counts::new());
    let (mut function, mut address, mut called) = (String::new(), 0u64, false);
    for line in text.lines() {
        if let Some(rest) = line.strip_prefix("fn=") {
            function = name(&mut names, rest);
        } else if let Some(rest) = line.strip_prefix("cfn=") {
            name(&mut names, rest);
        } else if line.starts_with("calls=") {
            called = true;
        } else {
            let words: Vec<&str> = line.split(' ').collect();
            let at = match words[0].split_at_checked(1) {
                Some(("0", hex)) if hex.starts_with('x') => u64::from_str_radix(&hex[1..], 16).ok(),
                Some(("+", n)) => n.parse::<u64>().ok().map(|n| address + n),
                Some(("-", n)) => n.parse::<u64>().ok().map(|n| address - n),
                Some(("*", "")) => Some(address),
                _ => None,
            };
            let (Some(at), Some(count)) = (at, words.get(2).and_then(|w| w.parse::<f64>().ok())) else { continue };
            address = at;
            if !std::mem::take(&mut called) {
                *counts.entry(function.clone()).or_default().entry(at).or_default() += count;
            }
        }
    }
    counts
}

/// What stands at each address of a function, as objdump has it.
fn instructions(addresses: &HashMap<u64, f64>) -> Vec<(u64, String)> {
    let own = std::env::current_exe().expect("the program's own name");
    let (Some(first), Some(last)) = (addresses.keys().min(), addresses.keys().max()) else { return Vec::new() };
    let output = Command::new("objdump")
        .args(["-d", "--no-show-raw-insn", "-M", "intel"])
        .args([format!("--start-address={first}"), format!("--stop-address={}", last + 16)])
        .arg(own)
        .output()
        .expect("objdump runs");
    let text = String::from_utf8_lossy(&output.stdout).into_owned();
    let line = |l: &str| {
        let (at, what) = l.trim_start().split_once(":\t")?;
        Some((u64::from_str_radix(at, 16).ok()?, what.trim().to_owned()))
    };
    text.lines().filter_map(line).collect()
}

/// Prints a row's functions with one in a hundred of its instructions or more, and of the one with the most the
/// instructions that run once a call or more.
pub fn print(row: &str, export: &str, number: usize, rounds: u64, calls: u64) {
    let (less, mut more) = (counted(export, number, rounds), counted(export, number, 2 * rounds));
    for (function, places) in &mut more {
        for (at, count) in places.iter_mut() {
            *count -= less.get(function).and_then(|f| f.get(at)).unwrap_or(&0.0);
            *count /= calls as f64;
        }
    }
    let mut sums: Vec<(f64, &String)> = more.iter().map(|(f, places)| (places.values().sum(), f)).collect();
    sums.sort_by(|a, b| b.0.total_cmp(&a.0));
    let whole: f64 = sums.iter().map(|s| s.0).sum();
    println!("\n{row}: {whole:.0} instructions a call");
    for (sum, function) in sums.iter().filter(|s| s.0 * 100.0 >= whole) {
        println!("{sum:9.0} {:3.0} % {function}", sum * 100.0 / whole);
    }
    let Some((_, most)) = sums.first() else { return };
    println!("{most}, what runs once a call or more:");
    for (at, what) in instructions(&more[*most]) {
        let count = more[*most].get(&at).copied().unwrap_or(0.0);
        if count >= 1.0 {
            println!("{count:9.1} {what}");
        }
    }
}
