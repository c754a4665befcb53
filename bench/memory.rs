//! What memory the tree of grants takes for filters of 64 KiB.
use std::fmt::Write;
use std::process::Command;

/// How many filters, and where each parts from the others: the count of slashes before its number.
const CASES: [(&str, usize, fn(usize) -> usize); 5] = [
    ("one of 65,536 levels", 1, |_| 65_535),
    ("that part at the front", 10_000, |_| 0),
    ("that part in the middle", 10_000, |_| 32_765),
    ("that part at the end", 10_000, |_| 65_530),
    ("that part each in another place", 10_000, |n| 6 * n),
];

/// Filters of 65,535 bytes, one a line, in room that was asked for at once.
fn filters(count: usize, place: fn(usize) -> usize) -> String {
    let mut text = String::with_capacity(count * 65_536);
    let slashes = |text: &mut String, count: usize| text.extend(std::iter::repeat('/').take(count));
    for n in 0..count {
        if n > 0 {
            text.push('\n');
        }
        let before = place(n);
        slashes(&mut text, before);
        if before < 65_535 {
            write!(text, "{n:05}").expect("memory");
            slashes(&mut text, 65_530 - before);
        }
    }
    text
}

// A number of kibibytes that the system keeps of this process.
fn status(name: &str) -> u64 {
    let text = std::fs::read_to_string("/proc/self/status").expect("/proc");
    let line = text.lines().find(|line| line.starts_with(name)).expect("the line");
    line.split_whitespace().nth(1).and_then(|word| word.parse().ok()).expect("a number")
}

/// One case: the bytes of its filters, and those that the process has more at most while they are granted.
pub fn one(case: usize, grants: fn(&str)) {
    let (name, count, place) = CASES[case];
    let text = filters(count, place);
    let before = status("VmRSS:");
    grants(&text);
    let taken = status("VmHWM:") - before;
    println!("| {count} {name} | {} | {taken} | {:.2} |", text.len() / 1024, taken as f64 * 1024.0 / text.len() as f64);
}

/// All of them, each in a process of its own.
pub fn table() {
    println!("| Filters | KiB of text | KiB taken | times |");
    println!("|---|---|---|---|");
    for case in 0..CASES.len() {
        let this = std::env::current_exe().expect("this program");
        Command::new(this).args(["memory", &case.to_string()]).status().expect("a process");
    }
}
