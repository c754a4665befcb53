//! A plain list of filters, each looked at for each topic.
use std::hint::black_box;

fn matches(filter: &str, topic: &str) -> bool {
    if topic.starts_with('$') && (filter.starts_with('+') || filter.starts_with('#')) {
        return false;
    }
    let mut names = topic.split('/');
    for level in filter.split('/') {
        if level == "#" {
            return true;
        }
        match names.next() {
            Some(name) if level == "+" || level == name => {}
            _ => return false,
        }
    }
    names.next().is_none()
}

pub fn find(filters: &[u8], topic: &[u8], rounds: u64) -> u64 {
    let (Ok(filters), Ok(topic)) = (std::str::from_utf8(filters), std::str::from_utf8(topic)) else { return 0 };
    let list: Vec<(String, u64)> = filters.split('\n').zip(0..).map(|(f, k)| (f.to_owned(), k)).collect();
    let mut sum = 0;
    for _ in 0..rounds {
        let found: Vec<(u64, u8)> =
            list.iter().filter(|(filter, _)| matches(filter, black_box(topic))).map(|(_, key)| (*key, 1)).collect();
        sum += black_box(found).len() as u64;
    }
    sum
}
