//! Measures the proved crates beside peers: `bench table` by the clock, `bench counts` by instructions under valgrind,
//! `bench profile` says where the instructions of ours are, `bench worlds` what an event of a world costs, few or many, and
//! `bench memory` what long filters take.
mod inputs;
mod memory;
#[path = "peers/order.rs"]
mod order;
#[path = "peers/packets.rs"]
mod packets;
#[path = "peers/payload.rs"]
mod payload;
mod profile;
#[path = "peers/topics.rs"]
mod topics;

use std::process::Command;
use std::time::Instant;

extern "C" {
    fn spk_bench_payload_decode(bytes: *const u8, length: usize, rounds: u64) -> u64;
    fn spk_bench_payload_decode_all(bytes: *const u8, length: usize, rounds: u64) -> u64;
    fn spk_bench_payload_encode(bytes: *const u8, length: usize, rounds: u64) -> u64;
    fn spk_bench_packet_decode(bytes: *const u8, length: usize, rounds: u64) -> u64;
    fn spk_bench_packet_encode(bytes: *const u8, length: usize, rounds: u64) -> u64;
    fn spk_bench_feed(bytes: *const u8, length: usize, cut: usize, rounds: u64) -> u64;
    fn spk_bench_find(filters: *const u8, length: usize, topic: *const u8, topic_length: usize, rounds: u64) -> u64;
    fn spk_bench_hand_in_line(rounds: u64) -> u64;
    fn spk_bench_hand_with_holes(rounds: u64) -> u64;
    fn spk_bench_hand_births(rounds: u64) -> u64;
    fn spk_bench_edge_change(rounds: u64) -> u64;
    fn spk_bench_edge_births(rounds: u64) -> u64;
    fn spk_bench_edge_drain(rounds: u64) -> u64;
    fn spk_bench_host(first: *const u8, length: usize, data: *const u8, data_length: usize, rounds: u64) -> u64;
    fn spk_bench_broker(first: *const u8, length: usize, again: *const u8, again_length: usize, rounds: u64) -> u64;
    fn spk_bench_world(nodes: u8, hosts: u8, events: u64) -> u64;
    fn cpp_payload_decode(bytes: *const u8, length: usize, rounds: u64) -> u64;
    fn cpp_payload_encode(bytes: *const u8, length: usize, rounds: u64) -> u64;
}

type Body = Box<dyn Fn(u64) -> u64>;
type OnBytes = unsafe extern "C" fn(*const u8, usize, u64) -> u64;

/// A row: a name, what a round counts as, the export that is measured, our body and those of the peers.
struct Row {
    name: String,
    calls: u64,
    export: &'static str,
    ours: Body,
    peers: Vec<(&'static str, Body)>,
}

/// A body of C's over bytes of its own.
fn on_bytes(body: OnBytes, bytes: &[u8]) -> Body {
    let bytes = bytes.to_vec();
    // The length is that of the bytes, which the closure keeps.
    Box::new(move |rounds| unsafe { body(bytes.as_ptr(), bytes.len(), rounds) })
}

fn rust_on_bytes(body: fn(&[u8], u64) -> u64, bytes: &[u8]) -> Body {
    let bytes = bytes.to_vec();
    Box::new(move |rounds| body(&bytes, rounds))
}

fn float_rows(rows: &mut Vec<Row>) {
    for (name, field) in [("ints", 10), ("floats", 12), ("doubles", 13)] {
        let bytes = inputs::alike(32, field);
        rows.push(Row {
            name: format!("payload decode, NDATA, 32 {name} ({} bytes)", bytes.len()),
            calls: 1,
            export: "spk_bench_payload_decode_all",
            ours: on_bytes(spk_bench_payload_decode_all, &bytes),
            peers: vec![
                ("quick-protobuf, borrows", rust_on_bytes(payload::decode, &bytes)),
                ("protobuf C++", on_bytes(cpp_payload_decode, &bytes)),
            ],
        });
    }
}

fn payload_rows(rows: &mut Vec<Row>) {
    for (name, metrics, is_birth) in [("NDATA, 1 metric", 1, false), ("NDATA, 32 metrics", 32, false), ("NBIRTH, 32 metrics", 32, true)] {
        let bytes = inputs::payload(metrics, is_birth);
        rows.push(Row {
            name: format!("payload decode, {name} ({} bytes)", bytes.len()),
            calls: 1,
            export: "spk_bench_payload_decode",
            ours: on_bytes(spk_bench_payload_decode, &bytes),
            peers: vec![
                ("quick-protobuf, borrows", rust_on_bytes(payload::decode, &bytes)),
                ("protobuf C++", on_bytes(cpp_payload_decode, &bytes)),
            ],
        });
        rows.push(Row {
            name: format!("payload encode, {name}"),
            calls: 1,
            export: "spk_bench_payload_encode",
            ours: on_bytes(spk_bench_payload_encode, &bytes),
            peers: vec![
                ("quick-protobuf, borrows", rust_on_bytes(payload::encode, &bytes)),
                ("protobuf C++", on_bytes(cpp_payload_encode, &bytes)),
            ],
        });
    }
}

fn packet_rows(rows: &mut Vec<Row>) {
    let inputs = [
        ("PUBLISH, 64 bytes", inputs::publish(64)),
        ("PUBLISH, 64 KiB", inputs::publish(65_536)),
        ("CONNECT", inputs::connect()),
        ("SUBSCRIBE, 8 filters", inputs::subscribe()),
    ];
    for (name, bytes) in inputs {
        rows.push(Row {
            name: format!("packet decode, {name}"),
            calls: 1,
            export: "spk_bench_packet_decode",
            ours: on_bytes(spk_bench_packet_decode, &bytes),
            peers: vec![("plain Rust", rust_on_bytes(packets::decode, &bytes))],
        });
        rows.push(Row {
            name: format!("packet encode, {name}"),
            calls: 1,
            export: "spk_bench_packet_encode",
            ours: on_bytes(spk_bench_packet_encode, &bytes),
            peers: vec![
                ("plain Rust", rust_on_bytes(packets::encode, &bytes)),
                ("plain Rust, judges", rust_on_bytes(packets::encode_lawful, &bytes)),
            ],
        });
    }
    let stream = inputs::stream(1 << 20);
    for cut in [1, 7, 1460] {
        let (ours, peer) = (stream.clone(), stream.clone());
        rows.push(Row {
            name: format!("Feed, 1 MiB cut at {cut} (per KiB)"),
            calls: 1024,
            export: "spk_bench_feed",
            // The length is that of the bytes, which the closure keeps.
            ours: Box::new(move |rounds| unsafe { spk_bench_feed(ours.as_ptr(), ours.len(), cut, rounds) }),
            peers: vec![("plain Rust", Box::new(move |rounds| packets::feed(&peer, cut, rounds)))],
        });
    }
}

fn topic_rows(rows: &mut Vec<Row>) {
    for count in [10, 1000, 10_000] {
        let sets = [
            ("Sparkplug-like", inputs::plant_filters(count), inputs::PLANT_TOPIC),
            ("wildcard-heavy", inputs::wild_filters(count), inputs::WILD_TOPIC),
        ];
        for (name, filters, topic) in sets {
            let list = filters.clone();
            rows.push(Row {
                name: format!("Tree::find, {count} grants, {name}"),
                calls: 1,
                export: "spk_bench_find",
                // The lengths are those of the texts, which the closure keeps.
                ours: Box::new(move |rounds| unsafe {
                    spk_bench_find(filters.as_ptr(), filters.len(), topic.as_ptr(), topic.len(), rounds)
                }),
                peers: vec![("linear list", Box::new(move |rounds| topics::find(list.as_bytes(), topic.as_bytes(), rounds)))],
            });
        }
    }
}

fn order_rows(rows: &mut Vec<Row>) {
    // These take numbers alone.
    rows.push(Row {
        name: "Sequence::hand, in line".to_owned(),
        calls: 1,
        export: "spk_bench_hand_in_line",
        ours: Box::new(|rounds| unsafe { spk_bench_hand_in_line(rounds) }),
        peers: vec![("plain Rust", Box::new(order::in_line))],
    });
    rows.push(Row {
        name: "Sequence::hand, with holes".to_owned(),
        calls: 2,
        export: "spk_bench_hand_with_holes",
        ours: Box::new(|rounds| unsafe { spk_bench_hand_with_holes(rounds) }),
        peers: vec![("plain Rust", Box::new(order::with_holes))],
    });
    rows.push(Row {
        name: "Sequence::hand, 95 held and a birth".to_owned(),
        calls: 96,
        export: "spk_bench_hand_births",
        ours: Box::new(|rounds| unsafe { spk_bench_hand_births(rounds) }),
        peers: vec![("plain Rust", Box::new(order::births))],
    });
}

/// What has no peer here.
fn edge_rows(rows: &mut Vec<Row>) {
    let exports: [(&str, u64, &'static str, unsafe extern "C" fn(u64) -> u64); 3] = [
        ("EdgeNode::change, one of 100 metrics", 1, "spk_bench_edge_change", spk_bench_edge_change),
        ("EdgeNode::command, births of 100 metrics and 10 devices of 10", 1, "spk_bench_edge_births", spk_bench_edge_births),
        ("EdgeNode, 4,096 changes kept and drained (per change)", 4096, "spk_bench_edge_drain", spk_bench_edge_drain),
    ];
    for (name, calls, export, body) in exports {
        rows.push(Row { name: name.to_owned(), calls, export, ours: Box::new(move |rounds| unsafe { body(rounds) }), peers: Vec::new() });
    }
}

/// Data of one node among so many, beside the decode of their payloads alone.
fn host_rows(rows: &mut Vec<Row>) {
    for (nodes, metrics) in [(1, 1), (1, 32), (1000, 1), (1000, 32)] {
        let (first, data) = (inputs::births(nodes, metrics), inputs::data(nodes / 2, metrics));
        let payload = inputs::payload(metrics, false);
        rows.push(Row {
            name: format!("Host::packet, NDATA of {metrics}, 1 of {nodes} nodes"),
            calls: 1,
            export: "spk_bench_host",
            ours: Box::new(move |rounds| {
                // The lengths are those of the bytes, which the closure keeps.
                let consumed = unsafe { spk_bench_host(first.as_ptr(), first.len(), data.as_ptr(), data.len(), rounds) };
                assert_eq!(consumed, rounds, "messages consumed");
                consumed
            }),
            peers: Vec::new(),
        });
        if nodes == 1 {
            rows.push(Row {
                name: format!("Host::packet's payload, {metrics}, decode alone"),
                calls: 1,
                export: "spk_bench_payload_decode",
                ours: on_bytes(spk_bench_payload_decode, &payload),
                peers: Vec::new(),
            });
        }
    }
}

/// A row of the broker's: who is there, what comes in each round, and how many bytes it sends then.
fn broker_row(name: &str, first: Vec<u8>, again: Vec<u8>, sent: u64) -> Row {
    Row {
        name: format!("Broker, {name}"),
        calls: 1,
        export: "spk_bench_broker",
        ours: Box::new(move |rounds| {
            // The lengths are those of the bytes, which the closure keeps.
            let bytes = unsafe { spk_bench_broker(first.as_ptr(), first.len(), again.as_ptr(), again.len(), rounds) };
            assert_eq!(bytes, rounds * sent, "bytes sent");
            bytes
        }),
        peers: Vec::new(),
    }
}

/// A broker with few sessions and with many.
fn broker_rows(rows: &mut Vec<Row>) {
    const SHORT: (&str, &str) = ("plant/+/line", "plant/4/line");
    const SPARKPLUG: (&str, &str) = ("spBv1.0/Plant 4/+/Line 3/#", inputs::MOTOR);
    for (sessions, receivers, grants, (filter, topic)) in [
        (2, 1, 1, SHORT),
        (2, 1, 1, SPARKPLUG),
        (1000, 1, 0, SHORT),
        (1000, 10, 0, SHORT),
        (1000, 100, 0, SHORT),
        (1000, 1000, 0, SHORT),
        (1000, 1, 10, SHORT),
        (1000, 1, 10, SPARKPLUG),
    ] {
        let who = inputs::Clients { sessions, receivers, filter, grants };
        let publish = inputs::publish_at(0, topic, 64);
        let sent = (receivers * publish.len()) as u64;
        let all = receivers.max(sessions * grants);
        let name = format!("PUBLISH on {topic}, {receivers} of {sessions} sessions, {all} grants");
        rows.push(broker_row(&name, inputs::clients(&who, topic), publish, sent));
    }
    for sessions in [2, 999] {
        let who = inputs::Clients { sessions, receivers: 1, filter: SHORT.0, grants: 0 };
        let first = inputs::clients(&who, SHORT.1);
        let publish = inputs::publish_at(1, SHORT.1, 64);
        let sent = publish.len() as u64 + 4;
        rows.push(broker_row(&format!("PUBLISH of QoS 1 and its two PUBACK, 1 of {sessions} sessions"), first.clone(), publish, sent));
        rows.push(broker_row(&format!("CONNECT and DISCONNECT, beside {sessions} sessions"), first, inputs::visit(), 4));
    }
}

fn rows() -> Vec<Row> {
    let mut rows = Vec::new();
    payload_rows(&mut rows);
    float_rows(&mut rows);
    packet_rows(&mut rows);
    topic_rows(&mut rows);
    order_rows(&mut rows);
    edge_rows(&mut rows);
    host_rows(&mut rows);
    broker_rows(&mut rows);
    rows
}

fn seconds(body: &Body, rounds: u64) -> f64 {
    let start = Instant::now();
    std::hint::black_box(body(rounds));
    start.elapsed().as_secs_f64()
}

/// So many rounds that they take five milliseconds beyond the set-up, and at least as long as the set-up.
fn enough(body: &Body) -> u64 {
    let set_up = seconds(body, 0);
    let mut rounds = 1;
    while rounds < 1 << 24 && seconds(body, rounds) - set_up < 0.005f64.max(set_up) {
        rounds *= 2;
    }
    rounds
}

fn median(mut list: Vec<f64>) -> f64 {
    list.sort_by(f64::total_cmp);
    list[list.len() / 2]
}

/// A ratio in two digits behind the point, or in two that aren't 0.
fn shown(ratio: f64) -> String {
    if ratio < 0.1 { format!("{ratio:.4}") } else { format!("{ratio:.2}") }
}

/// Nanoseconds of one call.
fn sample(body: &Body, rounds: u64, calls: u64) -> f64 {
    (seconds(body, rounds) - seconds(body, 0)) * 1e9 / (rounds * calls) as f64
}

const SAMPLES: usize = 31;

/// Rows whose names have the word.
fn table(word: &str) {
    println!("| Row | ours, ns | peer | peer, ns | ours : peer |");
    println!("|---|---|---|---|---|");
    for row in rows().iter().filter(|row| row.name.contains(word)) {
        let ours = enough(&row.ours);
        if row.peers.is_empty() {
            let mine = median((0..SAMPLES).map(|_| sample(&row.ours, ours, row.calls)).collect());
            println!("| {} | {mine:.0} | none | - | - |", row.name);
        }
        for (peer, body) in &row.peers {
            assert_eq!((row.ours)(3), body(3), "the answers of {} and {peer} differ", row.name);
            let rounds = enough(body);
            let pairs: Vec<(f64, f64)> =
                (0..SAMPLES).map(|_| (sample(&row.ours, ours, row.calls), sample(body, rounds, row.calls))).collect();
            let (mine, theirs) = (median(pairs.iter().map(|p| p.0).collect()), median(pairs.iter().map(|p| p.1).collect()));
            let ratio = median(pairs.iter().map(|p| p.0 / p.1).collect());
            println!("| {} | {mine:.0} | {peer} | {theirs:.0} | {} |", row.name, shown(ratio));
        }
    }
}

/// The body of a row that is ours, or a peer's by its number.
fn body_of(row: &Row, who: usize) -> &Body {
    if who == 0 { &row.ours } else { &row.peers[who - 1].1 }
}

/// The instructions that valgrind counts for so many rounds.
fn counted(row: usize, who: usize, rounds: u64) -> f64 {
    let own = std::env::current_exe().expect("the program's own name");
    let output = Command::new("valgrind")
        .args(["--tool=callgrind", "--callgrind-out-file=/dev/null"])
        .arg(own)
        .args(["one", &row.to_string(), &who.to_string(), &rounds.to_string()])
        .output()
        .expect("valgrind runs");
    let text = String::from_utf8_lossy(&output.stderr).into_owned();
    let line = text.lines().find(|l| l.contains("Collected :")).expect("valgrind's count");
    line.rsplit(' ').next().and_then(|n| n.parse().ok()).expect("a number")
}

fn instructions(row: usize, who: usize, calls: u64) -> f64 {
    let rounds = if calls > 500 { 1 } else { 64 };
    (counted(row, who, 2 * rounds) - counted(row, who, rounds)) / (rounds * calls) as f64
}

fn counts(word: &str) {
    println!("| Row | ours, instructions | peer | peer, instructions | ours : peer |");
    println!("|---|---|---|---|---|");
    for (n, row) in rows().iter().enumerate().filter(|(_, row)| row.name.contains(word)) {
        let ours = instructions(n, 0, row.calls);
        if row.peers.is_empty() {
            println!("| {} | {ours:.0} | none | - | - |", row.name);
        }
        for (who, (peer, _)) in row.peers.iter().enumerate() {
            let theirs = instructions(n, who + 1, row.calls);
            println!("| {} | {ours:.0} | {peer} | {theirs:.0} | {} |", row.name, shown(ours / theirs));
        }
    }
}

/// Where the instructions of ours are, row by row whose name has the word: by function, then the hot loop by instruction.
fn profile(word: &str) {
    for (n, row) in rows().iter().enumerate().filter(|(_, row)| row.name.contains(word)) {
        let rounds = if row.calls > 500 { 1 } else { 64 };
        profile::print(&row.name, row.export, n, rounds, rounds * row.calls);
    }
}

/// How many messages are consumed in such a world: each is, so these are the hands among so many events.
fn hands(nodes: u64, hosts: u64, events: u64) -> u64 {
    let after_opens = events.saturating_sub(nodes);
    let whole = after_opens / (hosts + 1) * hosts;
    whole + (after_opens % (hosts + 1)).saturating_sub(1)
}

/// Worlds of few and many nodes, hosts and events: linear in the events, if an event costs the same in each line of a pair.
fn worlds() {
    println!("| Nodes | Hosts | Events | seconds | ns an event |");
    println!("|---|---|---|---|---|");
    for (nodes, hosts) in [(1u8, 1u8), (16, 1), (1, 4), (16, 4)] {
        for events in [10_000u64, 100_000] {
            let body = || unsafe { spk_bench_world(nodes, hosts, events) };
            assert_eq!(body(), hands(nodes.into(), hosts.into(), events), "messages consumed");
            let taken = median((0..7).map(|_| { let start = Instant::now(); std::hint::black_box(body()); start.elapsed().as_secs_f64() }).collect());
            println!("| {nodes} | {hosts} | {events} | {taken:.3} | {:.0} |", taken * 1e9 / events as f64);
        }
    }
}

// Grants the filters, one a line, and lets them go.
fn grant_all(filters: &str) {
    // The lengths are those of the texts.
    unsafe { spk_bench_find(filters.as_ptr(), filters.len(), "x".as_ptr(), 1, 0) };
}

fn main() {
    let words: Vec<String> = std::env::args().skip(1).collect();
    let number = |n: usize| words.get(n).and_then(|w| w.parse::<u64>().ok());
    let word = words.get(1).map_or("", String::as_str);
    match (words.first().map(String::as_str), number(1), number(2), number(3)) {
        (Some("table"), ..) => table(word),
        (Some("counts"), ..) => counts(word),
        (Some("profile"), ..) => profile(word),
        (Some("worlds"), ..) => worlds(),
        (Some("memory"), Some(case), ..) => memory::one(case as usize, grant_all),
        (Some("memory"), ..) => memory::table(),
        (Some("one"), Some(row), Some(who), Some(rounds)) => {
            println!("{}", body_of(&rows()[row as usize], who as usize)(rounds));
        }
        _ => eprintln!("usage: bench table [WORD] | counts [WORD] | profile [WORD] | worlds | memory | one ROW WHO ROUNDS"),
    }
}
