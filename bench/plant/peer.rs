//! A plant in plain Rust, without proofs, beside `sparkplug plant`: edge nodes, a broker and a host on threads of their own, over std's
//! channels. It makes and reads the same bytes (MQTT 3.1.1 PUBLISH, Sparkplug's NBIRTH and NDATA) and keeps the host's order by number, but
//! has no stamps, sessions, wills, store, devices, requests or window.
//!
//! usage: peer NODES CHANGES RING INGRESS
use std::collections::HashMap;
use std::sync::mpsc::{sync_channel, Receiver, SyncSender, TryRecvError};
use std::thread;

type Frame = (usize, Vec<u8>);

fn varint(out: &mut Vec<u8>, mut number: u64) {
    while number >= 128 {
        out.push(number as u8 | 128);
        number >>= 7;
    }
    out.push(number as u8);
}

fn field(out: &mut Vec<u8>, number: u64, value: u64) {
    varint(out, number << 3);
    varint(out, value);
}

fn bytes_field(out: &mut Vec<u8>, number: u64, bytes: &[u8]) {
    varint(out, number << 3 | 2);
    varint(out, bytes.len() as u64);
    out.extend_from_slice(bytes);
}

fn publish(topic: &str, payload: &[u8]) -> Vec<u8> {
    let mut out = vec![0x30];
    varint(&mut out, (2 + topic.len() + payload.len()) as u64);
    out.extend_from_slice(&(topic.len() as u16).to_be_bytes());
    out.extend_from_slice(topic.as_bytes());
    out.extend_from_slice(payload);
    out
}

fn birth(now: u64) -> Vec<u8> {
    let mut metric = Vec::new();
    bytes_field(&mut metric, 1, b"x");
    field(&mut metric, 2, 1);
    field(&mut metric, 3, now);
    field(&mut metric, 4, 3);
    field(&mut metric, 10, 0);
    let mut out = Vec::new();
    field(&mut out, 1, now);
    bytes_field(&mut out, 2, &metric);
    field(&mut out, 3, 0);
    out
}

fn data(now: u64, value: u64, seq: u8) -> Vec<u8> {
    let mut metric = Vec::new();
    field(&mut metric, 2, 1);
    field(&mut metric, 3, now);
    field(&mut metric, 10, value);
    let mut out = Vec::new();
    field(&mut out, 1, now);
    bytes_field(&mut out, 2, &metric);
    field(&mut out, 3, u64::from(seq));
    out
}

fn edge(place: usize, changes: u64, frames: SyncSender<Frame>, ring: Receiver<Vec<u8>>) {
    frames.send((place, vec![0x10])).unwrap();
    ring.recv().unwrap();
    let name = format!("N{place}");
    let topic = format!("spBv1.0/G/NDATA/{name}");
    frames.send((place, publish(&format!("spBv1.0/G/NBIRTH/{name}"), &birth(1)))).unwrap();
    for change in 1..=changes {
        while ring.try_recv().is_ok() {}
        frames.send((place, publish(&topic, &data(1 + change, change, change as u8)))).unwrap();
    }
    frames.send((place, Vec::new())).unwrap();
}

fn read_varint(bytes: &[u8], at: &mut usize) -> Option<u64> {
    let mut number = 0;
    for shift in 0..10 {
        let byte = *bytes.get(*at)?;
        *at += 1;
        number |= u64::from(byte & 127) << (7 * shift);
        if byte < 128 {
            return Some(number);
        }
    }
    None
}

/// A PUBLISH's topic and payload.
fn publish_of(bytes: &[u8]) -> Option<(&str, &[u8])> {
    let mut at = 1;
    let length = read_varint(bytes, &mut at)? as usize;
    let body = bytes.get(at..at + length)?;
    let size = usize::from(u16::from_be_bytes([*body.first()?, *body.get(1)?]));
    Some((std::str::from_utf8(body.get(2..2 + size)?).ok()?, &body[2 + size..]))
}

/// Whether a filter matches, level by level.
fn matches(filter: &str, topic: &str) -> bool {
    let mut levels = topic.split('/');
    for wanted in filter.split('/') {
        match (wanted, levels.next()) {
            ("#", _) => return true,
            ("+", Some(_)) => {}
            (wanted, Some(level)) if wanted == level => {}
            _ => return false,
        }
    }
    levels.next().is_none()
}

fn broker(nodes: usize, frames: Receiver<Frame>, rings: Vec<SyncSender<Vec<u8>>>) -> u64 {
    let mut filters: Vec<Vec<String>> = (0..nodes).map(|n| vec![format!("spBv1.0/G/NCMD/N{n}"), "spBv1.0/STATE/H".to_owned()]).collect();
    filters.push(vec!["spBv1.0/G/#".to_owned()]);
    let (mut left, mut refused) = (nodes, 0);
    while left > 0 {
        let (sender, bytes) = frames.recv().unwrap();
        match bytes.first() {
            None => left -= 1,
            Some(0x10) => rings[sender].try_send(vec![0x20, 2, 0, 0]).unwrap(),
            Some(_) => {
                let Some((topic, _)) = publish_of(&bytes) else { continue };
                for (ring, filters) in rings.iter().zip(&filters) {
                    if filters.iter().any(|filter| matches(filter, topic)) && ring.try_send(bytes.clone()).is_err() {
                        refused += 1;
                    }
                }
            }
        }
    }
    refused
}

#[derive(Default)]
struct Node {
    next: u8,
    born: bool,
    names: HashMap<u64, String>,
    values: HashMap<String, u64>,
}

/// Takes a payload: its metrics' values by name, and its number. True where it is the next one.
fn consume(node: &mut Node, is_birth: bool, payload: &[u8]) -> Option<bool> {
    let (mut at, mut seq, mut metrics) = (0, 0, Vec::new());
    while at < payload.len() {
        let key = read_varint(payload, &mut at)?;
        if key & 7 == 2 {
            let size = read_varint(payload, &mut at)? as usize;
            metrics.push(payload.get(at..at + size)?);
            at += size;
        } else {
            let value = read_varint(payload, &mut at)?;
            if key >> 3 == 3 {
                seq = value as u8;
            }
        }
    }
    if is_birth {
        node.born = true;
    } else if !node.born || seq != node.next {
        return Some(false);
    }
    node.next = seq.wrapping_add(1);
    for metric in metrics {
        let (mut at, mut name, mut alias, mut value) = (0, None, 0, 0);
        while at < metric.len() {
            let key = read_varint(metric, &mut at)?;
            if key & 7 == 2 {
                let size = read_varint(metric, &mut at)? as usize;
                name = Some(std::str::from_utf8(metric.get(at..at + size)?).ok()?.to_owned());
                at += size;
            } else {
                let number = read_varint(metric, &mut at)?;
                match key >> 3 {
                    2 => alias = number,
                    10 => value = number,
                    _ => {}
                }
            }
        }
        if let Some(name) = name {
            node.names.insert(alias, name);
        }
        let name = node.names.get(&alias)?.clone();
        node.values.insert(name, value);
    }
    Some(true)
}

fn host(ring: Receiver<Vec<u8>>) -> u64 {
    let mut nodes: HashMap<String, Node> = HashMap::new();
    let mut consumed = 0;
    loop {
        let bytes = match ring.try_recv() {
            Ok(bytes) => bytes,
            Err(TryRecvError::Empty) => match ring.recv() {
                Ok(bytes) => bytes,
                Err(_) => return consumed,
            },
            Err(TryRecvError::Disconnected) => return consumed,
        };
        let Some((topic, payload)) = publish_of(&bytes) else { continue };
        let levels: Vec<&str> = topic.split('/').collect();
        if let [_, _, kind, name] = levels[..] {
            let node = nodes.entry(name.to_owned()).or_default();
            consumed += u64::from(consume(node, kind == "NBIRTH", payload) == Some(true));
        }
    }
}

fn main() {
    let numbers: Vec<usize> = std::env::args().skip(1).filter_map(|w| w.parse().ok()).collect();
    let [nodes, changes, ring, ingress] = numbers[..] else {
        eprintln!("usage: peer NODES CHANGES RING INGRESS");
        std::process::exit(2);
    };
    let (frames, taken) = sync_channel(ingress);
    let (rings, mut ends): (Vec<_>, Vec<_>) = (0..=nodes).map(|_| sync_channel(ring)).unzip();
    let hosts_end = ends.pop().unwrap();
    let host = thread::spawn(move || host(hosts_end));
    let edges: Vec<_> = ends
        .into_iter()
        .enumerate()
        .map(|(place, end)| {
            let frames = frames.clone();
            thread::spawn(move || edge(place, changes as u64, frames, end))
        })
        .collect();
    drop(frames);
    let refused = thread::spawn(move || broker(nodes, taken, rings)).join().unwrap();
    for edge in edges {
        edge.join().unwrap();
    }
    println!("consumed {} refused {refused}", host.join().unwrap());
}
