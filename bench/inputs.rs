//! What is measured on: payloads, packets, filters and topics, each made the same way at each run.

fn varint(out: &mut Vec<u8>, mut n: u64) {
    while n > 127 {
        out.push(n as u8 | 128);
        n >>= 7;
    }
    out.push(n as u8);
}

fn number(out: &mut Vec<u8>, field: u64, n: u64) {
    varint(out, field << 3);
    varint(out, n);
}

fn bytes(out: &mut Vec<u8>, field: u64, text: &[u8]) {
    varint(out, field << 3 | 2);
    varint(out, text.len() as u64);
    out.extend_from_slice(text);
}

const NOW: u64 = 1_763_812_800_000;

/// The value of metric n: an int, a long, a Boolean or a text, with the datatype Int32, UInt64, Boolean or String.
fn value(out: &mut Vec<u8>, n: u64) {
    match n % 4 {
        0 => number(out, 10, 20 + n),
        1 => number(out, 11, NOW + n),
        2 => number(out, 14, n / 4 % 2),
        _ => bytes(out, 15, b"running at full speed"),
    }
}

fn metric(n: u64, is_birth: bool) -> Vec<u8> {
    let mut out = Vec::new();
    if is_birth {
        bytes(&mut out, 1, format!("Line 3/Motor {n}/Winding Temperature").as_bytes());
    }
    number(&mut out, 2, n + 1);
    number(&mut out, 3, NOW);
    if is_birth {
        number(&mut out, 4, [3, 8, 11, 12][n as usize % 4]);
    }
    value(&mut out, n);
    out
}

/// The data of so many metrics whose values all stand in one field: 10 ints, 12 floats, 13 doubles.
pub fn alike(metrics: u64, field: u64) -> Vec<u8> {
    let mut out = Vec::new();
    number(&mut out, 1, NOW);
    for n in 0..metrics {
        let mut one = Vec::new();
        number(&mut one, 2, n + 1);
        number(&mut one, 3, NOW);
        match field {
            12 => {
                varint(&mut one, 12 << 3 | 5);
                one.extend_from_slice(&(20.5 + n as f32).to_le_bytes());
            }
            13 => {
                varint(&mut one, 13 << 3 | 1);
                one.extend_from_slice(&(20.1 + n as f64).to_le_bytes());
            }
            _ => number(&mut one, 10, 1_000_000 + n),
        }
        bytes(&mut out, 2, &one);
    }
    number(&mut out, 3, 17);
    out
}

/// A payload of so many metrics: of data, with aliases alone, or of a birth, with names and datatypes.
pub fn payload(metrics: u64, is_birth: bool) -> Vec<u8> {
    let mut out = Vec::new();
    number(&mut out, 1, NOW);
    for n in 0..metrics {
        bytes(&mut out, 2, &metric(n, is_birth));
    }
    number(&mut out, 3, 17);
    out
}

/// The payload of a node's message: of its birth, with bdSeq, or of data, whose number stands in two bytes whatever it is.
fn numbered(metrics: u64, is_birth: bool, seq: u8) -> Vec<u8> {
    let mut out = Vec::new();
    number(&mut out, 1, NOW);
    if is_birth {
        let mut bd = Vec::new();
        bytes(&mut bd, 1, b"bdSeq");
        number(&mut bd, 3, NOW);
        number(&mut bd, 4, 8);
        number(&mut bd, 11, 0);
        bytes(&mut out, 2, &bd);
    }
    for n in 0..metrics {
        bytes(&mut out, 2, &metric(n, is_birth));
    }
    out.extend_from_slice(&[3 << 3, seq | 128, seq >> 7]);
    out
}

fn publish_of(kind: &str, node: usize, payload: &[u8]) -> Vec<u8> {
    let mut body = Vec::new();
    text(&mut body, format!("spBv1.0/Plant 4/{kind}/Node {node}").as_bytes());
    body.extend_from_slice(payload);
    packet(0x30, &body)
}

/// CONNACK and SUBACK, and the births of so many nodes.
pub fn births(nodes: usize, metrics: u64) -> Vec<u8> {
    let mut out = vec![0x20, 2, 0, 0, 0x90, 3, 0, 1, 1];
    for node in 0..nodes {
        out.extend_from_slice(&publish_of("NBIRTH", node, &numbered(metrics, true, 0)));
    }
    out
}

/// 256 packets of data of a node, equally long, numbered from 1 on to 255 and then 0.
pub fn data(node: usize, metrics: u64) -> Vec<u8> {
    let one = |n: u64| publish_of("NDATA", node, &numbered(metrics, false, (n + 1) as u8));
    (0..256).flat_map(one).collect()
}

fn text(out: &mut Vec<u8>, text: &[u8]) {
    out.extend_from_slice(&(text.len() as u16).to_be_bytes());
    out.extend_from_slice(text);
}

fn packet(first: u8, body: &[u8]) -> Vec<u8> {
    let mut out = vec![first];
    varint(&mut out, body.len() as u64);
    out.extend_from_slice(body);
    out
}

pub fn publish(size: usize) -> Vec<u8> {
    publish_at(0, MOTOR, size)
}

/// A PUBLISH of this QoS, 0 or 1; with QoS 1 it has identifier 9.
pub fn publish_at(qos: u8, topic: &str, size: usize) -> Vec<u8> {
    let mut body = Vec::new();
    text(&mut body, topic.as_bytes());
    if qos == 1 {
        body.extend_from_slice(&[0, 9]);
    }
    body.resize(body.len() + size, 7);
    packet(0x30 | qos << 1, &body)
}

pub const MOTOR: &str = "spBv1.0/Plant 4/DDATA/Line 3/Motor 17";

pub fn connect() -> Vec<u8> {
    connect_of("Plant 4/Line 3")
}

fn connect_of(client: &str) -> Vec<u8> {
    let mut body = Vec::new();
    text(&mut body, b"MQTT");
    body.extend_from_slice(&[4, 2, 0, 60]);
    text(&mut body, client.as_bytes());
    packet(0x10, &body)
}

pub fn subscribe() -> Vec<u8> {
    subscribe_to((0..8).map(|n| format!("spBv1.0/Plant 4/+/Line {n}/#")))
}

fn subscribe_to(filters: impl Iterator<Item = String>) -> Vec<u8> {
    let mut body = vec![0, 1];
    for filter in filters {
        text(&mut body, filter.as_bytes());
        body.push(1);
    }
    packet(0x82, &body)
}

/// Who is at a broker: so many clients, the first ones of which are granted `filter`. Each client has so many grants in all, or none but that.
pub struct Clients {
    pub sessions: usize,
    pub receivers: usize,
    pub filter: &'static str,
    pub grants: usize,
}

/// They come one after the other, each with its grants; then the last one publishes 20 times, so that the broker makes its index of grants.
pub fn clients(who: &Clients, topic: &str) -> Vec<u8> {
    let mut out = Vec::new();
    for n in 0..who.sessions {
        out.extend_from_slice(&connect_of(&format!("Client {n}")));
        let heard = (n < who.receivers).then(|| who.filter.to_owned());
        let others = (usize::from(n < who.receivers)..who.grants).map(|d| format!("spBv1.0/Plant 4/DDATA/Node {n}/Device {d}"));
        let filters: Vec<String> = heard.into_iter().chain(others).collect();
        if !filters.is_empty() {
            out.extend_from_slice(&subscribe_to(filters.into_iter()));
        }
    }
    out.extend_from_slice(&publish_at(0, topic, 64).repeat(20));
    out
}

/// A client comes and leaves.
pub fn visit() -> Vec<u8> {
    let mut out = connect_of("Visitor");
    out.extend_from_slice(&[0xe0, 0]);
    out
}

/// About so many bytes of PUBLISH packets with 64 bytes.
pub fn stream(size: usize) -> Vec<u8> {
    let one = publish(64);
    one.repeat(size / one.len())
}

/// Filters as brokers of a plant have them: of each ten, one for a whole node and nine for one topic. There are a tenth
/// as many nodes as filters.
pub fn plant_filters(count: usize) -> String {
    let line = |n: usize| {
        let node = n / 10;
        match n % 10 {
            0 => format!("spBv1.0/Plant 4/+/Node {node}/#"),
            d => format!("spBv1.0/Plant 4/DDATA/Node {node}/Device {d}"),
        }
    };
    (0..count).map(line).collect::<Vec<_>>().join("\n")
}

pub const PLANT_TOPIC: &str = "spBv1.0/Plant 4/DDATA/Node 0/Device 3";

/// Filters of which each has a wildcard in one level or in two, and names from a small set in the others.
pub fn wild_filters(count: usize) -> String {
    let line = |n: usize| {
        let name = |k: usize| format!("level {}", n / k % 22);
        match n % 4 {
            0 => format!("a/+/{}/{}/{}", name(4), name(88), name(1936)),
            1 => format!("a/{}/+/{}/{}", name(4), name(88), name(1936)),
            2 => format!("a/{}/{}/+/{}", name(4), name(88), name(1936)),
            _ => format!("a/{}/{}/{}/#", name(4), name(88), name(1936)),
        }
    };
    (0..count).map(line).collect::<Vec<_>>().join("\n")
}

pub const WILD_TOPIC: &str = "a/level 0/level 0/level 0/level 0";
