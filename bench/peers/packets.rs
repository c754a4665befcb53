//! Plain hand-written Rust over the same packets: a reader and a writer without a proof, with values of the same shape.
use std::hint::black_box;

pub enum Packet {
    Connect { client: String, keep_alive: u16, clean: bool },
    Publish { topic: String, qos: u8, retain: bool, dup: bool, id: Option<u16>, payload: Vec<u8> },
    Subscribe { id: u16, filters: Vec<(String, u8)> },
}

struct Reader<'a> {
    bytes: &'a [u8],
}

impl<'a> Reader<'a> {
    fn take(&mut self, count: usize) -> Option<&'a [u8]> {
        if count > self.bytes.len() {
            return None;
        }
        let (front, rest) = self.bytes.split_at(count);
        self.bytes = rest;
        Some(front)
    }

    fn byte(&mut self) -> Option<u8> {
        self.take(1).map(|b| b[0])
    }

    fn number(&mut self) -> Option<u16> {
        self.take(2).map(|b| u16::from_be_bytes([b[0], b[1]]))
    }

    fn text(&mut self) -> Option<String> {
        let count = self.number()?;
        let text = std::str::from_utf8(self.take(count as usize)?).ok()?;
        if text.contains('\0') {
            return None;
        }
        Some(text.to_owned())
    }
}

fn connect(r: &mut Reader) -> Option<Packet> {
    if r.text()? != "MQTT" || r.byte()? != 4 {
        return None;
    }
    let flags = r.byte()?;
    let keep_alive = r.number()?;
    let client = r.text()?;
    Some(Packet::Connect { client, keep_alive, clean: flags & 2 != 0 })
}

fn publish(r: &mut Reader, first: u8) -> Option<Packet> {
    let qos = first >> 1 & 3;
    let topic = r.text()?;
    let id = if qos > 0 { Some(r.number()?) } else { None };
    let payload = r.bytes.to_vec();
    Some(Packet::Publish { topic, qos, retain: first & 1 != 0, dup: first & 8 != 0, id, payload })
}

fn subscribe(r: &mut Reader) -> Option<Packet> {
    let id = r.number()?;
    let mut filters = Vec::new();
    while !r.bytes.is_empty() {
        filters.push((r.text()?, r.byte()?));
    }
    Some(Packet::Subscribe { id, filters })
}

/// The length of the packet at the front with its header, and that of the header, if the header is there.
fn size(bytes: &[u8]) -> Option<(usize, usize)> {
    let mut length = 0;
    for n in 0..4 {
        let byte = *bytes.get(n + 1)?;
        length |= usize::from(byte & 127) << (7 * n);
        if byte < 128 {
            return Some((n + 2 + length, n + 2));
        }
    }
    None
}

fn read(bytes: &[u8]) -> Option<(Packet, usize)> {
    let (whole, header) = size(bytes)?;
    let mut r = Reader { bytes: bytes.get(header..whole)? };
    let packet = match bytes[0] >> 4 {
        1 => connect(&mut r)?,
        3 => publish(&mut r, bytes[0])?,
        8 => subscribe(&mut r)?,
        _ => return None,
    };
    Some((packet, whole))
}

fn put_text(out: &mut Vec<u8>, text: &str) {
    out.extend_from_slice(&(text.len() as u16).to_be_bytes());
    out.extend_from_slice(text.as_bytes());
}

fn header(out: &mut Vec<u8>, first: u8, mut length: usize) {
    out.push(first);
    loop {
        let byte = (length & 127) as u8;
        length >>= 7;
        if length == 0 {
            return out.push(byte);
        }
        out.push(byte | 128);
    }
}

fn write(packet: &Packet) -> Vec<u8> {
    match packet {
        Packet::Connect { client, keep_alive, clean } => {
            let length = 12 + client.len();
            let mut out = Vec::with_capacity(length + 5);
            header(&mut out, 16, length);
            put_text(&mut out, "MQTT");
            out.extend_from_slice(&[4, u8::from(*clean) << 1]);
            out.extend_from_slice(&keep_alive.to_be_bytes());
            put_text(&mut out, client);
            out
        }
        Packet::Publish { topic, qos, retain, dup, id, payload } => {
            let length = 2 + topic.len() + id.map_or(0, |_| 2) + payload.len();
            let mut out = Vec::with_capacity(length + 5);
            header(&mut out, 48 | u8::from(*dup) << 3 | qos << 1 | u8::from(*retain), length);
            put_text(&mut out, topic);
            if let Some(id) = id {
                out.extend_from_slice(&id.to_be_bytes());
            }
            out.extend_from_slice(payload);
            out
        }
        Packet::Subscribe { id, filters } => {
            let length = 2 + filters.iter().map(|f| 3 + f.0.len()).sum::<usize>();
            let mut out = Vec::with_capacity(length + 5);
            header(&mut out, 130, length);
            out.extend_from_slice(&id.to_be_bytes());
            for (filter, qos) in filters {
                put_text(&mut out, filter);
                out.push(*qos);
            }
            out
        }
    }
}

/// Whether a text may be written: at most 65,535 bytes, and no U+0000.
fn is_text(text: &str) -> bool {
    text.len() <= 65_535 && !text.as_bytes().contains(&0)
}

/// Whether MQTT lets the packet be written, as ours judges it.
fn is_lawful(packet: &Packet) -> bool {
    match packet {
        Packet::Connect { client, .. } => is_text(client),
        Packet::Publish { topic, qos, dup, id, .. } => {
            is_text(topic) && *qos <= 1 && (*qos == 1) == id.is_some() && *id != Some(0) && (!dup || *qos == 1)
        }
        Packet::Subscribe { id, filters } => {
            *id != 0 && !filters.is_empty() && filters.iter().all(|(filter, qos)| is_text(filter) && *qos <= 2)
        }
    }
}

pub fn decode(bytes: &[u8], rounds: u64) -> u64 {
    let mut sum = 0;
    for _ in 0..rounds {
        if let Some((packet, length)) = read(black_box(bytes)) {
            black_box(packet);
            sum += length as u64;
        }
    }
    sum
}

pub fn encode(bytes: &[u8], rounds: u64) -> u64 {
    let Some((packet, _)) = read(bytes) else { return 0 };
    let mut sum = 0;
    for _ in 0..rounds {
        sum += black_box(write(black_box(&packet))).len() as u64;
    }
    sum
}

pub fn encode_lawful(bytes: &[u8], rounds: u64) -> u64 {
    let Some((packet, _)) = read(bytes) else { return 0 };
    let mut sum = 0;
    for _ in 0..rounds {
        let packet = black_box(&packet);
        if is_lawful(packet) {
            sum += black_box(write(packet)).len() as u64;
        }
    }
    sum
}

/// A stream: what waits, and how many of its bytes were taken.
#[derive(Default)]
struct Stream {
    bytes: Vec<u8>,
    start: usize,
}

impl Stream {
    fn feed(&mut self, piece: &[u8]) {
        if self.start == self.bytes.len() {
            self.bytes.clear();
            self.start = 0;
        }
        self.bytes.extend_from_slice(piece);
    }

    fn next(&mut self) -> Option<Packet> {
        let (packet, length) = read(&self.bytes[self.start..])?;
        self.start += length;
        if self.start > 4096 && self.start * 2 > self.bytes.len() {
            self.bytes.drain(..self.start);
            self.start = 0;
        }
        Some(packet)
    }
}

pub fn feed(bytes: &[u8], cut: usize, rounds: u64) -> u64 {
    let mut sum = 0;
    for _ in 0..rounds {
        let mut stream = Stream::default();
        for piece in bytes.chunks(cut) {
            stream.feed(black_box(piece));
            while let Some(packet) = stream.next() {
                black_box(packet);
                sum += 1;
            }
        }
    }
    sum
}
