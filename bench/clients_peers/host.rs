//! A plain host: a JSON line for each message, its metrics called by the last birth. It keeps neither order nor sessions. PORT COUNT
use std::io::{BufWriter, Read, Write};
use std::net::TcpStream;

fn varint(bytes: &[u8], at: &mut usize) -> Option<u64> {
    let (mut value, mut shift) = (0u64, 0);
    loop {
        let byte = *bytes.get(*at)?;
        *at += 1;
        value |= u64::from(byte & 127) << shift;
        shift += 7;
        if byte < 128 {
            return Some(value);
        }
        if shift > 63 {
            return None;
        }
    }
}

#[derive(Default)]
struct Metric<'a> {
    name: Option<&'a str>,
    alias: u64,
    datatype: u32,
    int: Option<u64>,
    text: Option<&'a str>,
}

fn field<'a>(bytes: &'a [u8], at: &mut usize) -> Option<(u64, u64, &'a [u8])> {
    let key = varint(bytes, at)?;
    match key & 7 {
        0 => Some((key >> 3, varint(bytes, at)?, &[])),
        1 => {
            *at += 8;
            Some((key >> 3, 0, bytes.get(*at - 8..*at)?))
        }
        2 => {
            let size = varint(bytes, at)? as usize;
            *at += size;
            Some((key >> 3, 0, bytes.get(*at - size..*at)?))
        }
        5 => {
            *at += 4;
            Some((key >> 3, 0, bytes.get(*at - 4..*at)?))
        }
        _ => None,
    }
}

fn metric(bytes: &[u8]) -> Option<Metric<'_>> {
    let (mut metric, mut at) = (Metric::default(), 0);
    while at < bytes.len() {
        let (number, value, body) = field(bytes, &mut at)?;
        match number {
            1 => metric.name = Some(std::str::from_utf8(body).ok()?),
            2 => metric.alias = value,
            4 => metric.datatype = value as u32,
            10 | 11 => metric.int = Some(value),
            15 => metric.text = Some(std::str::from_utf8(body).ok()?),
            _ => {}
        }
    }
    Some(metric)
}

fn quoted(out: &mut impl Write, text: &str) -> std::io::Result<()> {
    out.write_all(b"\"")?;
    for c in text.chars() {
        match c {
            '"' => out.write_all(b"\\\"")?,
            '\\' => out.write_all(b"\\\\")?,
            c if c < ' ' => write!(out, "\\u{:04x}", c as u32)?,
            c => write!(out, "{c}")?,
        }
    }
    out.write_all(b"\"")
}

fn main() -> std::io::Result<()> {
    let words: Vec<String> = std::env::args().collect();
    let wanted: u64 = words[2].parse().unwrap();
    let mut socket = TcpStream::connect(("127.0.0.1", words[1].parse::<u16>().unwrap()))?;
    socket.write_all(b"\x10\x0d\0\x04MQTT\x04\x02\0\0\0\x01H")?;
    socket.write_all(b"\x82\x10\0\x01\0\x0bspBv1.0/G/#\0")?;
    let mut out = BufWriter::new(std::io::stdout().lock());
    let mut names: Vec<(String, u32)> = Vec::new();
    let (mut held, mut piece, mut seen) = (Vec::new(), vec![0u8; 65536], 0u64);
    loop {
        let count = socket.read(&mut piece)?;
        if count == 0 {
            return Ok(());
        }
        held.extend_from_slice(&piece[..count]);
        let mut taken = 0;
        loop {
            let mut at = taken + 1;
            let Some(size) = varint(&held, &mut at) else { break };
            let end = at + size as usize;
            if end > held.len() {
                break;
            }
            let body = &held[at..end];
            if held[taken] >> 4 == 3 {
                let length = usize::from(body[0]) << 8 | usize::from(body[1]);
                let topic = std::str::from_utf8(&body[2..2 + length]).unwrap();
                let payload = &body[2 + length..];
                let (mut time, mut seq, mut place) = (0, 0, 0);
                let mut metrics = Vec::new();
                while place < payload.len() {
                    let Some((number, value, body)) = field(payload, &mut place) else { break };
                    match number {
                        1 => time = value,
                        2 => metrics.extend(metric(body)),
                        3 => seq = value,
                        _ => {}
                    }
                }
                out.write_all(b"{\"topic\":")?;
                quoted(&mut out, topic)?;
                write!(out, ",\"seq\":{seq},\"time\":{time},\"metrics\":[")?;
                for (number, metric) in metrics.iter().enumerate() {
                    let alias = metric.alias as usize;
                    if let Some(name) = metric.name {
                        if names.len() <= alias {
                            names.resize(alias + 1, (String::new(), 0));
                        }
                        names[alias] = (name.to_string(), metric.datatype);
                    }
                    out.write_all(if number > 0 { b",{\"metric\":" } else { b"{\"metric\":" })?;
                    let (name, datatype) = names.get(alias).map_or(("", 0), |it| (it.0.as_str(), it.1));
                    quoted(&mut out, name)?;
                    write!(out, ",\"type\":{datatype},\"value\":")?;
                    match (metric.int, metric.text) {
                        (Some(value), _) => write!(out, "{}", value as u32 as i32)?,
                        (None, Some(text)) => quoted(&mut out, text)?,
                        (None, None) => out.write_all(b"null")?,
                    }
                    out.write_all(b"}")?;
                }
                out.write_all(b"]}\n")?;
                seen += 1;
                if seen == wanted {
                    out.flush()?;
                    return socket.write_all(b"\xe0\0");
                }
            }
            taken = end;
        }
        held.drain(..taken);
    }
}
