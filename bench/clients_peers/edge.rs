//! A plain edge node: a change for each line of standard input, `{"metric":"x","value":5}` in this form alone. It keeps neither a record nor what is said without a connection. PORT
use std::collections::HashMap;
use std::io::{BufRead, BufWriter, Read, Write};
use std::net::TcpStream;
use std::time::{SystemTime, UNIX_EPOCH};

fn varint(out: &mut Vec<u8>, mut value: u64) {
    while value > 127 {
        out.push(value as u8 | 128);
        value >>= 7;
    }
    out.push(value as u8);
}

fn publish(out: &mut impl Write, topic: &str, payload: &[u8]) -> std::io::Result<()> {
    let mut head = vec![0x30];
    varint(&mut head, (2 + topic.len() + payload.len()) as u64);
    head.extend_from_slice(&(topic.len() as u16).to_be_bytes());
    head.extend_from_slice(topic.as_bytes());
    out.write_all(&head)?;
    out.write_all(payload)
}

fn now() -> u64 {
    SystemTime::now().duration_since(UNIX_EPOCH).unwrap().as_millis() as u64
}

fn message(metric: &[u8], seq: u64) -> Vec<u8> {
    let mut payload = vec![8];
    varint(&mut payload, now());
    payload.push(18);
    varint(&mut payload, metric.len() as u64);
    payload.extend_from_slice(metric);
    payload.push(24);
    varint(&mut payload, seq);
    payload
}

fn main() -> std::io::Result<()> {
    let port: u16 = std::env::args().nth(1).unwrap().parse().unwrap();
    let mut socket = TcpStream::connect(("127.0.0.1", port))?;
    socket.set_nodelay(true)?;
    socket.write_all(b"\x10\x0d\0\x04MQTT\x04\x02\0\0\0\x01N")?;
    socket.read_exact(&mut [0; 4])?;
    let mut aliases = HashMap::new();
    let mut birth = vec![8];
    varint(&mut birth, now());
    for number in 0..1000u64 {
        let name = format!("area/line/metric{number}");
        let mut metric = vec![10];
        varint(&mut metric, name.len() as u64);
        metric.extend_from_slice(name.as_bytes());
        metric.push(16);
        varint(&mut metric, number + 1);
        metric.extend_from_slice(&[32, 3, 80, 0]);
        birth.push(18);
        varint(&mut birth, metric.len() as u64);
        birth.extend_from_slice(&metric);
        aliases.insert(name, number + 1);
    }
    birth.extend_from_slice(&[24, 0]);
    publish(&mut socket, "spBv1.0/G/NBIRTH/N", &birth)?;
    let mut out = BufWriter::with_capacity(65536, socket);
    let (mut values, mut seq) = (vec![0i64; 1001], 0u64);
    let mut input = std::io::stdin().lock();
    let mut line = String::new();
    loop {
        line.clear();
        if input.read_line(&mut line)? == 0 {
            break;
        }
        let Some(rest) = line.strip_prefix("{\"metric\":\"") else { continue };
        let Some((name, rest)) = rest.split_once("\",\"value\":") else { continue };
        let Some(Ok(value)) = rest.trim_end().strip_suffix('}').map(str::parse::<i64>) else { continue };
        let Some(alias) = aliases.get(name).copied() else { continue };
        if std::mem::replace(&mut values[alias as usize], value) == value {
            continue;
        }
        seq = (seq + 1) % 256;
        let mut metric = vec![16];
        varint(&mut metric, alias);
        metric.push(24);
        varint(&mut metric, now());
        metric.push(80);
        varint(&mut metric, u64::from(value as u32));
        publish(&mut out, "spBv1.0/G/NDATA/N", &message(&metric, seq))?;
        // what a loop over sockets would write once it has nothing more to read
        if input.fill_buf()?.is_empty() {
            out.flush()?;
        }
    }
    out.write_all(b"\xe0\0")?;
    out.flush()
}
