//! quick-protobuf on the same payloads, as its generator would have it: texts and bytes are borrowed from the input.
use quick_protobuf::sizeofs::{sizeof_len, sizeof_varint};
use quick_protobuf::{BytesReader, MessageRead, MessageWrite, Result, Writer, WriterBackend};
use std::borrow::Cow;
use std::hint::black_box;

#[derive(Default)]
enum Value<'a> {
    #[default]
    None,
    Int(u32),
    Long(u64),
    Flag(bool),
    Float(f32),
    Double(f64),
    Words(Cow<'a, str>),
    Octets(Cow<'a, [u8]>),
}

#[derive(Default)]
struct Metric<'a> {
    name: Option<Cow<'a, str>>,
    alias: Option<u64>,
    timestamp: Option<u64>,
    datatype: Option<u32>,
    is_historical: Option<bool>,
    is_transient: Option<bool>,
    is_null: Option<bool>,
    value: Value<'a>,
}

#[derive(Default)]
pub struct Payload<'a> {
    timestamp: Option<u64>,
    metrics: Vec<Metric<'a>>,
    seq: Option<u64>,
}

impl<'a> MessageRead<'a> for Metric<'a> {
    fn from_reader(r: &mut BytesReader, bytes: &'a [u8]) -> Result<Self> {
        let mut msg = Self::default();
        while !r.is_eof() {
            match r.next_tag(bytes) {
                Ok(10) => msg.name = Some(r.read_string(bytes).map(Cow::Borrowed)?),
                Ok(16) => msg.alias = Some(r.read_uint64(bytes)?),
                Ok(24) => msg.timestamp = Some(r.read_uint64(bytes)?),
                Ok(32) => msg.datatype = Some(r.read_uint32(bytes)?),
                Ok(40) => msg.is_historical = Some(r.read_bool(bytes)?),
                Ok(48) => msg.is_transient = Some(r.read_bool(bytes)?),
                Ok(56) => msg.is_null = Some(r.read_bool(bytes)?),
                Ok(80) => msg.value = Value::Int(r.read_uint32(bytes)?),
                Ok(88) => msg.value = Value::Long(r.read_uint64(bytes)?),
                Ok(101) => msg.value = Value::Float(r.read_float(bytes)?),
                Ok(105) => msg.value = Value::Double(r.read_double(bytes)?),
                Ok(112) => msg.value = Value::Flag(r.read_bool(bytes)?),
                Ok(122) => msg.value = Value::Words(r.read_string(bytes).map(Cow::Borrowed)?),
                Ok(130) => msg.value = Value::Octets(r.read_bytes(bytes).map(Cow::Borrowed)?),
                Ok(t) => r.read_unknown(bytes, t)?,
                Err(e) => return Err(e),
            }
        }
        Ok(msg)
    }
}

impl MessageWrite for Metric<'_> {
    fn get_size(&self) -> usize {
        self.name.as_ref().map_or(0, |m| 1 + sizeof_len(m.len()))
            + self.alias.map_or(0, |m| 1 + sizeof_varint(m))
            + self.timestamp.map_or(0, |m| 1 + sizeof_varint(m))
            + self.datatype.map_or(0, |m| 1 + sizeof_varint(u64::from(m)))
            + self.is_historical.map_or(0, |_| 2)
            + self.is_transient.map_or(0, |_| 2)
            + self.is_null.map_or(0, |_| 2)
            + match &self.value {
                Value::None => 0,
                Value::Int(m) => 1 + sizeof_varint(u64::from(*m)),
                Value::Long(m) => 1 + sizeof_varint(*m),
                Value::Flag(_) => 2,
                Value::Float(_) => 5,
                Value::Double(_) => 9,
                Value::Words(m) => 1 + sizeof_len(m.len()),
                Value::Octets(m) => 2 + sizeof_len(m.len()),
            }
    }

    fn write_message<W: WriterBackend>(&self, w: &mut Writer<W>) -> Result<()> {
        if let Some(s) = &self.name {
            w.write_with_tag(10, |w| w.write_string(s))?;
        }
        if let Some(n) = self.alias {
            w.write_with_tag(16, |w| w.write_uint64(n))?;
        }
        if let Some(n) = self.timestamp {
            w.write_with_tag(24, |w| w.write_uint64(n))?;
        }
        if let Some(n) = self.datatype {
            w.write_with_tag(32, |w| w.write_uint32(n))?;
        }
        if let Some(b) = self.is_historical {
            w.write_with_tag(40, |w| w.write_bool(b))?;
        }
        if let Some(b) = self.is_transient {
            w.write_with_tag(48, |w| w.write_bool(b))?;
        }
        if let Some(b) = self.is_null {
            w.write_with_tag(56, |w| w.write_bool(b))?;
        }
        match &self.value {
            Value::None => Ok(()),
            Value::Int(n) => w.write_with_tag(80, |w| w.write_uint32(*n)),
            Value::Long(n) => w.write_with_tag(88, |w| w.write_uint64(*n)),
            Value::Float(x) => w.write_with_tag(101, |w| w.write_float(*x)),
            Value::Double(x) => w.write_with_tag(105, |w| w.write_double(*x)),
            Value::Flag(b) => w.write_with_tag(112, |w| w.write_bool(*b)),
            Value::Words(s) => w.write_with_tag(122, |w| w.write_string(s)),
            Value::Octets(s) => w.write_with_tag(130, |w| w.write_bytes(s)),
        }
    }
}

impl<'a> MessageRead<'a> for Payload<'a> {
    fn from_reader(r: &mut BytesReader, bytes: &'a [u8]) -> Result<Self> {
        let mut msg = Self::default();
        while !r.is_eof() {
            match r.next_tag(bytes) {
                Ok(8) => msg.timestamp = Some(r.read_uint64(bytes)?),
                Ok(18) => msg.metrics.push(r.read_message::<Metric>(bytes)?),
                Ok(24) => msg.seq = Some(r.read_uint64(bytes)?),
                Ok(t) => r.read_unknown(bytes, t)?,
                Err(e) => return Err(e),
            }
        }
        Ok(msg)
    }
}

impl MessageWrite for Payload<'_> {
    fn get_size(&self) -> usize {
        self.timestamp.map_or(0, |m| 1 + sizeof_varint(m))
            + self.metrics.iter().map(|m| 1 + sizeof_len(m.get_size())).sum::<usize>()
            + self.seq.map_or(0, |m| 1 + sizeof_varint(m))
    }

    fn write_message<W: WriterBackend>(&self, w: &mut Writer<W>) -> Result<()> {
        if let Some(n) = self.timestamp {
            w.write_with_tag(8, |w| w.write_uint64(n))?;
        }
        for metric in &self.metrics {
            w.write_with_tag(18, |w| w.write_message(metric))?;
        }
        if let Some(n) = self.seq {
            w.write_with_tag(24, |w| w.write_uint64(n))?;
        }
        Ok(())
    }
}

fn read(bytes: &[u8]) -> Result<Payload<'_>> {
    Payload::from_reader(&mut BytesReader::from_bytes(bytes), bytes)
}

pub fn decode(bytes: &[u8], rounds: u64) -> u64 {
    let mut sum = 0;
    for _ in 0..rounds {
        if let Ok(payload) = read(black_box(bytes)) {
            sum += black_box(&payload).metrics.len() as u64;
        }
    }
    sum
}

pub fn encode(bytes: &[u8], rounds: u64) -> u64 {
    let Ok(payload) = read(bytes) else { return 0 };
    let mut sum = 0;
    for _ in 0..rounds {
        let mut text = Vec::with_capacity(payload.get_size());
        if black_box(&payload).write_message(&mut Writer::new(&mut text)).is_ok() {
            sum += black_box(text).len() as u64;
        }
    }
    sum
}
