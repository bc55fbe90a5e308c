//! dbn's side of the benchmark: `theirs ROW STEPS`, with the rows, the inputs and the digests of ours.c, save the comparison's,
//! which dbn has not. What steps make or leave behind is not dropped, so that taking it apart is not counted.

use std::{env, hint::black_box, mem::ManuallyDrop};

use dbn::{
    decode::{merge::RecordDecoder, private::LastRecord, DecodeRecordRef},
    record::Other,
    Error, MappingInterval, Metadata, Rec, Record, RecordHeader, RecordRef, SType, SymbolMapping, TsSymbolMap,
};
use time::{Date, Month};

const NAMES: u64 = 16;
const SPACING: u64 = 1000;
const COVERED: u64 = 900;

/// splitmix64.
struct Draw(u64);

impl Draw {
    fn draw(&mut self, below: u64) -> u64 {
        self.0 = self.0.wrapping_add(0x9e3779b97f4a7c15);
        let z = (self.0 ^ (self.0 >> 30)).wrapping_mul(0xbf58476d1ce4e5b9);
        let z = (z ^ (z >> 27)).wrapping_mul(0x94d049bb133111eb);
        (z ^ (z >> 31)) % below
    }
}

fn instrument(i: u64) -> u32 {
    (1000 + 37 * i) as u32
}

/// The names; a name's number is one less than its length.
fn symbols() -> Vec<String> {
    (1..=NAMES).map(|length| "x".repeat(length as usize)).collect()
}

// The map over time.

fn lay_map(instruments: u64, intervals: u64) -> TsSymbolMap {
    let symbols = symbols();
    let mut map = TsSymbolMap::new();
    for i in 0..instruments {
        for k in 0..intervals {
            let symbol = symbols[(k % NAMES) as usize].as_str();
            map.insert(instrument(i), k * SPACING, k * SPACING + COVERED, symbol).expect("an insert");
        }
    }
    map
}

struct Question {
    moment: u64,
    instrument: u32,
}

fn lookups(mut drawn: Draw, steps: usize, most: u64, instruments: u64, intervals: u64, ahead: bool) -> u64 {
    let map = lay_map(instruments, intervals);
    let questions: Vec<Question> = (0..most)
        .map(|i| {
            let instrument = instrument(drawn.draw(instruments));
            let moment = drawn.draw(intervals * SPACING);
            Question { moment: if ahead { i * intervals * SPACING / most } else { moment }, instrument }
        })
        .collect();
    let mut digest = 0u64;
    for q in &questions[..steps] {
        let length = map.get_for_ts(q.moment, q.instrument).map_or(0, |symbol| symbol.len() as u64);
        digest = digest.wrapping_mul(31).wrapping_add(length);
    }
    digest
}

fn appends(steps: u64, intervals: u64) -> u64 {
    let symbols = symbols();
    let mut map = ManuallyDrop::new(TsSymbolMap::new());
    for i in 0..steps {
        let k = i % intervals;
        let symbol = symbols[(k % NAMES) as usize].as_str();
        map.insert(instrument(i / intervals), k * SPACING, k * SPACING + COVERED, symbol).expect("an insert");
    }
    map.len() as u64
}

fn middles(mut drawn: Draw, steps: u64, instruments: u64, intervals: u64) -> u64 {
    let symbols = symbols();
    let mut map = ManuallyDrop::new(lay_map(instruments, intervals));
    for _ in 0..steps {
        let (which, k) = (drawn.draw(instruments), drawn.draw(intervals));
        let from = k * SPACING + 100 + drawn.draw(300);
        let symbol = symbols[((k + 1) % NAMES) as usize].as_str();
        map.insert(instrument(which), from, from + 300, symbol).expect("an insert");
    }
    map.len() as u64
}

// The record merge.

/// A stream of the framing, read from the same bytes as ours with the same three tests.
struct Framed {
    bytes: Vec<u8>,
    at: usize,
    last: Rec,
}

impl DecodeRecordRef<RecordHeader> for Framed {
    fn decode_record_ref(&mut self) -> dbn::Result<Option<RecordRef<'_>>> {
        let left = &self.bytes[self.at..];
        if left.is_empty() {
            return Ok(None);
        }
        let Some((head, _)) = left.split_first_chunk::<16>() else {
            return Err(Error::Damaged);
        };
        let length = u16::from_le_bytes([head[0], head[1]]) as usize;
        if !(16..=1024).contains(&length) || length > left.len() {
            return Err(Error::Damaged);
        }
        if let Rec::Other(last) = &mut self.last {
            last.instrument_id = u32::from_le_bytes(head[4..8].try_into().unwrap()) as u64;
            last.ts = u64::from_le_bytes(head[8..].try_into().unwrap());
        }
        self.at += length;
        Ok(self.last_record())
    }
}

impl LastRecord<RecordHeader> for Framed {
    fn last_record(&self) -> Option<RecordRef<'_>> {
        (self.at != 0).then(|| RecordRef::new(&self.last))
    }
}

/// A stream whose records lie ready, read already.
struct Ready {
    records: Vec<Rec>,
    read: usize,
}

impl DecodeRecordRef<RecordHeader> for Ready {
    fn decode_record_ref(&mut self) -> dbn::Result<Option<RecordRef<'_>>> {
        if self.read == self.records.len() {
            return Ok(None);
        }
        self.read += 1;
        Ok(self.last_record())
    }
}

impl LastRecord<RecordHeader> for Ready {
    fn last_record(&self) -> Option<RecordRef<'_>> {
        self.records.get(self.read.wrapping_sub(1)).map(RecordRef::new)
    }
}

/// Each stream's bytes.
fn streams(mut drawn: Draw, most: u64, streams: u64) -> Vec<Vec<u8>> {
    let mut bytes = vec![Vec::new(); streams as usize];
    let mut time = 0;
    for i in 0..most {
        let stream: &mut Vec<u8> = &mut bytes[drawn.draw(streams) as usize];
        time += drawn.draw(3);
        let length = 16 + drawn.draw(49);
        stream.extend_from_slice(&(length as u16).to_le_bytes());
        stream.extend_from_slice(&1u16.to_le_bytes());
        stream.extend_from_slice(&(i as u32).to_le_bytes());
        stream.extend_from_slice(&time.to_le_bytes());
        stream.resize(stream.len() + length as usize - 16, 0);
    }
    bytes
}

fn framed(bytes: Vec<u8>) -> Framed {
    Framed { bytes, at: 0, last: Rec::Other(Other { instrument_id: 0, ts: 0 }) }
}

fn ready(bytes: Vec<u8>) -> Ready {
    let mut stream = framed(bytes);
    let mut records = Vec::new();
    while let Some(record) = stream.decode_record_ref().expect("a record") {
        records.push(Rec::Other(Other { instrument_id: record.instrument_id(), ts: record.raw_index_ts() }));
    }
    Ready { records, read: 0 }
}

fn records<D>(steps: u64, bytes: Vec<Vec<u8>>, opened: fn(Vec<u8>) -> D) -> u64
where
    D: DecodeRecordRef<RecordHeader> + LastRecord<RecordHeader>,
{
    let decoders: Vec<D> = bytes.into_iter().map(opened).collect();
    let hints = vec![0; decoders.len()];
    let mut merge = RecordDecoder::with_hints(decoders, hints).expect("streams");
    let mut digest = 0u64;
    for _ in 0..steps {
        let record = merge.decode_record_ref().expect("no damage").expect("a record");
        digest = digest.wrapping_mul(31).wrapping_add(record.raw_index_ts() ^ record.instrument_id());
    }
    digest
}

// UTF-8.

fn names(mut drawn: Draw, steps: usize, least: u64, most: u64) -> u64 {
    const TEXTS: usize = 64;
    let characters = ["a", "é", "€", "😀"];
    let mut texts = vec![Vec::new(); TEXTS];
    for text in &mut texts {
        while text.len() < 255 {
            let mut bytes = (least + drawn.draw(most - least + 1)) as usize;
            if bytes > 255 - text.len() {
                bytes = 1;
            }
            text.extend_from_slice(characters[bytes - 1].as_bytes());
        }
    }
    (0..steps).map(|i| std::str::from_utf8(black_box(&texts[i % TEXTS])).is_ok() as u64).sum()
}

// Metadata.

/// The mappings from number `from` to before `to`, of 16 intervals each; a mapping's name and its intervals' symbol are the
/// text of its instrument.
fn metadata(from: u64, to: u64) -> Metadata {
    let text = |i: u64| instrument(i).to_string();
    let date = |k: u64, day| Date::from_calendar_date(2020 + (k / 12) as i32, Month::try_from((k % 12 + 1) as u8).unwrap(), day).unwrap();
    let interval = |i, k| MappingInterval { start_date: date(k, 1), end_date: date(k, 15), symbol: text(i) };
    Metadata {
        mappings: (from..to)
            .map(|i| SymbolMapping { raw_symbol: text(i), intervals: (0..16).map(|k| interval(i, k)).collect() })
            .collect(),
        symbols: (from..to).map(text).collect(),
        ..Metadata::builder().dataset("").schema(None).start(0).stype_in(Some(SType(1))).stype_out(SType::InstrumentId).build()
    }
}

/// The mappings and the intervals of a metadata.
fn size(metadata: &Metadata) -> u64 {
    metadata.mappings.len() as u64 + metadata.mappings.iter().map(|mapping| mapping.intervals.len() as u64).sum::<u64>()
}

fn merges(steps: usize, first: Metadata, added: Metadata) -> u64 {
    const MOST: usize = 4;
    let mut given = ManuallyDrop::new(vec![(first, added); MOST]);
    let merged = given.drain(..steps).map(|(first, added)| ManuallyDrop::new(first.merge([added]).expect("a merge")));
    merged.map(|merged| size(&merged)).sum()
}

/// Mappings one after the other in the order of their instruments, or scattered.
fn ordered(mappings: u64, scattered: bool) -> Metadata {
    let mut metadata = metadata(0, mappings);
    if scattered {
        metadata.mappings = (0..mappings).map(|i| metadata.mappings[(i * 1553 % mappings) as usize].clone()).collect();
    }
    metadata
}

fn builds(steps: u64, metadata: Metadata) -> u64 {
    (0..steps).map(|_| ManuallyDrop::new(metadata.symbol_map().expect("a build")).len() as u64).sum()
}

fn day_builds(steps: u64, metadata: Metadata) -> u64 {
    let day = Date::from_calendar_date(2020, Month::March, 1).unwrap();
    (0..steps).map(|_| ManuallyDrop::new(metadata.symbol_map_for_date(day).expect("a build")).len() as u64).sum()
}

fn main() {
    let words: Vec<String> = env::args().collect();
    let [_, row, steps] = words.as_slice() else {
        panic!("a row and a number of steps");
    };
    let steps: u64 = steps.parse().expect("a number of steps");
    let drawn = Draw(1);
    let digest = match row.as_str() {
        "ahead" => lookups(drawn, steps as usize, 1_000_000, 4096, 16, true),
        "random" => lookups(drawn, steps as usize, 1_000_000, 4096, 16, false),
        "ahead-one" => lookups(drawn, steps as usize, 1_000_000, 1, 50_000, true),
        "random-one" => lookups(drawn, steps as usize, 1_000_000, 1, 50_000, false),
        "ahead-1024" => lookups(drawn, steps as usize, 1_000_000, 64, 16, true),
        "random-1024" => lookups(drawn, steps as usize, 1_000_000, 64, 16, false),
        "ahead-16384" => lookups(drawn, steps as usize, 1_000_000, 1024, 16, true),
        "random-16384" => lookups(drawn, steps as usize, 1_000_000, 1024, 16, false),
        "append" => appends(steps, 16),
        "append-one" => appends(steps, 4096),
        "middle" => middles(drawn, steps, 256, 16),
        "middle-one" => middles(drawn, steps, 1, 4096),
        "merge-4" => records(steps, streams(drawn, 200_000, 4), framed),
        "merge-16" => records(steps, streams(drawn, 200_000, 16), framed),
        "merge-256" => records(steps, streams(drawn, 200_000, 256), framed),
        "run-4" => records(steps, streams(drawn, 200_000, 4), framed),
        "run-16" => records(steps, streams(drawn, 200_000, 16), framed),
        "run-256" => records(steps, streams(drawn, 200_000, 256), framed),
        "ready-4" => records(steps, streams(drawn, 200_000, 4), ready),
        "ready-16" => records(steps, streams(drawn, 200_000, 16), ready),
        "ready-256" => records(steps, streams(drawn, 200_000, 256), ready),
        "metadata-copy" => merges(steps as usize, metadata(0, 4096), metadata(0, 4096)),
        "metadata-apart" => merges(steps as usize, metadata(0, 2048), metadata(2048, 4096)),
        "build" => builds(steps, ordered(4096, false)),
        "build-scattered" => builds(steps, ordered(4096, true)),
        "build-day" => day_builds(steps, ordered(4096, false)),
        "build-day-scattered" => day_builds(steps, ordered(4096, true)),
        "utf8-ascii" => names(drawn, steps as usize, 1, 1),
        "utf8-two" => names(drawn, steps as usize, 2, 2),
        "utf8-mixed" => names(drawn, steps as usize, 1, 4),
        _ => panic!("no such row"),
    };
    println!("{digest:016x}");
}
