//! Answers cases with dbn's own code: one case a line on standard input, one line of answers a case on standard
//! output. README.md has the formats.

use std::{
    collections::HashMap,
    fmt::Write as _,
    io::{self, BufRead, Write as _},
    num::NonZeroU64,
    panic,
    str::SplitAsciiWhitespace,
};

use dbn::{
    decode::{merge, private::LastRecord, DbnMetadata, DecodeRecordRef},
    record::Other,
    v1, Error, MappingInterval, Metadata, PitSymbolMap, Rec, Record, RecordHeader, RecordRef, SType, Schema,
    SymbolIndex, SymbolIntervals, SymbolMapping, SymbolMappingMsg, TsSymbolMap,
};
use time::{Date, Duration, Month};

fn main() -> io::Result<()> {
    let mut out = io::BufWriter::new(io::stdout().lock());
    let hint_at = hint_place();
    panic::set_hook(Box::new(|_| {})); // a panic is an answer
    for line in io::stdin().lock().lines() {
        let line = line?;
        let answer = panic::catch_unwind(|| answer(&line, hint_at)).unwrap_or_else(|_| "panic".to_owned());
        writeln!(out, "{answer}")?;
    }
    out.flush()
}

fn answer(line: &str, hint_at: usize) -> String {
    let mut case = Case(line.split_ascii_whitespace());
    match case.word() {
        "map" => map(case, hint_at),
        "mappings" => mappings(case),
        "number" => number(&case.bytes()),
        "utf8" => (if std::str::from_utf8(&case.bytes()).is_ok() { "0" } else { "4" }).to_owned(),
        "day" => day(case.number()),
        "date" => date(case.number()),
        "merge" => merged(case),
        "build" => build(case),
        "build_day" => build_day(case),
        "build_merged" => build_merged(case),
        "records" => records(case),
        "decoder" => decoder(case),
        kind => panic!("no such kind: {kind}"),
    }
}

/// The words of a case.
struct Case<'a>(SplitAsciiWhitespace<'a>);

impl<'a> Case<'a> {
    fn word(&mut self) -> &'a str {
        self.0.next().expect("one more word")
    }

    fn number<T: TryFrom<u64>>(&mut self) -> T {
        let number: u64 = self.word().parse().expect("a number");
        number.try_into().ok().expect("a number in range")
    }

    /// Bytes in hexadecimal, `-` for none.
    fn bytes(&mut self) -> Vec<u8> {
        let word = self.word();
        if word == "-" {
            return Vec::new();
        }
        let digits = word.as_bytes().chunks(2).map(|two| std::str::from_utf8(two).unwrap());
        digits.map(|two| u8::from_str_radix(two, 16).expect("two hexadecimal digits")).collect()
    }

    /// A count, then as many numbers.
    fn numbers<T: TryFrom<u64>>(&mut self) -> Vec<T> {
        (0..self.number()).map(|_: usize| self.number()).collect()
    }

    /// A list of names: a count, then the bytes of each.
    fn names(&mut self) -> Vec<String> {
        (0..self.number()).map(|_: usize| String::from_utf8(self.bytes()).expect("a name")).collect()
    }

    fn set(&mut self, names: &[String]) -> Vec<String> {
        self.numbers::<usize>().into_iter().map(|n| names[n].clone()).collect()
    }

    fn metadata(&mut self, names: &[String]) -> Metadata {
        let some = |number: u64, none: u64| (number != none).then_some(number);
        Metadata {
            version: self.number(),
            dataset: names[self.number::<usize>()].clone(),
            schema: some(self.number(), 65_535).map(|n| Schema(n as u16)),
            start: self.number(),
            end: NonZeroU64::new(self.number()),
            limit: NonZeroU64::new(self.number()),
            stype_in: some(self.number(), 255).map(|n| SType(n as u8)),
            stype_out: SType(self.number()),
            ts_out: self.number::<u64>() == 1,
            symbol_cstr_len: self.number(),
            layout: None,
            symbols: self.set(names),
            partial: self.set(names),
            not_found: self.set(names),
            mappings: (0..self.number()).map(|_: usize| self.mapping(names)).collect(),
        }
    }

    fn mapping(&mut self, names: &[String]) -> SymbolMapping {
        SymbolMapping {
            raw_symbol: names[self.number::<usize>()].clone(),
            intervals: (0..self.number()).map(|_: usize| self.interval(names)).collect(),
        }
    }

    fn interval(&mut self, names: &[String]) -> MappingInterval {
        MappingInterval {
            start_date: calendar(self.number()).expect("a date"),
            end_date: calendar(self.number()).expect("a date"),
            symbol: names[self.number::<usize>()].clone(),
        }
    }
}

/// The rules' number for an error of dbn's.
fn refusal(error: Error) -> String {
    let number = match error {
        Error::Utf8 => "4",
        Error::Conversion => "8",
        Error::BadArgument { param_name, desc } => match (param_name.as_str(), desc.split(' ').next().unwrap()) {
            ("start_ts", _) => "1",
            ("self", _) => "9",
            ("date", _) => "10",
            ("decoders" | "hints", _) => "12",
            ("mappings", _) => "7",
            ("additional", "version") => "6 1",
            ("additional", "dataset") => "6 2",
            ("additional", "stype_in") => "6 3",
            ("additional", "stype_out") => "6 4",
            ("additional", "ts_out") => "6 5",
            ("additional", "symbol_cstr_len") => "6 6",
            _ => panic!("an error without a number"),
        },
        Error::WrongType | Error::Damaged => panic!("an error without a number"),
    };
    number.to_owned()
}

/// Appends one answer to the line.
fn put(line: &mut String, answer: impl AsRef<str>) {
    if !line.is_empty() {
        line.push_str(" ; ");
    }
    line.push_str(answer.as_ref());
}

// The map over time.

/// Which word of an instrument's intervals is the private hint: the one that a lookup changes.
fn hint_place() -> usize {
    let mut map = TsSymbolMap::new();
    map.insert(0, 0, 1, "a").unwrap();
    map.insert(0, 1, 2, "b").unwrap();
    let place = words(&mut map, 0);
    // SAFETY: the words are the value's own; none is padding, since a vector and a hint fill all of them.
    let read = |i| unsafe { place.add(i).read_volatile() };
    let before: Vec<usize> = (0..WORDS).map(read).collect();
    map.get_for_ts(1, 0);
    (0..WORDS).find(|&i| read(i) != before[i]).expect("a hint")
}

const WORDS: usize = std::mem::size_of::<SymbolIntervals>() / std::mem::size_of::<usize>();

fn words(map: &mut TsSymbolMap, instrument: u32) -> *mut usize {
    map.inner_mut().get_mut(&instrument).expect("an instrument") as *mut SymbolIntervals as *mut usize
}

/// Looks a moment up from a hint: the symbol or `-`, then the new hint.
fn lookup(map: &mut TsSymbolMap, hint_at: usize, instrument: u32, moment: u64, hint: usize) -> String {
    if !map.inner().contains_key(&instrument) {
        assert!(map.get_for_ts(moment, instrument).is_none());
        return format!("- {hint}");
    }
    // SAFETY: the hint's word is any number.
    let place = unsafe { words(map, instrument).add(hint_at) };
    unsafe { place.write_volatile(hint) };
    let symbol = map.get_for_ts(moment, instrument).map_or("-", |symbol| symbol.as_str()).to_owned();
    let new_hint = unsafe { place.read_volatile() };
    unsafe { place.write_volatile(hint) };
    let record = Rec::Other(Other { instrument_id: instrument as u64, ts: moment });
    assert_eq!(map.get_for_rec(&RecordRef::new(&record)).map_or("-", |symbol| symbol.as_str()), symbol);
    format!("{symbol} {new_hint}")
}

/// The map's length, then its intervals by instrument and start, with what a symbol is printed as.
fn table(map: &TsSymbolMap, print: impl Fn(&str) -> String) -> String {
    let mut line = map.len().to_string();
    let mut instruments: Vec<_> = map.inner().iter().collect();
    instruments.sort_by_key(|(instrument, _)| **instrument);
    for (instrument, intervals) in instruments {
        for i in intervals.intervals() {
            write!(line, " {instrument} {} {} {}", i.start_ts, i.end_ts, print(&i.symbol)).unwrap();
        }
    }
    line
}

fn map(mut case: Case, hint_at: usize) -> String {
    let mut map = TsSymbolMap::new();
    let mut line = String::new();
    while let Some(step) = case.0.next() {
        let instrument = case.number();
        match step {
            "i" => {
                let (start, end) = (case.number(), case.number());
                let number = map.insert(instrument, start, end, case.word()).map_or_else(refusal, |_| "0".to_owned());
                put(&mut line, format!("{number} {}", table(&map, str::to_owned)));
            }
            "g" => {
                let (moment, hint) = (case.number(), case.number());
                put(&mut line, lookup(&mut map, hint_at, instrument, moment, hint));
            }
            "w" => {
                let (moments, hints): (u64, usize) = (case.number(), case.number());
                for moment in 0..moments {
                    for hint in (0..hints).chain([usize::MAX]) {
                        put(&mut line, lookup(&mut map, hint_at, instrument, moment, hint));
                    }
                }
            }
            _ => panic!("no such step: {step}"),
        }
    }
    line
}

// Mapping records.

fn hexadecimal(bytes: &[u8]) -> String {
    if bytes.is_empty() {
        return "-".to_owned();
    }
    bytes.iter().map(|byte| format!("{byte:02x}")).collect()
}

fn entries(map: &PitSymbolMap, print: impl Fn(&str) -> String) -> String {
    let mut line = map.len().to_string();
    let mut entries: Vec<_> = map.inner().iter().collect();
    entries.sort();
    for (instrument, symbol) in entries {
        assert_eq!(map.get(*instrument), Some(symbol));
        write!(line, " {instrument} {}", print(symbol)).unwrap();
    }
    line
}

fn mappings(mut case: Case) -> String {
    let (mut over_time, mut at_a_point) = (TsSymbolMap::new(), PitSymbolMap::new());
    let mut line = String::new();
    while let Some(kind) = case.0.next() {
        let instrument_id = case.number();
        let (start_ts, end_ts) = (case.number(), case.number());
        let mapping = SymbolMappingMsg { instrument_id, start_ts, end_ts, name: case.bytes() };
        let record = match kind {
            "m" => Rec::Mapping(mapping),
            "v" => Rec::MappingV1(v1::SymbolMappingMsg(mapping)),
            _ => Rec::Other(Other { instrument_id, ts: start_ts }),
        };
        let hex = |name: &str| hexadecimal(name.as_bytes());
        let number = over_time.on_record(RecordRef::new(&record)).map_or_else(refusal, |_| "0".to_owned());
        put(&mut line, format!("{number} {}", table(&over_time, hex)));
        let number = at_a_point.on_record(RecordRef::new(&record)).map_or_else(refusal, |_| "0".to_owned());
        put(&mut line, format!("{number} {}", entries(&at_a_point, hex)));
    }
    line
}

// Number text and days.

fn number(text: &[u8]) -> String {
    match std::str::from_utf8(text).ok().and_then(|text| text.parse::<u32>().ok()) {
        Some(number) => format!("0 {number}"),
        None => "8".to_owned(),
    }
}

fn calendar(yyyymmdd: u32) -> Option<Date> {
    let month = Month::try_from((yyyymmdd / 100 % 100) as u8).ok()?;
    Date::from_calendar_date((yyyymmdd / 10_000) as i32, month, (yyyymmdd % 100) as u8).ok()
}

fn epoch() -> Date {
    calendar(19_700_101).unwrap()
}

/// The day's number and its start.
fn day(yyyymmdd: u32) -> String {
    match calendar(yyyymmdd) {
        Some(date) => format!("0 {} {}", (date - epoch()).whole_days(), dbn::date_to_ts(date)),
        None => "11".to_owned(),
    }
}

fn date(day: i64) -> String {
    match epoch().checked_add(Duration::days(day)) {
        Some(date) => format!("0 {}", dbn::date_to_yyyymmdd(date)),
        None => "11".to_owned(),
    }
}

// Metadata.

/// A metadata in the words that it is read from, sets and mappings sorted by name number.
fn metadata(metadata: &Metadata, names: &[String]) -> String {
    let numbers: HashMap<&str, usize> = names.iter().enumerate().map(|(i, name)| (name.as_str(), i)).collect();
    let number = |name: &String| numbers[name.as_str()];
    let mut line = format!(
        "{} {} {} {} {} {} {} {} {} {}",
        metadata.version,
        number(&metadata.dataset),
        metadata.schema.map_or(65_535, |schema| schema.0),
        metadata.start,
        metadata.end.map_or(0, NonZeroU64::get),
        metadata.limit.map_or(0, NonZeroU64::get),
        metadata.stype_in.map_or(255, |stype| stype.0),
        metadata.stype_out.0,
        metadata.ts_out as u8,
        metadata.symbol_cstr_len
    );
    for set in [&metadata.symbols, &metadata.partial, &metadata.not_found] {
        let mut set: Vec<usize> = set.iter().map(number).collect();
        set.sort();
        write!(line, " {}", set.len()).unwrap();
        set.iter().for_each(|n| write!(line, " {n}").unwrap());
    }
    let mut mappings: Vec<&SymbolMapping> = metadata.mappings.iter().collect();
    mappings.sort_by_key(|mapping| number(&mapping.raw_symbol));
    write!(line, " {}", mappings.len()).unwrap();
    for mapping in mappings {
        write!(line, " {} {}", number(&mapping.raw_symbol), mapping.intervals.len()).unwrap();
        for i in &mapping.intervals {
            let [start, end] = [i.start_date, i.end_date].map(dbn::date_to_yyyymmdd);
            write!(line, " {start} {end} {}", number(&i.symbol)).unwrap();
        }
    }
    line
}

/// The first metadata with nothing merged in, then with one more merged in at a time, up to a refusal.
fn merged(mut case: Case) -> String {
    let names = case.names();
    let given: Vec<Metadata> = (0..case.number()).map(|_: usize| case.metadata(&names)).collect();
    let mut line = String::new();
    for count in 1..=given.len() {
        match given[0].clone().merge(given[1..count].iter().cloned()) {
            Ok(merged) => put(&mut line, format!("0 {}", metadata(&merged, &names))),
            Err(error) => {
                put(&mut line, refusal(error));
                break;
            }
        }
    }
    line
}

/// What a symbol of a build is printed as: the number of its name.
fn name_number(names: &[String]) -> impl Fn(&str) -> String + '_ {
    |symbol| names.iter().position(|name| name == symbol).expect("a name").to_string()
}

fn build(mut case: Case) -> String {
    let names = case.names();
    match case.metadata(&names).symbol_map() {
        Ok(map) => format!("0 {}", table(&map, name_number(&names))),
        Err(error) => refusal(error),
    }
}

fn build_day(mut case: Case) -> String {
    let day = calendar(case.number()).expect("a date");
    let names = case.names();
    match case.metadata(&names).symbol_map_for_date(day) {
        Ok(map) => format!("0 {}", entries(&map, name_number(&names))),
        Err(error) => refusal(error),
    }
}

/// The build over time from several metadata merged; its outcome may change from run to run.
fn build_merged(mut case: Case) -> String {
    let names = case.names();
    let mut given: Vec<Metadata> = (0..case.number()).map(|_: usize| case.metadata(&names)).collect();
    match given.remove(0).merge(given).and_then(|merged| merged.symbol_map()) {
        Ok(map) => format!("0 {}", table(&map, name_number(&names))),
        Err(error) => refusal(error),
    }
}

// Records.

/// A stream of records by their times, whose reads fail after the last where it is damaged.
struct Stream {
    records: Vec<Rec>,
    read: usize,
    damaged: bool,
    metadata: Metadata,
}

impl DecodeRecordRef<RecordHeader> for Stream {
    fn decode_record_ref(&mut self) -> dbn::Result<Option<RecordRef<'_>>> {
        if self.read < self.records.len() {
            self.read += 1;
            return Ok(self.last_record());
        }
        if self.damaged {
            return Err(Error::Damaged);
        }
        Ok(None)
    }
}

impl LastRecord<RecordHeader> for Stream {
    fn last_record(&self) -> Option<RecordRef<'_>> {
        self.read.checked_sub(1).map(|last| RecordRef::new(&self.records[last]))
    }
}

impl DbnMetadata for Stream {
    fn metadata(&self) -> &Metadata {
        &self.metadata
    }

    fn metadata_mut(&mut self) -> &mut Metadata {
        &mut self.metadata
    }
}

/// A stream: 1 where it is damaged, else 0; then its times. A record bears its stream and place as instrument.
fn stream(case: &mut Case, number: u64) -> Stream {
    let damaged = case.number::<u64>() == 1;
    let times: Vec<u64> = case.numbers();
    let record = |(place, ts)| Rec::Other(Other { instrument_id: number << 32 | place as u64, ts });
    Stream {
        records: times.into_iter().enumerate().map(record).collect(),
        read: 0,
        damaged,
        metadata: Metadata::builder().dataset("").schema(None).start(0).stype_in(None).stype_out(SType(0)).build(),
    }
}

/// Calls to the second end: `r stream place time`, `d` for an error, `e` for the end.
fn run(opened: dbn::Result<impl DecodeRecordRef<RecordHeader>>) -> String {
    let mut line = String::new();
    let mut merge = match opened {
        Ok(merge) => merge,
        Err(Error::Damaged) => return "refused".to_owned(),
        Err(error) => return refusal(error),
    };
    let mut ends = 0;
    while ends < 2 {
        match merge.decode_record_ref() {
            Ok(Some(rec)) => {
                let (stream, place) = (rec.instrument_id() >> 32, rec.instrument_id() & 0xffff_ffff);
                put(&mut line, format!("r {stream} {place} {}", rec.raw_index_ts()));
            }
            Ok(None) => {
                ends += 1;
                put(&mut line, "e");
            }
            Err(_) => put(&mut line, "d"),
        }
    }
    line
}

fn records(mut case: Case) -> String {
    let hints: Vec<u64> = case.numbers();
    let streams: Vec<Stream> = (0..case.number()).map(|number| stream(&mut case, number)).collect();
    if hints.is_empty() {
        run(merge::RecordDecoder::new(streams))
    } else {
        run(merge::RecordDecoder::with_hints(streams, hints))
    }
}

fn decoder(mut case: Case) -> String {
    let hints: Vec<u64> = case.numbers();
    let mut streams: Vec<Stream> = (0..case.number()).map(|number| stream(&mut case, number)).collect();
    for (stream, hint) in streams.iter_mut().zip(hints) {
        stream.metadata.start = hint;
    }
    run(merge::Decoder::new(streams))
}
