//! Records: a mapping of either version, or any other record.

use std::marker::PhantomData;

use crate::{compat::SymbolMappingRec, v1, Error, Result};

pub struct RecordHeader;

pub trait RecordHeaderKind: 'static {}

impl RecordHeaderKind for RecordHeader {}

pub trait Record {
    fn raw_index_ts(&self) -> u64;
    fn instrument_id(&self) -> u64;
}

pub trait HasRType: Record {
    type Header: RecordHeaderKind;
    fn within(rec: &Rec) -> Option<&Self>;
}

/// Any record.
pub enum Rec {
    Mapping(SymbolMappingMsg),
    MappingV1(v1::SymbolMappingMsg),
    Other(Other),
}

/// A record that is no mapping.
pub struct Other {
    pub instrument_id: u64,
    pub ts: u64,
}

/// A mapping record: the times as they stand in it, the name without a fixed width.
pub struct SymbolMappingMsg {
    pub instrument_id: u64,
    pub start_ts: u64,
    pub end_ts: u64,
    pub name: Vec<u8>,
}

pub struct RecordRef<'a, H = RecordHeader> {
    rec: &'a Rec,
    header: PhantomData<H>,
}

impl<'a, H: RecordHeaderKind> RecordRef<'a, H> {
    pub fn new(rec: &'a Rec) -> Self {
        Self { rec, header: PhantomData }
    }

    pub fn try_get<T: HasRType<Header = H>>(&self) -> Result<&'a T> {
        T::within(self.rec).ok_or(Error::WrongType)
    }
}

impl Record for RecordRef<'_> {
    fn raw_index_ts(&self) -> u64 {
        match self.rec {
            Rec::Mapping(rec) => rec.raw_index_ts(),
            Rec::MappingV1(rec) => rec.0.raw_index_ts(),
            Rec::Other(rec) => rec.ts,
        }
    }

    fn instrument_id(&self) -> u64 {
        match self.rec {
            Rec::Mapping(rec) => rec.instrument_id,
            Rec::MappingV1(rec) => rec.0.instrument_id,
            Rec::Other(rec) => rec.instrument_id,
        }
    }
}

impl Record for SymbolMappingMsg {
    fn raw_index_ts(&self) -> u64 {
        0
    }

    fn instrument_id(&self) -> u64 {
        self.instrument_id
    }
}

impl HasRType for SymbolMappingMsg {
    type Header = RecordHeader;

    fn within(rec: &Rec) -> Option<&Self> {
        match rec {
            Rec::Mapping(rec) => Some(rec),
            _ => None,
        }
    }
}

impl SymbolMappingRec for SymbolMappingMsg {
    fn stype_out_symbol(&self) -> Result<&str> {
        std::str::from_utf8(&self.name).map_err(|_| Error::Utf8)
    }

    fn start_ts(&self) -> Option<time::OffsetDateTime> {
        ts_to_dt(self.start_ts)
    }

    fn end_ts(&self) -> Option<time::OffsetDateTime> {
        ts_to_dt(self.end_ts)
    }
}

/// A time of 2^64 - 1 is a missing one.
fn ts_to_dt(ts: u64) -> Option<time::OffsetDateTime> {
    (ts != u64::MAX).then(|| time::OffsetDateTime::from_unix_timestamp_nanos(ts as i128).unwrap())
}

pub(crate) unsafe fn as_u8_slice<T>(value: &T) -> &[u8] {
    std::slice::from_raw_parts(value as *const T as *const u8, std::mem::size_of::<T>())
}
