//! Stand-ins for what dbn's `symbol_map`, `metadata` and `decode::merge` name and what is not at hand
//! (`lib.rs`, `error.rs`, `decode.rs`, `compat/traits.rs`, the record types and the layouts). Own work.
//! A type that those modules only mention has no values here.

pub mod compat;
pub mod decode;
pub mod layout;
mod metadata;
pub mod record;
mod symbol_map;
pub mod v1;
pub mod v4;

pub use metadata::{MappingInterval, Metadata, SymbolMapping};
pub use record::{HasRType, Rec, Record, RecordHeader, RecordHeaderKind, RecordRef, SymbolMappingMsg};
pub use symbol_map::{PitSymbolMap, SymbolIndex, SymbolIntervals, TsSymbolMap};

pub const DBN_VERSION: u8 = 3;

#[derive(Debug)]
pub enum Error {
    BadArgument { param_name: String, desc: String },
    Conversion,
    Utf8,
    WrongType,
    Damaged,
}

impl Error {
    pub fn conversion<T>(_input: impl ToString) -> Self {
        Self::Conversion
    }
}

pub type Result<T> = std::result::Result<T, Error>;

/// A symbology type by its number.
#[derive(Debug, Clone, Copy, PartialEq, Eq)]
pub struct SType(pub u8);

#[allow(non_upper_case_globals)]
impl SType {
    pub const InstrumentId: Self = Self(0);
}

/// A schema by its number.
#[derive(Debug, Clone, Copy, PartialEq, Eq)]
pub struct Schema(pub u16);

pub enum VersionUpgradePolicy {}

impl VersionUpgradePolicy {
    pub fn is_upgrade_situation(&self, _version: u8) -> bool {
        match *self {}
    }

    pub fn output_version(&self, _version: u8) -> u8 {
        match *self {}
    }
}

/// dbn's `symbol_map::date_to_ts`, which is private to its crate.
pub fn date_to_ts(date: time::Date) -> u64 {
    symbol_map::date_to_ts(date)
}

/// dbn's `metadata::date_to_yyyymmdd`, which is private to its crate.
pub fn date_to_yyyymmdd(date: time::Date) -> u32 {
    metadata::date_to_yyyymmdd(date)
}
