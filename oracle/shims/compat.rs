//! The traits over versions that the symbol maps name.

use crate::{Record, Result};

pub trait SymbolMappingRec: Record {
    fn stype_out_symbol(&self) -> Result<&str>;
    fn start_ts(&self) -> Option<time::OffsetDateTime>;
    fn end_ts(&self) -> Option<time::OffsetDateTime>;
}

pub trait InstrumentDefRec: Record {
    fn raw_symbol(&self) -> Result<&str>;
}

pub const fn version_symbol_cstr_len(version: u8) -> usize {
    if version < 2 {
        22
    } else {
        71
    }
}
