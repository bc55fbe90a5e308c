//! The mapping record of version 1, which differs from the later one in its width alone.

use crate::{compat::SymbolMappingRec, HasRType, Rec, Record, RecordHeader, Result};

pub struct SymbolMappingMsg(pub crate::SymbolMappingMsg);

impl Record for SymbolMappingMsg {
    fn raw_index_ts(&self) -> u64 {
        self.0.raw_index_ts()
    }

    fn instrument_id(&self) -> u64 {
        self.0.instrument_id
    }
}

impl HasRType for SymbolMappingMsg {
    type Header = RecordHeader;

    fn within(rec: &Rec) -> Option<&Self> {
        match rec {
            Rec::MappingV1(rec) => Some(rec),
            _ => None,
        }
    }
}

impl SymbolMappingRec for SymbolMappingMsg {
    fn stype_out_symbol(&self) -> Result<&str> {
        self.0.stype_out_symbol()
    }

    fn start_ts(&self) -> Option<time::OffsetDateTime> {
        self.0.start_ts()
    }

    fn end_ts(&self) -> Option<time::OffsetDateTime> {
        self.0.end_ts()
    }
}
