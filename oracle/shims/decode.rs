//! The traits of decoders that the record merge is written over.

pub mod merge;

use crate::{HasRType, Metadata, RecordHeaderKind, RecordRef, Result};

pub trait DbnMetadata {
    fn metadata(&self) -> &Metadata;
    fn metadata_mut(&mut self) -> &mut Metadata;
}

pub trait DecodeRecordRef<H: RecordHeaderKind> {
    fn decode_record_ref(&mut self) -> Result<Option<RecordRef<'_, H>>>;
}

pub trait DecodeRecord<H: RecordHeaderKind> {
    fn decode_record<T: HasRType<Header = H>>(&mut self) -> Result<Option<&T>>;
}

pub trait DecodeStream<H: RecordHeaderKind> {
    fn decode_stream<T: HasRType<Header = H>>(self) -> StreamIterDecoder<Self, T>
    where
        Self: Sized;
}

pub struct StreamIterDecoder<D, T>(D, std::marker::PhantomData<T>);

impl<D, T> StreamIterDecoder<D, T> {
    pub fn new(decoder: D) -> Self {
        Self(decoder, std::marker::PhantomData)
    }
}

pub mod private {
    use crate::{RecordHeaderKind, RecordRef};

    pub trait LastRecord<H: RecordHeaderKind> {
        fn last_record(&self) -> Option<RecordRef<'_, H>>;
    }
}
