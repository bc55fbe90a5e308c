//! Lengths of an encoded metadata, which `metadata.rs` only hands on.

#[allow(dead_code)]
pub(crate) enum MetadataLengths {}
