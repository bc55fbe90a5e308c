//! The crate `time`: Debian's, with the later name of a format item.

pub use debian_time::*;

pub mod format_description {
    pub use debian_time::format_description::*;

    pub type BorrowedFormatItem<'a> = FormatItem<'a>;
}
