//! What `metadata.rs` names of version 4.

pub const DBN_VERSION: u8 = 4;

pub mod layouts {
    use crate::layout::StreamLayout;

    pub fn default_layout() -> &'static StreamLayout {
        unreachable!("a layout has no values")
    }
}
