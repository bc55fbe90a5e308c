//! Layouts, which version 4 alone has.

#[derive(Debug, Clone, PartialEq, Eq)]
pub enum StreamLayout {}

pub enum LayoutIndex {}

impl LayoutIndex {
    pub fn new(layout: &StreamLayout, _default: &StreamLayout) -> Self {
        match *layout {}
    }
}

pub fn upgrade_layout(_ts_out: bool) -> StreamLayout {
    unreachable!("an upgrade policy has no values")
}
