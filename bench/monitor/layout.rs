//! The state of the proved monitor, for its size alone: `Sheet` and `State` of `crates/follow/src/state.rt`, field by field. The library has no call that
//! tells it.

#![allow(dead_code)]

#[repr(C)]
struct Sheet {
    role_count: usize,
    rule_count: usize,
    names: [u64; 64],
    parents: [u8; 64],
    above: [u64; 64],
    rule_names: [u64; 32],
    ends: [u64; 32],
    rows: [u8; 4096],
}

#[repr(C)]
struct State {
    sheet: Sheet,
    positions: [u64; 32],
}

pub const STATE: usize = std::mem::size_of::<State>();
