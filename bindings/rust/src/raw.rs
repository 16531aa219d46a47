//! The library's own declarations, as `teddertempo.h` has them. Only the sizes below are compared with the header, by hand.

use std::mem::size_of;
use std::os::raw::c_char;

/// A bit for each rule.
pub type Rules = [u64; 16];

/// Fields of later versions: 0.
pub type Reserved = [u64; 8];

#[repr(C)]
#[derive(Clone, Debug, Default, PartialEq, Eq)]
pub struct Options {
    pub seed: u64,
    pub rules: Rules,
    pub only: u64,
    pub count: u64,
    pub growth: u64,
    pub percent: u64,
    pub flags: u64,
    pub reserved: Reserved,
}

#[repr(C)]
#[derive(Clone, Debug, Default, PartialEq, Eq)]
pub struct ChangeOptions {
    pub seed: u64,
    pub changes: u64,
    pub only: u64,
    pub count: u64,
    pub growth: u64,
    pub flags: u64,
    pub reserved: Reserved,
}

#[repr(C)]
#[derive(Clone, Debug, Default, PartialEq, Eq)]
pub struct Place {
    pub change: u64,
    pub function: u64,
    pub first: u64,
    pub end: u64,
    pub growth: u64,
    pub flags: u64,
    pub reserved: Reserved,
}

#[repr(C)]
#[derive(Clone, Copy, Default)]
pub struct Site {
    pub function: u64,
    pub operator_index: u64,
    pub change: u64,
}

#[repr(C)]
#[derive(Default)]
pub struct Report {
    pub outcome: u32,
    pub kind: u32,
    pub function: u64,
    pub made: u64,
    pub offset: u64,
    pub reserved: Reserved,
}

const _: () = assert!(size_of::<Options>() == 240 && size_of::<Report>() == 96);
const _: () = assert!(size_of::<ChangeOptions>() == 112 && size_of::<Place>() == 112);

/// The flags.
pub const EXACT: u64 = 1;
pub const SHRINK: u64 = 2;
pub const NO_GROWTH: u64 = 4;

extern "C" {
    pub fn teddertempo_rewrite_with(
        data: *mut u8,
        size: usize,
        max_size: usize,
        options: *const Options,
        report: *mut Report,
    ) -> usize;
    pub fn teddertempo_either(
        data: *mut u8,
        size: usize,
        max_size: usize,
        seed: u64,
        keep: u32,
    ) -> usize;
    pub fn teddertempo_splice(
        data: *mut u8,
        size: usize,
        max_size: usize,
        other: *const u8,
        other_size: usize,
        seed: u64,
    ) -> usize;
    pub fn teddertempo_change_with(
        data: *mut u8,
        size: usize,
        max_size: usize,
        options: *const ChangeOptions,
        report: *mut Report,
    ) -> usize;
    pub fn teddertempo_change_at(
        data: *mut u8,
        size: usize,
        max_size: usize,
        place: *const Place,
        report: *mut Report,
    ) -> usize;
    pub fn teddertempo_sites(
        data: *const u8,
        size: usize,
        options: *const ChangeOptions,
        sites: *mut Site,
        room: usize,
        report: *mut Report,
    ) -> usize;
    pub fn teddertempo_strip(data: *mut u8, size: usize) -> usize;
    pub fn teddertempo_version() -> u32;
    pub fn teddertempo_rule_count() -> u64;
    pub fn teddertempo_rule_name(rule: u32, name: *mut c_char, room: usize) -> usize;
    pub fn teddertempo_change_name(change: u32, name: *mut c_char, room: usize) -> usize;
    pub fn teddertempo_rule_number(name: *const c_char, length: usize) -> u64;
}

#[cfg(test)]
mod tests {
    use super::*;

    #[test]
    fn other_bytes_name_no_rule() {
        for name in [&b""[..], b"commut", b"commute\0", b"\xff", b"\xc3\xa9"] {
            // SAFETY: the declaration is the header's. The pointer is that of the bytes, whose length is passed.
            let number = unsafe { teddertempo_rule_number(name.as_ptr().cast(), name.len()) };
            assert_eq!(number, u64::MAX);
        }
    }
}
