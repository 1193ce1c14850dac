//! What `linetab.h` declares.

#[repr(C)]
pub(crate) struct Section {
    pub line: *const u8,
    pub line_len: usize,
    pub line_str: *const u8,
    pub line_str_len: usize,
    pub str: *const u8,
    pub str_len: usize,
    pub dead: u64,
    pub has_dead: bool,
    pub is_big: bool,
    pub skip_copies: bool,
}

/// What is answered at a position.
#[repr(C)]
#[derive(Clone, Copy, Debug, Default, PartialEq, Eq)]
pub struct Answer {
    pub unit: u64,
    pub file: u64,
    pub line: u64,
    pub column: u64,
    pub isa: u64,
    pub discriminator: u64,
    pub is_stmt: bool,
    pub is_wide: bool,
}

/// Positions with one answer, from `low` up to `high`, which is not among them.
#[repr(C)]
#[derive(Clone, Copy, Debug, Default, PartialEq, Eq)]
pub struct Span {
    pub low: u64,
    pub low_op: u64,
    pub high: u64,
    pub high_op: u64,
    pub answer: Answer,
}

/// What was found. `linetab.h` says of each number which fields tell what.
#[repr(C)]
#[derive(Clone, Copy, Debug, Default, PartialEq, Eq)]
pub struct Verdict {
    pub number: u32,
    pub detail: u32,
    pub offset: u64,
    pub index: u64,
    pub value: u64,
    pub other_offset: u64,
    pub other_index: u64,
    pub address: u64,
    pub op: u64,
    pub table_answers: bool,
    pub section_answers: bool,
    pub path_version: u32,
    pub by_table: Answer,
    pub by_section: Answer,
}

const _: () = assert!(size_of::<Section>() == 64 && size_of::<Span>() == 88 && size_of::<Verdict>() == 184);

use std::mem::size_of;

extern "C" {
    pub(crate) fn linetab_verify(section: &Section, spans: *mut Span, len: usize, verdict: &mut Verdict) -> usize;
    pub(crate) fn linetab_index(spans: *const Span, len: usize, index: *mut u32, index_len: usize);
    pub(crate) fn linetab_lookup_indexed(
        spans: *const Span,
        len: usize,
        index: *const u32,
        index_len: usize,
        address: u64,
        op: u64,
        answer: &mut Answer,
    ) -> bool;
    pub(crate) fn linetab_path(
        section: &Section,
        unit: u64,
        file: u64,
        path: *mut u8,
        len: usize,
        count: &mut usize,
        verdict: &mut Verdict,
    ) -> bool;
    pub(crate) fn linetab_table(
        section: &Section,
        is_wide: bool,
        room: *mut u8,
        len: usize,
        verdict: &mut Verdict,
    ) -> usize;
    pub(crate) fn linetab_check(section: &Section, table: *const u8, len: usize, verdict: &mut Verdict);
    pub(crate) fn linetab_check_paths(
        section: &Section,
        table: *const u8,
        len: usize,
        by_table: *mut u8,
        by_table_len: usize,
        by_section: *mut u8,
        by_section_len: usize,
        verdict: &mut Verdict,
    );
}
