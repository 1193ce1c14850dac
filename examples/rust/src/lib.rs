//! Line number sections of DWARF 5, judged and looked up by `liblinetab.a`: slices in, a `Result` out.
use std::error::Error;
use std::fmt;

mod heap;
mod raw;

pub use raw::{Answer, Span, Verdict};

/// The sections of a program, and how they are to be read.
#[derive(Clone, Copy, Debug, Default)]
pub struct Sections<'a> {
    /// `.debug_line`
    pub line: &'a [u8],
    /// `.debug_line_str`
    pub line_str: &'a [u8],
    /// `.debug_str`
    pub str: &'a [u8],
    /// The address at which the linker left discarded code, where it did.
    pub dead: Option<u64>,
    /// Whether the numbers of `.debug_line` are big-endian.
    pub is_big: bool,
    /// Whether of several sequences with the same first and last position the first alone counts.
    pub skip_copies: bool,
}

/// The spans of a good section, with their index.
#[derive(Clone, Debug)]
pub struct Lines {
    spans: Vec<Span>,
    index: Vec<u32>,
}

impl Sections<'_> {
    /// The lines of a good section, or what is wrong with it.
    pub fn verify(&self) -> Result<Lines, Verdict> {
        let spans = filled(Span::default(), |room, verdict| {
            // SAFETY: each pointer and length are those of one slice, and the room is borrowed by nobody else.
            unsafe { raw::linetab_verify(&self.raw(), room.as_mut_ptr(), room.len(), verdict) }
        })?;
        let mut index = vec![0; spans.len()];
        // SAFETY: as above.
        unsafe { raw::linetab_index(spans.as_ptr(), spans.len(), index.as_mut_ptr(), index.len()) };
        Ok(Lines { spans, index })
    }

    /// The whole path of a file, or none where the unit or the file isn't there.
    pub fn path(&self, unit: u64, file: u64) -> Result<Option<Vec<u8>>, Verdict> {
        let mut is_there = false;
        let path = filled(0, |room, verdict| {
            let mut count = 0;
            // SAFETY: as above.
            is_there = unsafe {
                raw::linetab_path(&self.raw(), unit, file, room.as_mut_ptr(), room.len(), &mut count, verdict)
            };
            count
        })?;
        Ok(is_there.then_some(path))
    }

    /// The one shortest address table that answers as the section does.
    pub fn table(&self, is_wide: bool) -> Result<Vec<u8>, Verdict> {
        filled(0, |room, verdict| {
            // SAFETY: as above.
            unsafe { raw::linetab_table(&self.raw(), is_wide, room.as_mut_ptr(), room.len(), verdict) }
        })
    }

    /// Whether an address table, of any version, answers as the section does; else the first thing that stands against it.
    pub fn check(&self, table: &[u8]) -> Result<(), Verdict> {
        let mut verdict = Verdict::default();
        // SAFETY: as above.
        unsafe { raw::linetab_check(&self.raw(), table.as_ptr(), table.len(), &mut verdict) };
        verdict.into_result()
    }

    /// The paths that the table and the section answer where a table by path answers otherwise (`path_version` isn't 0); else empty.
    pub fn differing_paths(&self, table: &[u8]) -> (Vec<u8>, Vec<u8>) {
        let (mut by_table, mut by_section) = (Vec::new(), Vec::new());
        for _ in 0..2 {
            let mut verdict = Verdict::default();
            // SAFETY: as above.
            unsafe {
                raw::linetab_check_paths(
                    &self.raw(),
                    table.as_ptr(),
                    table.len(),
                    by_table.as_mut_ptr(),
                    by_table.len(),
                    by_section.as_mut_ptr(),
                    by_section.len(),
                    &mut verdict,
                )
            };
            if verdict.path_version == 0 {
                return Default::default();
            }
            by_table.resize(verdict.index as usize, 0);
            by_section.resize(verdict.value as usize, 0);
        }
        (by_table, by_section)
    }

    fn raw(&self) -> raw::Section {
        raw::Section {
            line: self.line.as_ptr(),
            line_len: self.line.len(),
            line_str: self.line_str.as_ptr(),
            line_str_len: self.line_str.len(),
            str: self.str.as_ptr(),
            str_len: self.str.len(),
            dead: self.dead.unwrap_or(0),
            has_dead: self.dead.is_some(),
            is_big: self.is_big,
            skip_copies: self.skip_copies,
        }
    }
}

impl Lines {
    /// The answer at a position, where there is one.
    pub fn lookup(&self, address: u64, op: u64) -> Option<Answer> {
        let (spans, index) = (&self.spans, &self.index);
        let mut answer = Answer::default();
        // SAFETY: the spans are one slice, and so is the index. Nobody writes them while they are lent.
        let is_found = unsafe {
            raw::linetab_lookup_indexed(spans.as_ptr(), spans.len(), index.as_ptr(), index.len(), address, op, &mut answer)
        };
        is_found.then_some(answer)
    }

    /// The spans, in order.
    pub fn spans(&self) -> &[Span] {
        &self.spans
    }
}

// What a call puts into its room, which it is asked for twice: how much it is, and then for all.
fn filled<T: Clone>(empty: T, mut call: impl FnMut(&mut [T], &mut Verdict) -> usize) -> Result<Vec<T>, Verdict> {
    let mut verdict = Verdict::default();
    let mut room = vec![empty; call(&mut [], &mut verdict)];
    verdict.into_result()?;
    call(&mut room, &mut verdict);
    verdict.into_result()?;
    Ok(room)
}

impl Verdict {
    fn into_result(self) -> Result<(), Verdict> {
        if self.number == 0 { Ok(()) } else { Err(self) }
    }
}

impl fmt::Display for Verdict {
    fn fmt(&self, f: &mut fmt::Formatter<'_>) -> fmt::Result {
        match self.number {
            0 => write!(f, "yes"),
            33 => write!(f, "out of memory"),
            25 => write!(f, "no 25: no unit at 0x{:x} (detail {})", self.offset, self.detail),
            number @ 26..=32 => write!(f, "no {number} in the unit at 0x{:x} (index {})", self.offset, self.index),
            40 => write!(f, "no 40: the table differs at 0x{:x},{}", self.address, self.op),
            number => write!(f, "no {number} in record {} of the table", self.index),
        }
    }
}

impl Error for Verdict {}
