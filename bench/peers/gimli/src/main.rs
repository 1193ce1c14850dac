//! rows_by_gimli SECTION: decodes all rows of a little-endian line number section with gimli, and prints sums over them.
use gimli::{DebugLine, DebugLineOffset, LittleEndian};

/// How many bytes the unit takes that begins here.
fn size_of_unit(bytes: &[u8]) -> Option<usize> {
    let length = u32::from_le_bytes(bytes.get(..4)?.try_into().ok()?);
    if length != u32::MAX {
        return Some(4 + length as usize);
    }
    let length = u64::from_le_bytes(bytes.get(4..12)?.try_into().ok()?);
    12usize.checked_add(length as usize)
}

fn main() -> Result<(), Box<dyn std::error::Error>> {
    let name = std::env::args().nth(1).ok_or("which section?")?;
    let bytes = std::fs::read(name)?;
    let section = DebugLine::new(&bytes, LittleEndian);
    let (mut units, mut rows, mut sequences) = (0u64, 0u64, 0u64);
    let (mut addresses, mut files, mut lines) = (0u64, 0u64, 0u64);
    let mut at = 0;
    while at < bytes.len() {
        let mut decoded = section.program(DebugLineOffset(at), 8, None, None)?.rows();
        units += 1;
        while let Some((_, row)) = decoded.next_row()? {
            rows += 1;
            sequences += u64::from(row.end_sequence());
            addresses = addresses.wrapping_add(row.address());
            files = files.wrapping_add(row.file_index());
            lines = lines.wrapping_add(row.line().map_or(0, |line| line.get()));
        }
        at += size_of_unit(&bytes[at..]).ok_or("a unit that is cut")?;
    }
    println!("units={units} rows={rows} sequences={sequences} addresses={addresses:#x} files={files} lines={lines}");
    Ok(())
}
