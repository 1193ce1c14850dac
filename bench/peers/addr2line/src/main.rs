//! Lookups by the crate addr2line, for bench/embedding: a Context is made once, and then addresses are looked up by
//! find_location: lookups_by_addr2line FOLDER ADDRESSES
//!
//! FOLDER has the files line, line_str, str, info, abbrev and rnglists. It prints the nanoseconds of processor time of a lookup,
//! over PASSES passes after one that isn't counted, in which the line programs are run, and a sum of the answers.
use addr2line::Context;
use gimli::{Dwarf, EndianSlice, LittleEndian, SectionId};

const PASSES: u32 = 5;

type Reader = EndianSlice<'static, LittleEndian>;

fn bytes_of(name: &str) -> &'static [u8] {
    std::fs::read(name).unwrap_or_default().leak()
}

fn pass(context: &Context<Reader>, addresses: &[u64]) -> u64 {
    let mut sum = 0u64;
    for &address in addresses {
        if let Some(found) = context.find_location(address).expect("a location") {
            let (line, column) = (found.line.unwrap_or(0), found.column.unwrap_or(0));
            std::hint::black_box(found.file);
            sum = sum.wrapping_add(u64::from(line) * 31 + u64::from(column));
        }
    }
    sum
}

#[repr(C)]
struct Time {
    seconds: i64,
    nanoseconds: i64,
}

extern "C" {
    fn clock_gettime(clock: i32, at: *mut Time) -> i32;
}

fn processor_seconds() -> f64 {
    let mut at = Time { seconds: 0, nanoseconds: 0 };
    // CLOCK_PROCESS_CPUTIME_ID
    unsafe { clock_gettime(2, &mut at) };
    at.seconds as f64 + at.nanoseconds as f64 / 1e9
}

fn main() {
    let words: Vec<String> = std::env::args().collect();
    let folder = &words[1];
    let load = |id: SectionId| -> Result<Reader, gimli::Error> {
        let name = id.name().trim_start_matches(".debug_");
        Ok(EndianSlice::new(bytes_of(&format!("{folder}/{name}")), LittleEndian))
    };
    let context = Context::from_dwarf(Dwarf::load(load).expect("sections")).expect("units");
    let addresses: Vec<u64> =
        bytes_of(&words[2]).chunks_exact(8).map(|it| u64::from_le_bytes(it.try_into().unwrap())).collect();
    let sum = pass(&context, &addresses);
    let start = processor_seconds();
    for _ in 0..PASSES {
        assert_eq!(pass(&context, &addresses), sum);
    }
    let each = (processor_seconds() - start) * 1e9 / f64::from(PASSES) / addresses.len() as f64;
    println!("{each:.2} {sum}");
}
