//! Looks addresses up in a section, as `linetab lookup` does:
//! lookup SECTION LINE_STR [--str FILE] [--dead ADDRESS] [--big] [--skip-copies] ADDRESS..
use linetab::Sections;
use std::error::Error;

fn number(word: &str) -> Result<u64, std::num::ParseIntError> {
    u64::from_str_radix(word.trim_start_matches("0x"), 16)
}

fn main() -> Result<(), Box<dyn Error>> {
    let words: Vec<String> = std::env::args().skip(1).collect();
    let [line, line_str, rest @ ..] = words.as_slice() else {
        return Err("usage: lookup SECTION LINE_STR [--str FILE] [--dead ADDRESS] [--big] [--skip-copies] ADDRESS..".into());
    };
    let (line, line_str, mut text) = (std::fs::read(line)?, std::fs::read(line_str)?, Vec::new());
    let mut sections = Sections { line: &line, line_str: &line_str, ..Sections::default() };
    let mut words = rest;
    while let [word, rest @ ..] = words {
        words = match (word.as_str(), rest) {
            ("--big", rest) => {
                sections.is_big = true;
                rest
            }
            ("--skip-copies", rest) => {
                sections.skip_copies = true;
                rest
            }
            ("--dead", [address, rest @ ..]) => {
                sections.dead = Some(number(address)?);
                rest
            }
            ("--str", [file, rest @ ..]) => {
                text = std::fs::read(file)?;
                rest
            }
            _ => break,
        };
    }
    sections.str = &text;
    let lines = sections.verify()?;
    sections.check(&sections.table(true)?)?;
    for word in words {
        let address = number(word)?;
        let Some(answer) = lines.lookup(address, 0) else {
            println!("0x{address:x},0 none");
            continue;
        };
        let path = sections.path(answer.unit, answer.file)?.unwrap_or_default();
        println!(
            "0x{address:x},0 unit {} file {} line {} column {} stmt {} path \"{}\"",
            answer.unit,
            answer.file,
            answer.line,
            answer.column,
            answer.is_stmt as u8,
            String::from_utf8_lossy(&path)
        );
    }
    Ok(())
}
