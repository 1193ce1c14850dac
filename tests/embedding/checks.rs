//! A section checked against tables by path, and what is told printed as the program prints it: checks SECTION LINE_STR TABLE..
use linetab::{Answer, Sections, Verdict};
use std::error::Error;
use std::fs::read;

fn told(verdict: &Verdict, answers: bool, answer: &Answer, path: &[u8]) -> String {
    let text = format!("\"{}\",{}", String::from_utf8_lossy(path), answer.line);
    match (answers, verdict.path_version) {
        (false, _) => "none".into(),
        (true, 3) => format!("{text},{}", answer.column),
        (true, _) => text,
    }
}

fn main() -> Result<(), Box<dyn Error>> {
    let words: Vec<String> = std::env::args().skip(1).collect();
    let [line, line_str, tables @ ..] = words.as_slice() else {
        return Err("usage: checks SECTION LINE_STR TABLE..".into());
    };
    let (line, line_str) = (read(line)?, read(line_str)?);
    let sections = Sections { line: &line, line_str: &line_str, ..Sections::default() };
    for table in tables {
        let table = read(table)?;
        let Err(verdict) = sections.check(&table) else {
            println!("yes");
            continue;
        };
        let (by_table, by_section) = sections.differing_paths(&table);
        let first = told(&verdict, verdict.table_answers, &verdict.by_table, &by_table);
        let second = told(&verdict, verdict.section_answers, &verdict.by_section, &by_section);
        println!("no {} differs at 0x{:x},{} table {first} section {second}", verdict.number, verdict.address, verdict.op);
    }
    Ok(())
}
