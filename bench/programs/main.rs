use std::collections::HashMap;
use std::fmt;

#[derive(Debug)]
enum Odd {
    Empty,
    NoNumber(String),
}

impl fmt::Display for Odd {
    fn fmt(&self, f: &mut fmt::Formatter<'_>) -> fmt::Result {
        match self {
            Odd::Empty => write!(f, "empty"),
            Odd::NoNumber(text) => write!(f, "no number: {text}"),
        }
    }
}

fn parse(text: &str) -> Result<u64, Odd> {
    if text.is_empty() {
        return Err(Odd::Empty);
    }
    text.parse().map_err(|_| Odd::NoNumber(text.to_string()))
}

fn most<T: Ord + Copy>(all: &[T]) -> Option<T> {
    all.iter().copied().max()
}

fn main() {
    let mut counts: HashMap<u64, usize> = HashMap::new();
    let mut all = Vec::new();
    for word in std::env::args().skip(1) {
        match parse(&word) {
            Ok(number) => {
                *counts.entry(number % 7).or_default() += 1;
                all.push(number);
            }
            Err(odd) => eprintln!("{odd}"),
        }
    }
    all.sort_by(|a, b| b.cmp(a));
    println!("{:?} {:?} {:?}", most(&all), counts, all);
}
