//! An index of the words of a text, in a store: under each word stand the number of the first line that has it, and how often
//! it stands there in all. Then the index is asked for one word, and for all words from one to another.
//!
//!     cargo run --example words INDEX < ../../examples/sonnet.txt        (in bindings/rust; INDEX is a new file)

use cola::{Options, Store};
use std::error::Error;
use std::io::{stdin, BufRead};

/// Counts one more of a word that stands in a line.
fn count_word(index: &mut Store, word: &str, line: usize) -> Result<(), Box<dyn Error>> {
    let (mut first, mut times) = (line, 0);
    if let Some(value) = index.get(word)? {
        let value = String::from_utf8(value)?;
        let (lines, counts) = value.split_once(',').ok_or("no count of a word")?;
        first = lines.trim_start_matches("line:").parse()?;
        times = counts.trim_start_matches("times:").parse()?;
    }
    index.put(word, format!("line:{first},times:{}", times + 1))?;
    Ok(())
}

fn show(index: &Store, word: &str) -> cola::Result<()> {
    match index.get(word)? {
        Some(value) => println!("val {}", String::from_utf8_lossy(&value)),
        None => println!("none"),
    }
    Ok(())
}

fn main() -> Result<(), Box<dyn Error>> {
    let path = std::env::args().nth(1).ok_or("words INDEX < TEXT")?;
    Store::create(&path, &Options { keys: 10_000, ..Options::default() })?;
    let mut index = Store::open(&path)?;
    for (at, line) in stdin().lock().lines().enumerate() {
        for word in line?.split(|c: char| !c.is_ascii_alphabetic()) {
            if !word.is_empty() && word.len() <= 24 {
                count_word(&mut index, &word.to_ascii_lowercase(), at + 1)?;
            }
        }
    }
    println!("{} words", index.count()?);
    show(&index, "summer")?;
    show(&index, "winter")?;
    let mut all = 0;
    for row in index.range("so".."su") {
        let (word, value) = row?;
        println!("row {} {}", String::from_utf8_lossy(&word), String::from_utf8_lossy(&value));
        all += 1;
    }
    println!("end {all}");
    index.close()?;
    Ok(())
}
