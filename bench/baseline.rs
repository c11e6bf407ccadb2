//! The yardstick of bench/mem.sh: a plain Rust program over `BTreeMap` that answers the lines `put`,
//! `get`, `del` and `count` as `cola mem N` does.
//!
//! Its words are `N` and, if wanted, `each`. With `N` alone it reads and writes 64 KiB at a time, as a
//! program over text usually does; with `each` it writes every reply by a call of its own before it
//! goes on.

use std::collections::BTreeMap;
use std::fs::File;
use std::io::{self, BufRead, BufReader, BufWriter, Write};
use std::os::fd::AsFd;

const LINE_LIMIT: usize = 160;
const KEY_LIMIT: usize = 24;
const VALUE_LIMIT: usize = 32;
const BUFFER: usize = 64 * 1024;

type Map = BTreeMap<Vec<u8>, Vec<u8>>;

fn is_key(word: &[u8]) -> bool {
    (1..=KEY_LIMIT).contains(&word.len())
}

fn put(
    map: &mut Map,
    limit: usize,
    key: &[u8],
    value: &[u8],
    out: &mut impl Write,
) -> io::Result<()> {
    if let Some(old) = map.get_mut(key) {
        out.write_all(b"old ")?;
        out.write_all(old)?;
        out.write_all(b"\n")?;
        old.clear();
        old.extend_from_slice(value);
        return Ok(());
    }
    if map.len() >= limit {
        return out.write_all(b"full\n");
    }
    map.insert(key.to_vec(), value.to_vec());
    out.write_all(b"new\n")
}

fn with_value(word: &[u8], value: Option<&[u8]>, out: &mut impl Write) -> io::Result<()> {
    match value {
        None => out.write_all(b"none\n"),
        Some(value) => {
            out.write_all(word)?;
            out.write_all(value)?;
            out.write_all(b"\n")
        }
    }
}

fn answer(map: &mut Map, limit: usize, line: &[u8], out: &mut impl Write) -> io::Result<()> {
    if line.len() > LINE_LIMIT || line.contains(&0) {
        return out.write_all(b"bad\n");
    }
    let line = line.strip_suffix(b"\r").unwrap_or(line);
    if line.is_empty() {
        return Ok(());
    }
    let mut words = line.split(|byte| *byte == b' ');
    match (words.next(), words.next(), words.next(), words.next()) {
        (Some(b"put"), Some(key), Some(value), None)
            if is_key(key) && value.len() <= VALUE_LIMIT =>
        {
            put(map, limit, key, value, out)
        }
        (Some(b"get"), Some(key), None, None) if is_key(key) => {
            with_value(b"val ", map.get(key).map(Vec::as_slice), out)
        }
        (Some(b"del"), Some(key), None, None) if is_key(key) => {
            with_value(b"gone ", map.remove(key).as_deref(), out)
        }
        (Some(b"count"), None, None, None) => writeln!(out, "count {}", map.len()),
        _ => out.write_all(b"bad\n"),
    }
}

fn main() -> io::Result<()> {
    let words: Vec<String> = std::env::args().skip(1).collect();
    let limit: usize = words[0].parse().expect("a number of keys");
    let writes_each = words.get(1).is_some_and(|word| word == "each");
    let mut input = BufReader::with_capacity(BUFFER, io::stdin().lock());
    // (a file over the same descriptor, since std's own standard output writes at every line feed)
    let stdout = File::from(io::stdout().as_fd().try_clone_to_owned()?);
    let mut out = BufWriter::with_capacity(BUFFER, stdout);
    let mut map = Map::new();
    let mut line = Vec::new();
    loop {
        line.clear();
        if input.read_until(b'\n', &mut line)? == 0 {
            return out.flush();
        }
        let text = line.strip_suffix(b"\n").unwrap_or(&line);
        answer(&mut map, limit, text, &mut out)?;
        if writes_each {
            out.flush()?;
        }
    }
}
