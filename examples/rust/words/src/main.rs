//! Counts the words of files, or of standard input, by threads.
//!
//!     words [FILE..]
//!
//! It prints how many words there are, how many different ones, and the ten that are most frequent.
//! Words of more than 64 bytes are left out.
use cuckoo_map::{Error, TextHandle};
use std::io::{self, Read};
use std::{env, fs, thread};

const THREADS: usize = 4;

/// Counts the words of a text.
fn count(text: &[u8], words: &mut TextHandle) -> Result<(), Error> {
    for word in text.split(u8::is_ascii_whitespace) {
        if !word.is_empty() && word.len() <= 64 {
            words.add(word, 1)?;
        }
    }
    Ok(())
}

/// A part of a text for each thread, which ends behind a word.
fn parts(mut text: &[u8]) -> Vec<&[u8]> {
    let mut parts = Vec::new();
    for left in (1..=THREADS).rev() {
        let least = text.len() / left;
        let more = text[least..].iter().position(u8::is_ascii_whitespace);
        let (part, rest) = text.split_at(more.map_or(text.len(), |more| least + more));
        parts.push(part);
        text = rest;
    }
    parts
}

fn read_all() -> io::Result<Vec<u8>> {
    let mut text = Vec::new();
    for name in env::args_os().skip(1) {
        text.extend(fs::read(name)?);
        text.push(b'\n');
    }
    if env::args_os().len() == 1 {
        io::stdin().read_to_end(&mut text)?;
    }
    Ok(text)
}

fn main() -> Result<(), Box<dyn std::error::Error>> {
    let text = read_all()?;
    let mut handles = TextHandle::open(1000, THREADS as u32 + 1)?;
    let mut last = handles.pop().ok_or("no handle")?;
    thread::scope(|scope| {
        let counts: Vec<_> = handles
            .into_iter()
            .zip(parts(&text))
            .map(|(mut handle, part)| scope.spawn(move || count(part, &mut handle)))
            .collect();
        counts
            .into_iter()
            .try_for_each(|one| one.join().expect("a thread ends"))
    })?;

    let mut all: Vec<(Vec<u8>, u64)> = last.drain()?.collect();
    let sum: u64 = all.iter().map(|(_, times)| times).sum();
    println!("{sum} words, {} different", all.len());
    // The pairs come in the order of the words, in which equally frequent ones stay.
    all.sort_by_key(|(_, times)| std::cmp::Reverse(*times));
    for (word, times) in all.iter().take(10) {
        println!("{times} {}", String::from_utf8_lossy(word));
    }
    Ok(())
}
