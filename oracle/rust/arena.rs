//! Stands in for midly's own `arena.rs`, which is not among the texts, and holds the harness, which thereby
//! stands inside the crate and reaches what the crate keeps to itself.

use crate::prelude::*;

mod bank;
mod bends;
mod events;
mod header;
mod kinds;
mod listing;
mod lists;
mod numbers;
mod padding;
mod port;
mod random;
mod refusal;
mod reads;
mod report;
mod shrink;
mod sizes;
mod sounding;
mod strings;
mod vectors;
mod writing;

/// What `live.rs` asks of an arena, by leaking. No comparison comes here.
#[derive(Debug)]
pub struct Arena;

impl Arena {
    pub(crate) fn add(&self, bytes: &[u8]) -> &mut [u8] {
        self.add_vec(bytes.to_vec())
    }

    pub(crate) fn add_vec(&self, bytes: Vec<u8>) -> &mut [u8] {
        bytes.leak()
    }

    /// Compares one module of the port with this build of the Rust: MODULE [--full] [--seed N]; or lists standard
    /// input as the Rust reads it: list; or says what still sounds of it: sounds; or prints answers to be stored:
    /// vectors. Answers the exit status: 0 where nothing differs.
    pub fn compare(words: impl Iterator<Item = String>) -> i32 {
        let (mut module, mut full, mut seed) = (None, false, 1);
        let mut words = words;
        while let Some(word) = words.next() {
            match word.as_str() {
                "--full" => full = true,
                "--seed" => match words.next().and_then(|n| n.parse().ok()) {
                    Some(n) => seed = n,
                    None => return usage(),
                },
                _ if module.is_none() && !word.starts_with('-') => module = Some(word),
                _ => return usage(),
            }
        }
        let run = match module.as_deref() {
            Some("numbers") => numbers::run,
            Some("header") => header::run,
            Some("bends") => bends::run,
            Some("events") => events::run,
            Some("writing") => writing::run,
            Some("lists") => lists::run,
            Some("listing") => listing::run,
            Some("sounding") => sounding::run,
            Some("bank") => bank::run,
            Some("list") => return listing::list(),
            Some("sounds") => return sounding::sounds(),
            Some("vectors") => return vectors::print(),
            _ => return usage(),
        };
        let mode = if cfg!(feature = "strict") { "strict" } else { "lenient" };
        println!("{}, {}, seed {}{}", module.unwrap(), mode, seed, if full { ", full" } else { "" });
        let entries = run(random::Random::new(seed), full);
        let bad = entries.iter().filter(|entry| !entry.print()).count();
        let compared = entries.iter().map(|entry| entry.compared()).sum();
        let differ = entries.iter().map(|entry| entry.differ()).sum();
        println!("  in all: {} compared, {} differ", report::grouped(compared), report::grouped(differ));
        (bad > 0) as i32
    }
}

fn usage() -> i32 {
    eprintln!("usage: MODULE [--full] [--seed N], where MODULE is: numbers, header, bends, events, writing, lists, listing, sounding, bank; or: list; or: sounds; or: vectors");
    2
}
