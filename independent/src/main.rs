//! An evaluator of document 01 that shares nothing with `crates/`, and a comparison of the two.
//! README.md says how to run it.

mod admissions;
mod admit;
mod compare;
mod convert;
mod edges;
mod encode;
mod evaluator;
mod expand;
mod figures;
mod going;
mod goings;
mod jobs;
#[cfg(test)]
mod later;
mod lent;
mod listing;
mod make;
mod random;
mod requests;
mod rows;
mod seen;
mod shares;
mod sizes;
mod sorted;
mod special;
mod text;
#[cfg(test)]
mod worked;
mod writer;

use std::io::{Read, Write};

const DEFAULT_SEED: u64 = 1;
const DEFAULT_COUNT: u64 = 20_000;

const USAGE: &str = "usage:
  independent NAME                         standard input to standard output, as the program NAME:
                                           expand, convert, listing, circle; for whole tables: admissions,
                                           conversions, edges, goings, jobs, listed, rows, writings, figured
  independent make MODE SEED NUMBER        one input of a seed, to standard output
  independent compare MODE PROGRAM [--emulator CMD] [--seed S] [--count N] [--threads T] [--keep FILE] [--go-on]
where MODE is expand, edges, rows, goings, convert, listing, circle, listed, writings or figured;
with --requests 7, 10, 7,10 or none anywhere, runs have these of requests L7 and L10";

/// Shared parts nest some thousands deep, and reading, building and dropping them goes down with them.
const STACK: usize = 256 << 20;

fn main() {
    let worker = std::thread::Builder::new().stack_size(STACK).spawn(command).expect("a thread");
    if worker.join().is_err() {
        std::process::exit(2);
    }
}

/// All of standard input.
fn given() -> Vec<u8> {
    let mut input = Vec::new();
    std::io::stdin().read_to_end(&mut input).expect("standard input");
    input
}

fn command() {
    let mut words: Vec<String> = std::env::args().skip(1).collect();
    if let Some(place) = words.iter().position(|word| word == "--requests") {
        let named = words.get(place + 1).and_then(|word| requests::Requests::named(word));
        requests::set(named.unwrap_or_else(|| usage()));
        words.drain(place..place + 2);
    }
    match words.first().map(String::as_str) {
        Some("make") if words.len() == 4 => {
            let made = (mode(&words[1]).make)(number(&words[2]), number(&words[3]));
            eprintln!("made as {}", made.kind);
            std::io::stdout().write_all(&made.input).expect("standard output");
        }
        Some("compare") if words.len() >= 3 => {
            let settings = settings(mode(&words[1]), &words[2..]);
            std::process::exit(if compare::compare(&settings) { 0 } else { 1 });
        }
        Some("admissions") if words.len() == 1 => {
            print!("{}", admissions::admissions(&given()).expect("a whole table"))
        }
        Some("jobs") if words.len() == 1 => print!("{}", jobs::jobs(&given()).expect("a whole table")),
        Some("conversions") if words.len() == 1 => print!("{}", convert::table(&given()).expect("a whole table")),
        Some(name) if words.len() == 1 => print!("{}", (mode(name).own)(&given(), &mut seen::Seen::default()).0),
        _ => usage(),
    }
}

fn mode(name: &str) -> &'static compare::Mode {
    compare::MODES.iter().find(|mode| mode.name == name).unwrap_or_else(|| usage())
}

fn usage() -> ! {
    eprintln!("{USAGE}");
    std::process::exit(2);
}

fn number(word: &str) -> u64 {
    word.parse().unwrap_or_else(|_| usage())
}

fn settings(mode: &'static compare::Mode, words: &[String]) -> compare::Settings {
    let threads = std::thread::available_parallelism().map_or(1, |count| count.get());
    let keep = std::env::temp_dir().join("independent-difference.bin").to_string_lossy().into_owned();
    let mut settings = compare::Settings {
        mode,
        command: Vec::new(),
        seed: DEFAULT_SEED,
        count: DEFAULT_COUNT,
        threads,
        keep,
        go_on: false,
    };
    let mut program = None;
    let mut rest = words.iter();
    while let Some(word) = rest.next() {
        let mut value = || rest.next().cloned().unwrap_or_else(|| usage());
        match word.as_str() {
            "--emulator" => settings.command = value().split_whitespace().map(String::from).collect(),
            "--seed" => settings.seed = number(&value()),
            "--count" => settings.count = number(&value()),
            "--threads" => settings.threads = number(&value()).max(1) as usize,
            "--keep" => settings.keep = value(),
            "--go-on" => settings.go_on = true,
            _ if program.is_none() && !word.starts_with("--") => program = Some(word.clone()),
            _ => usage(),
        }
    }
    settings.command.push(program.unwrap_or_else(|| usage()));
    settings
}
