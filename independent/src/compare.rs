//! Feeds inputs to a proved program and to the own evaluator, and compares the whole output text.

use crate::make::Made;
use crate::seen::{Seen, AGAIN, FAULTS, REFUSALS, RESULTS, SHORTEN, STEPS};
use crate::{admit, convert, edges, expand, figures, going, goings, listing, make, requests, rows, writer};
use std::io::{Read, Write};
use std::process::{Command, Stdio};
use std::sync::atomic::{AtomicBool, AtomicU64, Ordering};
use std::sync::Mutex;

/// One program to compare with: how its inputs are made, what is own output for one (with the result's number, where there is one),
/// and the names that must be seen often enough.
pub struct Mode {
    pub name: &'static str,
    pub make: fn(u64, u64) -> Made,
    pub own: fn(&[u8], &mut Seen) -> (String, Option<u8>),
    pub wanted: &'static [(&'static str, &'static [&'static str])],
}

pub const MODES: &[Mode] = &[
    Mode {
        name: "expand",
        make: make::make,
        own: expand::expand,
        wanted: &[
            ("steps", STEPS),
            ("results", RESULTS),
            ("faults by what was met", FAULTS),
            ("refusals by what asked", REFUSALS),
        ],
    },
    Mode {
        name: "edges",
        make: edges::make,
        own: edges::program,
        wanted: &[("steps", STEPS), ("refusals by what asked", REFUSALS), ("refusals at loading", edges::SEEN)],
    },
    Mode {
        name: "rows",
        make: rows::make,
        own: rows::program,
        wanted: &[
            ("steps", STEPS),
            ("results", rows::ROW_RESULTS),
            ("faults of a row", admit::ROW_FAULTS),
            ("of these", rows::SEEN),
            ("refusals by what asked", REFUSALS),
        ],
    },
    Mode {
        name: "goings",
        make: goings::make,
        own: goings::program,
        wanted: &[
            ("steps", STEPS),
            ("results", goings::RESULTS),
            ("refusals by what asked", REFUSALS),
            ("states that were refused", going::SEEN),
            ("goings", goings::SEEN),
        ],
    },
    Mode { name: "convert", make: convert::make, own: convert::program, wanted: &[("results", convert::SEEN)] },
    Mode { name: "listing", make: listing::make, own: listing::program, wanted: &[("results", listing::SEEN)] },
    Mode {
        name: "circle",
        make: listing::make,
        own: listing::circle_program,
        wanted: &[("results", listing::CIRCLE_SEEN)],
    },
    Mode {
        name: "listed",
        make: listing::make_table,
        own: listing::table_program,
        wanted: &[("results", listing::TABLE_SEEN)],
    },
    Mode {
        name: "writings",
        make: writer::make_table,
        own: writer::table_program,
        wanted: &[("results", writer::SEEN)],
    },
    Mode {
        name: "figured",
        make: figures::make_table,
        own: figures::table_program,
        wanted: &[("results", figures::SEEN)],
    },
];

pub struct Settings {
    pub mode: &'static Mode,
    /// The words put before the program's path, then the path.
    pub command: Vec<String>,
    pub seed: u64,
    pub count: u64,
    pub threads: usize,
    /// Where the input of a difference is written.
    pub keep: String,
    /// Goes on behind a difference, and counts them.
    pub go_on: bool,
}

struct Difference {
    number: u64,
    kind: &'static str,
    input: Vec<u8>,
    own: String,
    program: String,
}

/// What the program prints for an input; how it ended is shown where that is not success.
fn program_text(command: &[String], input: &[u8]) -> String {
    let started = Command::new(&command[0]).args(&command[1..]).stdin(Stdio::piped()).stdout(Stdio::piped()).spawn();
    let mut child = match started {
        Ok(child) => child,
        Err(error) => {
            eprintln!("cannot start {}: {error}", command[0]);
            std::process::exit(2);
        }
    };
    // Written beside the reading, as an output may fill a pipe. A program that stops reading early is judged by what it prints.
    let mut to_program = child.stdin.take().expect("a pipe");
    let mut printed = Vec::new();
    std::thread::scope(|scope| {
        scope.spawn(move || to_program.write_all(input));
        child.stdout.take().expect("a pipe").read_to_end(&mut printed).expect("the program's output");
    });
    let status = child.wait().expect("the program ends");
    let mut text = String::from_utf8_lossy(&printed).into_owned();
    if !status.success() {
        text.push_str(&format!("(ended with {status})\n"));
    }
    text
}

/// True if all outputs were the same and every kind was seen often enough.
pub fn compare(settings: &Settings) -> bool {
    let started = std::time::Instant::now();
    let next = AtomicU64::new(0);
    let stop = AtomicBool::new(false);
    let seen = Mutex::new(Seen::default());
    let kinds = Mutex::new(Seen::default());
    let differences: Mutex<Vec<Difference>> = Mutex::new(Vec::new());
    std::thread::scope(|scope| {
        for _ in 0..settings.threads {
            std::thread::Builder::new()
                .stack_size(crate::STACK)
                .spawn_scoped(scope, || {
                    let mut own_seen = Seen::default();
                    let mut own_kinds = Seen::default();
                    while !stop.load(Ordering::Relaxed) {
                        let number = next.fetch_add(1, Ordering::Relaxed);
                        if number >= settings.count {
                            break;
                        }
                        let made = (settings.mode.make)(settings.seed, number);
                        let (own, result) = (settings.mode.own)(&made.input, &mut own_seen);
                        own_kinds.note(made.kind);
                        // Numbers of 20 up are no faults of the bytes.
                        if made.sound && result.is_none_or(|number| (1..20).contains(&number)) {
                            eprintln!("input {number}, made as {}, should be admitted: {own}", made.kind);
                            std::process::exit(2);
                        }
                        let program = program_text(&settings.command, &made.input);
                        if own != program {
                            stop.store(!settings.go_on, Ordering::Relaxed);
                            let kind = made.kind;
                            let found = Difference { number, kind, input: made.input, own, program };
                            differences.lock().expect("no panic").push(found);
                        }
                    }
                    seen.lock().expect("no panic").add(&own_seen);
                    kinds.lock().expect("no panic").add(&own_kinds);
                })
                .expect("a thread");
        }
    });
    let mut differences = differences.into_inner().expect("no panic");
    differences.sort_by_key(|difference| difference.number);
    if let Some(difference) = differences.first() {
        for other in differences.iter().skip(1).take(9) {
            println!(
                "input {}, made as {}: own {}, program {}",
                other.number,
                other.kind,
                other.own.trim(),
                other.program.trim()
            );
        }
        show(settings, difference);
        println!("{} inputs differ", differences.len());
        return false;
    }
    report(settings, &seen.into_inner().expect("no panic"), &kinds.into_inner().expect("no panic"), started.elapsed())
}

fn show(settings: &Settings, difference: &Difference) {
    println!("DIFFERENCE at input {} of seed {}, made as {}", difference.number, settings.seed, difference.kind);
    println!("own evaluator:\n{}program:\n{}", difference.own, difference.program);
    match std::fs::write(&settings.keep, &difference.input) {
        Ok(()) => println!("input written to {}", settings.keep),
        Err(error) => println!("cannot write {}: {error}", settings.keep),
    }
}

/// Prints the counts; each expected one below 100 is marked.
fn report(settings: &Settings, seen: &Seen, kinds: &Seen, time: std::time::Duration) -> bool {
    const ENOUGH: u64 = 100;
    let mut few = false;
    println!("kinds of inputs:");
    for name in kinds.names() {
        println!("  {:>8} {name}", kinds.count(name));
    }
    let mut wanted = settings.mode.wanted.to_vec();
    if wanted.iter().any(|(title, _)| *title == "steps") {
        wanted.extend(requests::current().shorten.then_some(("shortened forwards (L7)", SHORTEN)));
        wanted.extend(requests::current().again.then_some(("nodes used again (L10)", AGAIN)));
    }
    for (title, names) in &wanted {
        println!("{title}:");
        for name in *names {
            let count = seen.count(name);
            let enough = count >= ENOUGH;
            println!("  {count:>8} {} {name}", if enough { "ok" } else { "FEW" });
            few |= !enough;
        }
    }
    let seconds = time.as_secs_f64();
    println!(
        "{} inputs of seed {}, all the same, in {seconds:.1} s ({:.2} s per 1,000){}",
        settings.count,
        settings.seed,
        1000.0 * seconds / settings.count.max(1) as f64,
        if few { "; some kinds were seen fewer than 100 times" } else { "" }
    );
    !few
}
