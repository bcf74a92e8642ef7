//! The paper's program over the baseline. `tests/program.py` holds what it prints, and what the proved
//! program prints, to a third one in Python.

use std::fmt::Write as _;
use std::fs::File;
use std::io::{self, Read, Write as _};
use std::os::fd::AsFd;

use baseline::{Fate, Record, Stop, Taken};

/// Bytes of standard input that are read, of the image, and sections that are taken at most. It is less than the
/// library takes together: an announcement of more is "new", and its blocks are 15 (02, §8).
const LIMIT: usize = 65_536;

fn main() {
    let stretch = input();
    // an output that is closed ends the program
    let _ = io::stdout().write_all(text(&stretch).as_bytes());
}

/// The first 65,536 bytes of standard input, past any buffer that would read on. A read that fails ends them.
fn input() -> Vec<u8> {
    let mut stretch = Vec::with_capacity(LIMIT);
    if let Ok(stdin) = io::stdin().as_fd().try_clone_to_owned() {
        let _ = File::from(stdin)
            .take(LIMIT as u64)
            .read_to_end(&mut stretch);
    }
    stretch
}

/// The header, a line for each section taken, and the stop.
fn text(stretch: &[u8]) -> String {
    let mut record = Record::empty();
    let mut image = vec![0; LIMIT];
    let mut out = String::from("index,answer,kind,place\n");
    let mut passed = 0;
    for index in 0.. {
        match record.take(&stretch[passed..], &mut image, LIMIT - index) {
            Taken::Stopped(stop) => {
                let _ = writeln!(out, "stop,{}", name(stop));
                break;
            }
            Taken::Section { length, fate } => {
                let (answer, kind, place) = answer(fate);
                let place = place.map_or_else(String::new, |place| place.to_string());
                let _ = writeln!(out, "{index},{answer},{kind},{place}");
                passed += length;
            }
        }
    }
    out
}

/// The number, the kind, and the place where there is one.
fn answer(fate: Fate) -> (u8, &'static str, Option<usize>) {
    match fate {
        Fate::Table => (0, "table", None),
        Fate::New => (0, "new", None),
        Fate::Same => (0, "same", None),
        Fate::Stored => (0, "stored", None),
        Fate::Repeated => (0, "repeated", None),
        Fate::Refused(refusal) => (refusal.number, "none", refusal.place),
    }
}

fn name(stop: Stop) -> &'static str {
    match stop {
        Stop::End => "end",
        Stop::Stuffing => "stuffing",
        Stop::Short => "short",
        Stop::Budget => "budget",
        Stop::State => "state",
    }
}
