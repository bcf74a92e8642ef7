//! The drift list: all its records in one pass, asked for by place, and written.

use std::hint::black_box;
use std::time::{Duration, Instant};

use baseline::drift as theirs;
use compare::lists::numbers_of;
use make::drift::{good, list, Fields};
use nebosvar::drift::{self as ours, DriftList, Row};

use crate::ROUNDS;

/// The records of a list that fills the programs' image, 65,536 bytes.
const FULL: usize = 5_461;
/// Those of a list whose records are asked for by place: each time all are judged.
const SHORT: usize = 500;
/// A list is gone through so often in a round.
const REPEATS: usize = 400;

/// Measures each call and prints its line, or tells what differed.
pub fn measure() -> Result<(), String> {
    println!("Drift lists: millions of records in a second. By place each record is asked for by itself, and the whole list judged each time.");
    println!(
        "{:<16}{:>10}{:>8}{:>12}{:>16}{:>8}",
        "call", "records", "bytes", "ours M/s", "baseline M/s", "times"
    );
    let records = good(FULL, 1);
    let full = list(7, FULL as u16, &records);
    line(
        "one pass",
        FULL,
        REPEATS,
        || pass(&full),
        || their_pass(&full),
    )?;
    line(
        "one walk",
        FULL,
        REPEATS,
        || walk(&full),
        || their_pass(&full),
    )?;
    let short = list(7, SHORT as u16, &records[..SHORT]);
    line(
        "by place",
        SHORT,
        4,
        || places(&short),
        || their_places(&short),
    )?;
    let (numbers, rows) = (numbers_of(&records), rows_of(&records));
    let (mut out, mut their_out) = (vec![0; full.len()], vec![0; full.len()]);
    let count = FULL as u32;
    line(
        "written",
        FULL,
        REPEATS,
        || ours::write(7, count, black_box(&rows), &mut out).ok(),
        || theirs::write(7, count, black_box(&numbers), &mut their_out).ok(),
    )?;
    if out != full || their_out != full {
        return Err("written: bytes differ".to_string());
    }
    Ok(())
}

/// Measures one call of both, in turn; they must answer the same.
fn line<T: PartialEq>(
    name: &str,
    records: usize,
    repeats: usize,
    mut ours: impl FnMut() -> Option<T>,
    mut theirs: impl FnMut() -> Option<T>,
) -> Result<(), String> {
    let (mut best, mut their_best) = (Duration::MAX, Duration::MAX);
    for _ in 0..ROUNDS {
        let answer = round(repeats, &mut best, &mut ours);
        let their_answer = round(repeats, &mut their_best, &mut theirs);
        if answer.is_none() || answer != their_answer {
            return Err(format!("{name}: answers differ, or are refusals"));
        }
    }
    let millions = (records * repeats) as f64 / 1e6;
    let (best, their_best) = (best.as_secs_f64(), their_best.as_secs_f64());
    println!(
        "{name:<16}{records:>10}{:>8}{:>12.2}{:>16.2}{:>8.2}",
        4 + 12 * records,
        millions / best,
        millions / their_best,
        best / their_best
    );
    Ok(())
}

/// One round; gives its last answer.
fn round<T>(
    repeats: usize,
    best: &mut Duration,
    call: &mut impl FnMut() -> Option<T>,
) -> Option<T> {
    let mut answer = None;
    let begin = Instant::now();
    for _ in 0..repeats {
        answer = black_box(call());
    }
    *best = begin.elapsed().min(*best);
    answer
}

/// All of a record goes into the sum, so that all of it must have been read.
fn sum(buoy: u32, state: u32, longitude: i32, latitude: i32, minute: u16) -> u64 {
    let place = (longitude as u64).wrapping_mul(3) ^ latitude as u64;
    place.wrapping_add(u64::from(buoy) << 20 ^ u64::from(state) << 14 ^ u64::from(minute))
}

fn our_sum(fix: ours::Fix) -> u64 {
    let (longitude, latitude) = (fix.longitude, fix.latitude);
    sum(fix.buoy, fix.state as u32, longitude, latitude, fix.minute)
}

fn their_sum(fix: theirs::Fix) -> u64 {
    let (longitude, latitude) = (fix.longitude, fix.latitude);
    sum(fix.buoy, fix.state as u32, longitude, latitude, fix.minute)
}

/// Judged, then walked.
fn pass(bytes: &[u8]) -> Option<u64> {
    let list = DriftList::read(black_box(bytes)).ok()?;
    let fixes = list.iter().map(our_sum);
    Some(fixes.fold(list.issue().into(), u64::wrapping_add))
}

/// Walked only, up to the refusal that says that there are no more.
fn walk(bytes: &[u8]) -> Option<u64> {
    let bytes = black_box(bytes);
    let mut all = u64::from(u16::from_be_bytes([bytes[0], bytes[1]]));
    for k in 0.. {
        match ours::walk_at(bytes, k) {
            Ok(fix) => all = all.wrapping_add(our_sum(fix)),
            Err(refusal) => return (refusal == nebosvar::Refusal::NO_PLACE).then_some(all),
        }
    }
    None
}

fn their_pass(bytes: &[u8]) -> Option<u64> {
    let mut all = 0;
    let add = |fix| all = u64::wrapping_add(all, their_sum(fix));
    let issue = theirs::for_each(black_box(bytes), add).ok()?;
    Some(all.wrapping_add(issue.into()))
}

fn places(bytes: &[u8]) -> Option<u64> {
    let sum = |k| ours::record_at(black_box(bytes), k).ok().map(our_sum);
    (0..SHORT).try_fold(0, |all, k| sum(k).map(|sum| u64::wrapping_add(all, sum)))
}

fn their_places(bytes: &[u8]) -> Option<u64> {
    let sum = |k| theirs::record_at(black_box(bytes), k).ok().map(their_sum);
    (0..SHORT).try_fold(0, |all, k| sum(k).map(|sum| u64::wrapping_add(all, sum)))
}

fn rows_of(records: &[Fields]) -> Vec<Row> {
    let row = |record: &Fields| Row {
        buoy: record.buoy as i32,
        state: record.state as i32,
        longitude: record.longitude,
        latitude: record.latitude,
        minute: record.minute as i32,
    };
    records.iter().map(row).collect()
}
