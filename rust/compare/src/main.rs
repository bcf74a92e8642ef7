//! `compare [STRETCHES [SEED]]`: both receivers at every limit, over so many made stretches and over stretches of many new
//! announcements, a fourth as many and some, both readers and writers of drift lists
//! over so many made lists besides those at the bounds, both players over a fourth as many announcements besides those at
//! the limits, and what takes and writes transport packets over half as many streams. It ends with 1 at a
//! difference, and when an answer came too rarely for the comparison to mean much.

use std::process::ExitCode;

use compare::counts::Counts;
use compare::{lists, packets, plays, threads};

const STRETCHES: u64 = 20_000;
const SEED: u64 = 0x4E65_626F_7376_6172;
/// Each answer must have come so often, in a run over at least [`STRETCHES`].
const LEAST: u64 = 100;
/// Each limit must have been reached so often in such a run.
const LEAST_OF_LIMITS: u64 = 50;
/// The cases at the limits, which are always the same, must have reached each so often.
const LEAST_AT_BOUNDS: u64 = 10;
/// What new announcements keep, move, empty and drop must have come so often in such a run, and in any run once; so must what comes of
/// whole modules.
const LEAST_OF_KEPT: u64 = 100;
/// Of so many stretches one is of many new announcements, besides so many.
const STRETCHES_OF_RENEWALS: u64 = 4;
const RENEWALS: u64 = 400;
/// The same of drift lists.
const LEAST_OF_LISTS: u64 = 300;
/// The same of the player's answers and of its limits.
const LEAST_OF_PLAYS: u64 = 50;
/// The same of packets.
const LEAST_OF_PACKETS: u64 = 100;
/// Of so many stretches one stream of packets is made.
const STRETCHES_OF_A_STREAM: u64 = 2;
/// Of so many stretches one announcement is played: each is written into a hundred buffers.
const STRETCHES_OF_A_PLAY: u64 = 4;

fn main() -> ExitCode {
    let mut arguments = std::env::args().skip(1).map(|text| text.parse::<u64>());
    let stretches = arguments.next().unwrap_or(Ok(STRETCHES));
    let seed = arguments.next().unwrap_or(Ok(SEED));
    let (Ok(stretches), Ok(seed)) = (stretches, seed) else {
        eprintln!("usage: compare [STRETCHES [SEED]], both decimal");
        return ExitCode::from(2);
    };
    println!("compare: {stretches} stretches, seed {seed}");
    let done = threads::compare_bounds(seed)
        .and_then(|(cases, counts)| conclude_bounds(cases, &counts))
        .and_then(|()| threads::compare(seed, stretches))
        .and_then(|counts| conclude(&counts, stretches))
        .and_then(|()| threads::compare_renewals(seed, renewals(stretches)))
        .and_then(|counts| conclude_renewals(&counts, stretches))
        .and_then(|()| lists::compare(seed, stretches))
        .and_then(|counts| conclude_lists(&counts, stretches))
        .and_then(|()| plays::compare(seed, stretches / STRETCHES_OF_A_PLAY))
        .and_then(|counts| conclude_plays(&counts, stretches))
        .and_then(|()| packets::compare(seed, stretches / STRETCHES_OF_A_STREAM))
        .and_then(|counts| conclude_packets(&counts, stretches));
    match done {
        Ok(()) => ExitCode::SUCCESS,
        Err(told) => {
            println!("{told}");
            ExitCode::FAILURE
        }
    }
}

/// Tells which limits were reached.
fn conclude_bounds(cases: u64, counts: &Counts) -> Result<(), String> {
    println!("at the limits: {}", counts.told_limits());
    few(LEAST_AT_BOUNDS, &counts.rare_limits(LEAST_AT_BOUNDS))?;
    let [ends, begins] = counts.fenced;
    println!("compare: all that is lent ends at a page that may not be touched in {ends} cases at the limits, and begins after one in {begins}");
    let sections = counts.sections;
    println!("compare: {cases} cases at the limits, {sections} sections, 0 differences");
    Ok(())
}

/// Tells what was reached. A short run need not reach everything.
fn conclude(counts: &Counts, stretches: u64) -> Result<(), String> {
    println!("{counts}");
    enough(stretches, LEAST, &counts.rare(LEAST))?;
    let rare = counts.rare_limits(LEAST_OF_LIMITS);
    enough(stretches, LEAST_OF_LIMITS, &rare)?;
    let [ends, begins] = counts.fenced;
    println!("compare: all that is lent ends at a page that may not be touched in {ends} stretches, and begins after one in {begins}");
    let sections = counts.sections;
    println!("compare: {stretches} stretches, {sections} sections, 0 differences");
    Ok(())
}

/// How many stretches are of many new announcements.
fn renewals(stretches: u64) -> u64 {
    RENEWALS + stretches / STRETCHES_OF_RENEWALS
}

/// Tells what new announcements kept, and what came of whole modules. Also a short run must have seen all of it.
fn conclude_renewals(counts: &Counts, stretches: u64) -> Result<(), String> {
    println!("announcements: {}", counts.told_kept());
    few(1, &counts.rare_kept(1))?;
    enough(stretches, LEAST_OF_KEPT, &counts.rare_kept(LEAST_OF_KEPT))?;
    println!("whole: {}", counts.told_whole());
    few(1, &counts.rare_whole(1))?;
    enough(stretches, LEAST_OF_KEPT, &counts.rare_whole(LEAST_OF_KEPT))?;
    let [ends, begins] = counts.fenced;
    println!("compare: all that is lent ends at a page that may not be touched in {ends} stretches of new announcements, and begins after one in {begins}");
    let (sections, renewals) = (counts.sections, renewals(stretches));
    println!(
        "compare: {renewals} stretches of new announcements, {sections} sections, 0 differences"
    );
    Ok(())
}

/// The same of drift lists.
fn conclude_lists(counts: &lists::counts::Counts, stretches: u64) -> Result<(), String> {
    println!("{counts}");
    enough(stretches, LEAST_OF_LISTS, &counts.rare(LEAST_OF_LISTS))?;
    let [ends, begins] = counts.fenced;
    println!("compare: all that is lent ends at a page that may not be touched for {ends} drift lists, and begins after one for {begins}");
    let (read, drafts, buffers) = (counts.lists, counts.drafts, counts.buffers);
    println!(
        "compare: {read} drift lists read, {drafts} written into {buffers} buffers, 0 differences"
    );
    Ok(())
}

/// The same of the player.
fn conclude_plays(counts: &plays::counts::Counts, stretches: u64) -> Result<(), String> {
    println!("{counts}");
    enough(stretches, LEAST_OF_PLAYS, &counts.rare(LEAST_OF_PLAYS))?;
    let [ends, begins] = counts.fenced;
    println!("compare: all that is lent ends at a page that may not be touched for {ends} announcements, and begins after one for {begins}");
    let (drafts, within, buffers) = (counts.drafts, counts.within, counts.buffers);
    let (rotations, played) = (counts.rotations, counts.played);
    println!("compare: {drafts} announcements played, {within} of them within the limits, into {buffers} buffers, and {rotations} rotations of {played} sections heard, 0 differences");
    Ok(())
}

/// The same of packets.
fn conclude_packets(counts: &packets::counts::Counts, stretches: u64) -> Result<(), String> {
    println!("{counts}");
    enough(stretches, LEAST_OF_PACKETS, &counts.rare(LEAST_OF_PACKETS))?;
    let [ends, begins] = counts.fenced;
    println!("compare: all that is lent ends at a page that may not be touched for {ends} streams of packets, and begins after one for {begins}");
    let (streams, single, sections) = (counts.streams, counts.packets, counts.sections);
    let (gathered, buffers) = (counts.stretches, counts.buffers);
    println!(
        "compare: {streams} streams of packets, {single} packets one by one, {sections} sections out of them, {gathered} stretches of \
         packets, and sections of every length written into {buffers} buffers, 0 differences"
    );
    Ok(())
}

fn enough(stretches: u64, least: u64, rare: &[String]) -> Result<(), String> {
    if stretches < STRETCHES {
        return Ok(());
    }
    few(least, rare)
}

fn few(least: u64, rare: &[String]) -> Result<(), String> {
    if rare.is_empty() {
        return Ok(());
    }
    let rare = rare.join(", ");
    Err(format!("compare: fewer than {least} times: {rare}"))
}
