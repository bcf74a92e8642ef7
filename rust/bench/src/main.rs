//! `bench [PART]`: both receivers run over the same sections in four mixes; then it is told how the cost of a byte grows; then each
//! takes blocks by single steps; then both readers and writers go through a drift list; then both take sections out of packets. A word runs one part alone. It ends with
//! 1 when they do not leave the same, with 2 at any other word; how fast they are is only told.

mod growth;
mod lists;
mod mixes;
mod packets;
mod race;
mod receiver;
mod rotation;
mod steps;
mod stretch;

use std::process::ExitCode;

/// Each receiver runs so often over a mix or a list, in turn.
const ROUNDS: usize = 5;

/// What is measured: its word, and the call that prints its lines or tells what differed.
type Part = (&'static str, fn() -> Result<(), String>);

const PARTS: [Part; 5] = [
    ("mixes", mixes::measure),
    ("growth", growth::measure),
    ("steps", steps::measure),
    ("lists", lists::measure),
    ("packets", packets::measure),
];

fn main() -> ExitCode {
    let words: Vec<String> = std::env::args().skip(1).collect();
    let Some(parts) = chosen(&words) else {
        let all = PARTS.map(|(word, _)| word).join(" | ");
        eprintln!("usage: bench [{all}]");
        return ExitCode::from(2);
    };
    println!(
        "Release build. Times: ours' best time against the baseline's; below 1.00 ours is faster."
    );
    match parts.iter().try_for_each(|(_, measure)| measure()) {
        Ok(()) => ExitCode::SUCCESS,
        Err(told) => {
            println!("bench: {told}");
            ExitCode::FAILURE
        }
    }
}

/// The part with this word, or all of them; none for any other words.
fn chosen(words: &[String]) -> Option<&'static [Part]> {
    match words {
        [] => Some(&PARTS),
        [word] => PARTS
            .iter()
            .position(|(part, _)| part == word)
            .map(|place| &PARTS[place..=place]),
        _ => None,
    }
}

#[cfg(test)]
mod tests {
    use super::*;

    /// The parts that these words choose.
    fn parts(words: &[&str]) -> Option<Vec<&'static str>> {
        let words: Vec<_> = words.iter().map(|word| word.to_string()).collect();
        let names = |parts: &[Part]| parts.iter().map(|(word, _)| *word).collect();
        chosen(&words).map(names)
    }

    #[test]
    fn a_word_chooses_one_part_and_none_all() {
        let all = ["mixes", "growth", "steps", "lists", "packets"];
        assert_eq!(parts(&[]), Some(all.to_vec()));
        for word in all {
            assert_eq!(parts(&[word]), Some(vec![word]));
        }
    }

    #[test]
    fn any_other_words_choose_nothing() {
        for words in [&["mix"][..], &[""], &["Mixes"], &["mixes", "growth"]] {
            assert_eq!(parts(words), None);
        }
    }
}
