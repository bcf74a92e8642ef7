//! Each refusal alone, and of several the lowest.

use crate::made::*;
use baseline::player::Listed;

/// The refusals of the call, lowest first.
const ALL: [u8; 5] = [10, 11, 15, 19, 21];
/// The sizes of the modules here: blocks of 4, 4, 2 and of 4, 1.
const SIZES: [u32; 2] = [10, 5];
const SECTIONS: usize = 6;
/// The lengths of the sections, at each place.
const LENGTHS: [usize; SECTIONS] = [62, 34, 34, 32, 34, 31];

/// What is lent to the call.
struct Lent {
    modules: Vec<Listed>,
    block_size: u16,
    image: usize,
    place: usize,
    buffer: usize,
}

impl Lent {
    /// A section that is written.
    fn at(place: usize) -> Lent {
        Lent {
            modules: of_sizes(&SIZES),
            block_size: 4,
            image: 15,
            place,
            buffer: LENGTHS.get(place).copied().unwrap_or(MOST),
        }
    }

    /// Spoils it so that this refusal meets it; the others as before.
    fn spoil(&mut self, refusal: u8) {
        match refusal {
            10 => self.block_size = 0,
            11 => self.modules[1].number = self.modules[0].number,
            15 => self.image = 14,
            19 => self.place += SECTIONS,
            21 => self.buffer = 30,
            _ => panic!("refusal {refusal}"),
        }
    }

    fn answer(&self) -> Result<usize, u8> {
        let playlist = playlist(self.block_size, &self.modules);
        let written = writing(&playlist, &image(self.image), self.place, self.buffer);
        written.map(|section| section.len())
    }
}

#[test]
fn of_all_sets_of_refusals_the_lowest() {
    for set in 0..1 << ALL.len() {
        for (place, length) in LENGTHS.into_iter().enumerate() {
            let mut lent = Lent::at(place);
            let chosen = (0..ALL.len()).filter(|k| set >> k & 1 == 1);
            let refusals: Vec<u8> = chosen.map(|k| ALL[k]).collect();
            for &refusal in &refusals {
                lent.spoil(refusal);
            }
            let wanted = refusals.first().map_or(Ok(length), |&refusal| Err(refusal));
            assert_eq!(lent.answer(), wanted, "{refusals:?} at {place}");
        }
    }
}

#[test]
fn the_count_looks_at_the_announcement_alone() {
    let modules = of_sizes(&SIZES);
    assert_eq!(playlist(4, &modules).section_count(), Ok(SECTIONS));
    assert_eq!(playlist(0, &modules).section_count(), Err(10));
    let twice = [modules[0], modules[0]];
    assert_eq!(playlist(4, &twice).section_count(), Err(11));
    assert_eq!(playlist(0, &twice).section_count(), Err(10));
}

#[test]
fn a_short_image_is_15_at_every_place() {
    for place in [0, 1, 3, 4, 5, SECTIONS, usize::MAX] {
        for length in [0, 1, 9, 10, 13, 14] {
            let mut lent = Lent::at(place);
            lent.image = length;
            assert_eq!(lent.answer(), Err(15), "{length} at {place}");
            lent.buffer = 0;
            assert_eq!(lent.answer(), Err(15), "{length} at {place}");
        }
    }
    for length in [15, 16, 1_000] {
        let mut lent = Lent::at(5);
        lent.image = length;
        assert_eq!(lent.answer(), Ok(31), "{length}");
    }
}

#[test]
fn a_place_past_the_last_is_19() {
    for (place, length) in LENGTHS.into_iter().enumerate() {
        assert_eq!(Lent::at(place).answer(), Ok(length));
    }
    let far = [65_536, 1 << 32, usize::MAX - 1, usize::MAX];
    for place in [SECTIONS, SECTIONS + 1].into_iter().chain(far) {
        let mut lent = Lent::at(place);
        assert_eq!(lent.answer(), Err(19), "{place}");
        lent.buffer = 0;
        assert_eq!(lent.answer(), Err(19), "{place}");
    }
}

#[test]
fn a_buffer_under_the_sections_own_length_is_21() {
    for (place, length) in LENGTHS.into_iter().enumerate() {
        let mut lent = Lent::at(place);
        for buffer in 0..length {
            lent.buffer = buffer;
            assert_eq!(lent.answer(), Err(21), "{buffer} at {place}");
        }
        for buffer in [length, length + 1, length + 2, 100, MOST, MOST + 1] {
            lent.buffer = buffer;
            assert_eq!(lent.answer(), Ok(length), "{buffer} at {place}");
        }
    }
}

#[test]
fn the_largest_section_has_4096_bytes() {
    let modules = of_sizes(&[4_066, 1]);
    let playlist = playlist(4_066, &modules);
    let image = image_of(&playlist);
    assert_eq!(writing(&playlist, &image, 1, 4_095), Err(21));
    let section = writing(&playlist, &image, 1, 4_096).unwrap();
    assert_eq!(section.len(), 4_096);
    assert_eq!(section[..3], [0x3C, 0xBF, 0xFD]);
    assert_eq!(writing(&playlist, &image, 2, 31).map(|s| s.len()), Ok(31));
    assert_eq!(writing(&playlist, &image, 2, 30), Err(21));
}
