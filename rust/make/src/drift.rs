//! The drift list: its bytes are made a bit at a time, right or wrong, so that nothing is shared with a
//! reader or writer that takes whole words.

/// The most records a list's 16-bit count can tell.
const MOST_RECORDS: usize = 0xFFFF;
/// The largest buoy that its 20 bits can tell.
const MOST_BUOY: usize = 0xF_FFFF;

/// The six fields of a record as they stand in its bits; each is packed modulo its width, whatever it
/// says.
#[derive(Clone, Copy, Debug)]
pub struct Fields {
    /// 20 bits.
    pub buoy: u32,
    /// 2 bits: 0 none, 1 fix, 2 last known, 3 refused.
    pub state: u32,
    /// 28 bits, two's complement, in 1/10,000 minute.
    pub longitude: i32,
    /// 27 bits, two's complement, in 1/10,000 minute.
    pub latitude: i32,
    /// 14 bits, the minute of the week.
    pub minute: u32,
    /// 5 bits.
    pub spare: u32,
}

/// The bytes of a list. The count is told as given, also where it is not the number of records.
pub fn list(issue: u16, count: u16, records: &[Fields]) -> Vec<u8> {
    let mut bits = Bits::default();
    bits.put(issue, 16);
    bits.put(count, 16);
    for record in records {
        bits.put(record.buoy, 20);
        bits.put(record.state, 2);
        bits.put(record.longitude, 28);
        bits.put(record.latitude, 27);
        bits.put(record.minute, 14);
        bits.put(record.spare, 5);
    }
    bits.bytes
}

/// Bytes that grow by a bit at a time.
#[derive(Default)]
struct Bits {
    bytes: Vec<u8>,
    length: usize,
}

impl Bits {
    /// The lowest bits of a number, so many as the width, the most significant first.
    fn put(&mut self, number: impl Into<i64>, width: u32) {
        let number = number.into();
        for place in (0..width).rev() {
            self.push(number >> place & 1 == 1);
        }
    }

    fn push(&mut self, bit: bool) {
        if self.length.is_multiple_of(8) {
            self.bytes.push(0);
        }
        if let (true, Some(last)) = (bit, self.bytes.last_mut()) {
            *last |= 0x80 >> (self.length % 8);
        }
        self.length += 1;
    }
}

/// `n` good records: rising buoys, all three states once there are three, coordinates and minutes over
/// their whole ranges and often at an end of them. More than a count can tell is a fault of the maker.
pub fn good(n: usize, seed: u64) -> Vec<Fields> {
    assert!(n <= MOST_RECORDS, "{n} records");
    let mut dice = Dice(seed);
    let mut buoy = 0;
    (0..n)
        .map(|place| {
            // steps of at most this do not pass the largest buoy in n records
            buoy += dice.step(MOST_BUOY / n);
            let state = if place < 3 {
                (seed % 3 + place as u64) as u32 % 3
            } else {
                dice.between(0, 2) as u32
            };
            record(&mut dice, buoy, state)
        })
        .collect()
}

/// A good record of this buoy and state.
fn record(dice: &mut Dice, buoy: u32, state: u32) -> Fields {
    let (longitude, latitude) = if state == 0 { (0, 0) } else { dice.place() };
    Fields {
        buoy,
        state,
        longitude,
        latitude,
        minute: dice.often_at_an_end(0, 10_079) as u32,
        spare: 0,
    }
}

/// A small generator (SplitMix64), good from any seed.
struct Dice(u64);

impl Dice {
    fn next(&mut self) -> u64 {
        self.0 = self.0.wrapping_add(0x9E37_79B9_7F4A_7C15);
        let once = (self.0 ^ self.0 >> 30).wrapping_mul(0xBF58_476D_1CE4_E5B9);
        let twice = (once ^ once >> 27).wrapping_mul(0x94D0_49BB_1331_11EB);
        twice ^ twice >> 31
    }

    /// A number from `low` to `high`, both included.
    fn between(&mut self, low: i32, high: i32) -> i32 {
        let numbers = i64::from(high) - i64::from(low) + 1;
        (i64::from(low) + (self.next() % numbers as u64) as i64) as i32
    }

    /// A number from `low` to `high`; about every eighth time one of these two, or zero.
    fn often_at_an_end(&mut self, low: i32, high: i32) -> i32 {
        match self.between(0, 23) {
            0 => low,
            1 => high,
            2 => 0,
            _ => self.between(low, high),
        }
    }

    /// A step from 1 to `most`; often 1, so that buoys are next to each other.
    fn step(&mut self, most: usize) -> u32 {
        match self.between(0, 3) {
            0 => 1,
            _ => self.between(1, most as i32) as u32,
        }
    }

    /// Longitude and latitude in their ranges, not both zero.
    fn place(&mut self) -> (i32, i32) {
        loop {
            let longitude = self.often_at_an_end(-107_999_999, 108_000_000);
            let latitude = self.often_at_an_end(-54_000_000, 54_000_000);
            if (longitude, latitude) != (0, 0) {
                return (longitude, latitude);
            }
        }
    }
}

#[cfg(test)]
mod tests {
    use super::*;

    const ZERO: Fields = Fields {
        buoy: 0,
        state: 0,
        longitude: 0,
        latitude: 0,
        minute: 0,
        spare: 0,
    };

    fn bytes_of(record: Fields) -> Vec<u8> {
        list(0, 0, &[record])[4..].to_vec()
    }

    #[test]
    fn the_header_is_told_as_given() {
        assert_eq!(list(0x1234, 0xABCD, &[]), [0x12, 0x34, 0xAB, 0xCD]);
        assert_eq!(list(0, 7, &[ZERO; 2]).len(), 4 + 2 * 12);
    }

    #[test]
    fn each_field_has_its_own_bits() {
        let buoy = Fields {
            buoy: 0xF_FFFF,
            ..ZERO
        };
        assert_eq!(
            bytes_of(buoy),
            [0xFF, 0xFF, 0xF0, 0, 0, 0, 0, 0, 0, 0, 0, 0]
        );
        let state = Fields { state: 3, ..ZERO };
        assert_eq!(bytes_of(state), [0, 0, 0x0C, 0, 0, 0, 0, 0, 0, 0, 0, 0]);
        let longitude = Fields {
            longitude: -1,
            ..ZERO
        };
        let wanted = [0, 0, 0x03, 0xFF, 0xFF, 0xFF, 0xC0, 0, 0, 0, 0, 0];
        assert_eq!(bytes_of(longitude), wanted);
        let latitude = Fields {
            latitude: -1,
            ..ZERO
        };
        let wanted = [0, 0, 0, 0, 0, 0, 0x3F, 0xFF, 0xFF, 0xF8, 0, 0];
        assert_eq!(bytes_of(latitude), wanted);
        let minute = Fields {
            minute: 0x3FFF,
            ..ZERO
        };
        assert_eq!(
            bytes_of(minute),
            [0, 0, 0, 0, 0, 0, 0, 0, 0, 0x07, 0xFF, 0xE0]
        );
        let spare = Fields { spare: 31, ..ZERO };
        assert_eq!(bytes_of(spare), [0, 0, 0, 0, 0, 0, 0, 0, 0, 0, 0, 0x1F]);
    }

    #[test]
    fn a_field_too_wide_does_not_touch_its_neighbours() {
        let wide = Fields {
            buoy: 1 << 20,
            state: 4,
            longitude: 1 << 28,
            latitude: 1 << 27,
            minute: 1 << 14,
            spare: 1 << 5,
        };
        assert_eq!(bytes_of(wide), [0; 12]);
    }

    #[test]
    fn good_records_are_good() {
        for (n, seed) in [(0, 0), (1, 1), (2, 2), (3, 3), (5_461, 4), (65_535, 5)] {
            let records = good(n, seed);
            assert_eq!(records.len(), n);
            let mut before = 0;
            for record in &records {
                assert!(before < record.buoy && record.buoy <= 0xF_FFFF);
                assert!(record.state <= 2);
                let place = (record.longitude, record.latitude);
                assert_eq!(record.state == 0, place == (0, 0));
                assert!((-107_999_999..=108_000_000).contains(&place.0));
                assert!((-54_000_000..=54_000_000).contains(&place.1));
                assert!(record.minute < 10_080 && record.spare == 0);
                before = record.buoy;
            }
            let states = (0..3).filter(|&state| records.iter().any(|record| record.state == state));
            assert_eq!(states.count(), n.min(3));
        }
    }
}
