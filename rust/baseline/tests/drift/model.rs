//! Every bound together with every other, held to the request's words said once more.

use crate::made::*;

/// A number whose digits choose, so that counting it up goes through all choices together.
struct Digits(usize);

impl Digits {
    fn pick<T: Copy>(&mut self, from: &[T]) -> T {
        let digit = self.0 % from.len();
        self.0 /= from.len();
        from[digit]
    }
}

/// The request's words once more, one by one: the refusals that a record meets, the lowest first.
fn faults(before: u32, record: &Fields) -> Vec<u8> {
    let (longitude, latitude) = (record.longitude, record.latitude);
    let zeroes = [longitude, latitude].iter().filter(|&&c| c == 0).count();
    let mut faults = Vec::new();
    if latitude.abs() > 54_000_000 || longitude.abs() > 108_000_000 || longitude == -108_000_000 {
        faults.push(31);
    }
    if record.minute > 10_079 {
        faults.push(32);
    }
    if record.buoy == 0 || record.buoy <= before {
        faults.push(33);
    }
    if record.spare > 0 {
        faults.push(34);
    }
    match record.state {
        0 if zeroes == 2 => {}
        1 | 2 if zeroes < 2 => {}
        _ => faults.push(35),
    }
    faults
}

#[test]
fn every_bound_with_every_other_by_the_request() {
    let longitudes = [
        -134_217_728,
        -108_000_000,
        -107_999_999,
        0,
        108_000_000,
        108_000_001,
    ];
    let latitudes = [
        -67_108_864,
        -54_000_001,
        -54_000_000,
        0,
        54_000_000,
        54_000_001,
    ];
    let mut met = [0; 6];
    for place in 0..3 * 4 * 6 * 6 * 4 * 3 {
        let mut digits = Digits(place);
        let record = Fields {
            buoy: digits.pick(&[0, 1, 2]),
            state: digits.pick(&[0, 1, 2, 3]),
            longitude: digits.pick(&longitudes),
            latitude: digits.pick(&latitudes),
            minute: digits.pick(&[0, 10_079, 10_080, 16_383]),
            spare: digits.pick(&[0, 1, 31]),
        };
        let lowest = faults(FIRST.buoy, &record).first().copied();
        let refusal = refusal_of(&[FIRST, record]);
        assert_eq!(refusal, lowest.unwrap_or(0), "{record:?}");
        met[refusal.saturating_sub(30) as usize] += 1;
    }
    assert!(met.iter().all(|&times| times > 0), "{met:?}");
}

/// What the request wants of a record behind the first one, in a buffer for the two that may be short.
fn wanted_of(
    &[buoy, state, longitude, latitude, minute]: &[i32; 5],
    buffer: usize,
) -> Result<Vec<u8>, u8> {
    let fits = (0..=1_048_575).contains(&buoy)
        && (0..=3).contains(&state)
        && (-134_217_728..=134_217_727).contains(&longitude)
        && (-67_108_864..=67_108_863).contains(&latitude)
        && (0..=16_383).contains(&minute);
    if !fits {
        return Err(36);
    }
    let record = Fields {
        buoy: buoy as u32,
        state: state as u32,
        longitude,
        latitude,
        minute: minute as u32,
        spare: 0,
    };
    match faults(FIRST.buoy, &record).first() {
        Some(&fault) => Err(fault),
        None if buffer < 28 => Err(37),
        None => Ok(list(1, 2, &[FIRST, record])),
    }
}

#[test]
fn the_writer_at_every_bound_with_every_other_by_the_request() {
    let longitudes = [
        -134_217_729,
        -134_217_728,
        -107_999_999,
        0,
        108_000_000,
        134_217_728,
    ];
    let latitudes = [
        -67_108_865,
        -54_000_001,
        -54_000_000,
        0,
        54_000_000,
        67_108_864,
    ];
    for place in 0..6 * 6 * 6 * 6 * 6 * 2 {
        let mut digits = Digits(place);
        let numbers = [
            digits.pick(&[-1, 0, 1, 2, 0xF_FFFF, 0x10_0000]),
            digits.pick(&[-1, 0, 1, 2, 3, 4]),
            digits.pick(&longitudes),
            digits.pick(&latitudes),
            digits.pick(&[-1, 0, 10_079, 10_080, 16_383, 16_384]),
        ];
        let buffer = digits.pick(&[27, 28]);
        let all = [&numbers_of(&[FIRST]), &numbers[..]].concat();
        let wanted = wanted_of(&numbers, buffer);
        assert_eq!(writing(1, 2, &all, buffer), wanted, "{numbers:?}");
    }
}
