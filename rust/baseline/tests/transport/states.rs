//! The state as bytes: what packets left is read back, and what they can not have left is refused with 1.

use crate::made::{adapted, empty, section, start, PID};
use baseline::transport::{Transport, PACKET, STATE};

const COUNT: usize = PACKET;
const HELD: usize = PACKET + 2;

/// A state with this last packet and these bytes in hand, 0xA5 past them.
fn state(last: &[u8], held: usize, hand: &[u8]) -> Vec<u8> {
    let mut state = [last, &(held as u16).to_be_bytes(), hand].concat();
    state.resize(STATE, 0xA5);
    state
}

fn is_refused(pid: u16, state: &[u8]) -> bool {
    let read = Transport::from_bytes(pid, state);
    assert!(read.is_ok() || read == Err(1));
    read.is_err()
}

#[test]
fn what_was_left_is_read_back_and_the_rest_is_not_touched() {
    let mut bytes = vec![0; STATE + 9];
    assert_eq!(Transport::from_bytes(PID, &bytes), Ok(Transport::new(PID)));
    let mut transport = Transport::new(PID);
    let whole = section(500, 7);
    for (packet, held) in [
        (adapted(true, 0, &start(&[], &whole[..2])), 2),
        (adapted(false, 1, &whole[2..100]), 100),
        (empty(1), 100),
        (adapted(true, 2, &start(&[], &[0xFF])), 0),
    ] {
        transport.feed(&packet, &mut vec![]);
        bytes[HELD..].fill(0xA5);
        transport.to_bytes(&mut bytes);
        assert_eq!(bytes[..COUNT], packet);
        assert_eq!(bytes[COUNT..HELD], [0, held as u8]);
        assert_eq!(bytes[HELD..HELD + held], whole[..held]);
        assert!(bytes[HELD + held..].iter().all(|&byte| byte == 0xA5));
        assert_eq!(Transport::from_bytes(PID, &bytes), Ok(transport.clone()));
    }
}

#[test]
fn a_short_state_1() {
    for length in [0, 1, PACKET, HELD, STATE - 1] {
        assert!(is_refused(PID, &vec![0; length]));
    }
    assert!(!is_refused(PID, &[0; STATE]));
}

#[test]
fn a_last_packet_that_would_be_refused_1() {
    let good = state(&empty(3), 0, &[]);
    assert!(!is_refused(PID, &good));
    for (at, byte) in [(0, 0), (0, 0x46), (2, 0x24), (3, 0x03), (3, 0x63), (4, 184)] {
        let mut bad = good.clone();
        bad[at] = byte;
        assert!(is_refused(PID, &bad));
    }
    for pid in [PID + 1, 0x2000 | PID, u16::MAX] {
        assert!(is_refused(pid, &good));
        assert!(!is_refused(pid, &[0; STATE]));
    }
    let mut past = state(&adapted(true, 3, &[0, 1]), 0, &[]);
    assert!(!is_refused(PID, &past));
    past[PACKET - 2] = 2;
    assert!(is_refused(PID, &past));
}

#[test]
fn bytes_in_hand_that_are_no_head_1() {
    let last = adapted(false, 3, &[7; 50]);
    let whole = section(40, 7);
    for held in 0..=39 {
        assert!(!is_refused(PID, &state(&last, held, &whole)));
        // Before the first packet nothing is in hand.
        let none = state(&[0; PACKET], held, &whole);
        assert_eq!(is_refused(PID, &none), held > 0);
    }
    for held in [40, 41, 255, 4_097, 4_098, 65_535] {
        assert!(is_refused(PID, &state(&last, held, &whole)));
    }
    let largest = section(4_098, 7);
    for (held, wrong) in [(4_097, false), (4_098, true), (4_099, true)] {
        assert_eq!(
            is_refused(PID, &state(&last, held, &largest[..4_097])),
            wrong
        );
    }
    assert!(!is_refused(PID, &state(&last, 0, &[0xFF])));
    for held in [1, 2, 3, 39] {
        assert!(is_refused(PID, &state(&last, held, &section(40, 0xFF))));
    }
    assert!(is_refused(PID, &state(&last, 3, &[7, 0xF0, 0])));
    assert!(!is_refused(PID, &state(&last, 3, &[7, 0xF0, 1])));
}
