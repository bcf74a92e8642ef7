//! The writer of one section's packets: bytes by hand, refusals in their order, and what a receiver makes of them.

use crate::made::{heard, section, PID};
use baseline::transport::{write_packets, Transport, LARGEST, MOST_PACKETS, PACKET};

/// Into a buffer of this size: the packets or the refusal, having seen that nothing else changed.
fn written(pid: u16, counter: u8, section: &[u8], room: usize) -> Result<Vec<u8>, u8> {
    let mut out = vec![0xA5; room];
    let answer = write_packets(pid, counter, section, &mut out);
    let size = PACKET * answer.unwrap_or(0);
    assert!(out[size..].iter().all(|&byte| byte == 0xA5));
    answer.map(|_| out[..size].to_vec())
}

#[test]
fn packets_by_hand() {
    let whole = section(184, 7);
    let packets = written(0x1FFF, 15, &whole, 3 * PACKET).unwrap();
    let mut wanted = vec![0x47, 0x5F, 0xFF, 0x1F, 0, 7, 0xB0, 181];
    wanted.extend([7; 180]);
    wanted.extend([0x47, 0x1F, 0xFF, 0x10, 7]);
    wanted.extend([0xFF; 183]);
    assert_eq!(packets, wanted);
    let least = written(PID, 3, &[0, 0, 0], PACKET).unwrap();
    assert_eq!(least[..8], [0x47, 0x41, 0x23, 0x13, 0, 0, 0, 0]);
    assert!(least[8..].iter().all(|&byte| byte == 0xFF));
}

#[test]
fn sections_of_every_length_are_heard_again() {
    for length in 3..=LARGEST {
        let whole = section(length, length as u8 % 255);
        let packets = written(PID, length as u8 % 16, &whole, MOST_PACKETS * PACKET).unwrap();
        assert_eq!(packets.len() / PACKET, (length + 1).div_ceil(184));
        let packets: Vec<_> = packets.chunks(PACKET).map(<[u8]>::to_vec).collect();
        assert_eq!(heard(&mut Transport::new(PID), &packets), whole);
    }
}

#[test]
fn refusals_the_lowest_first() {
    let whole = section(300, 0xFF);
    for wrong in [&whole[..0], &whole[..2], &whole[..299], &[0, 0, 1], &[0; 4]] {
        assert_eq!(written(0x2000, 16, wrong, 0), Err(2));
    }
    assert_eq!(written(0x2000, 16, &whole, 0), Err(3));
    let whole = section(300, 0xFE);
    assert_eq!(written(0x2000, 16, &whole, 2 * PACKET - 1), Err(21));
    for (pid, counter) in [(0x2000, 0), (0xFFFF, 0), (0, 16), (0, 255)] {
        assert_eq!(written(pid, counter, &whole, 2 * PACKET), Err(25));
    }
    assert!(written(0x1FFF, 15, &whole, 2 * PACKET).is_ok());
}
