//! The module version that a block bears, by which stale headers (02, §6) are counted.

use make::BLOCK;

/// Where the message's content begins, behind the adaptation bytes; and where their number is told.
const CONTENT: usize = 20;
const ADAPTATION: usize = 17;

/// The module version of a block whose extension and section number are its message's, so that 9 can only be for its section
/// version.
pub fn of_module(section: &[u8]) -> Option<u8> {
    let &[BLOCK, _, _, e0, e1, _, number, ..] = section else {
        return None;
    };
    let adaptation = usize::from(*section.get(ADAPTATION)?);
    let content = section.get(CONTENT + adaptation..)?;
    let &[m0, m1, version, _, _, b1] = content.first_chunk()?;
    ([e0, e1, number] == [m0, m1, b1]).then_some(version)
}

#[cfg(test)]
mod tests {
    use super::*;
    use make::{announcement, with, Block};

    #[test]
    fn the_version_is_found_behind_the_adaptation_bytes() {
        let mut block = Block::new(1, 0x0203, 0xB4, 0x0506, b"buoy");
        block.adaptation = vec![9, 9, 9];
        let made = block.bytes();
        assert_eq!(of_module(&made), Some(0xB4));
        assert_eq!(of_module(&with(&made, 5, 0xC3)), Some(0xB4));
        assert_eq!(of_module(&with(&made, 4, 4)), None);
        assert_eq!(of_module(&with(&made, 6, 7)), None);
        assert_eq!(of_module(&made[..25]), None);
        assert_eq!(of_module(&announcement(1, 1, &[])), None);
    }
}
