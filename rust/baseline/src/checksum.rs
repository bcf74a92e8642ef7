//! The CRC of "The section": generator 0x04C11DB7, register starts all ones, most significant bit first,
//! no final change. A group of bytes is taken at a time, each through a table of its own.

const GENERATOR: u32 = 0x04C1_1DB7;
const SLICES: usize = 8;

/// `TABLES[k][b]` is the register that byte `b` leaves, from a clear register, when `k` zero bytes follow.
static TABLES: [[u32; 256]; SLICES] = tables();

const fn tables() -> [[u32; 256]; SLICES] {
    let mut tables = [[0; 256]; SLICES];
    let mut byte = 0;
    while byte < 256 {
        let mut register = (byte as u32) << 24;
        let mut bit = 0;
        while bit < 8 {
            let carry = register >> 31 != 0;
            register <<= 1;
            if carry {
                register ^= GENERATOR;
            }
            bit += 1;
        }
        tables[0][byte] = register;
        byte += 1;
    }
    let mut slice = 1;
    while slice < SLICES {
        let mut byte = 0;
        while byte < 256 {
            let before = tables[slice - 1][byte];
            tables[slice][byte] = (before << 8) ^ tables[0][(before >> 24) as usize];
            byte += 1;
        }
        slice += 1;
    }
    tables
}

/// The register after these bytes. A section is right when this is zero over the whole of it, CRC included.
#[must_use]
pub fn crc(bytes: &[u8]) -> u32 {
    let (groups, rest) = bytes.as_chunks::<SLICES>();
    let register = groups.iter().fold(u32::MAX, take_group);
    rest.iter().fold(register, take_byte)
}

/// A whole group: its first four bytes meet the register, and each byte goes through the table that counts the
/// bytes after it.
fn take_group(register: u32, group: &[u8; SLICES]) -> u32 {
    let mut group = *group;
    for (byte, top) in group.iter_mut().zip(register.to_be_bytes()) {
        *byte ^= top;
    }
    let tables = TABLES.iter().rev();
    group
        .iter()
        .zip(tables)
        .fold(0, |sum, (&byte, table)| sum ^ table[usize::from(byte)])
}

/// One byte.
fn take_byte(register: u32, byte: &u8) -> u32 {
    let top = (register >> 24) as u8 ^ byte;
    (register << 8) ^ TABLES[0][usize::from(top)]
}
