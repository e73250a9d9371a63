//! Stands in for the crate `crc32fast`: the CRC-32 of IEEE 802.3, 3.2.9, low bit first.

/// The generator polynomial of 3.2.9 without its x^32, the coefficient of x^31 in the lowest bit.
const GENERATOR: u32 = 0xedb8_8320;

const TABLE: [u32; 256] = table();

const fn table() -> [u32; 256] {
    let mut table = [0; 256];
    let mut byte = 0;
    while byte < 256 {
        table[byte] = remainder_of_byte(byte as u32);
        byte += 1;
    }
    table
}

const fn remainder_of_byte(byte: u32) -> u32 {
    let mut register = byte;
    let mut bit = 0;
    while bit < 8 {
        let carry = register & 1;
        register >>= 1;
        if carry == 1 {
            register ^= GENERATOR;
        }
        bit += 1;
    }
    register
}

/// The checksum of `bytes`.
pub fn hash(bytes: &[u8]) -> u32 {
    !bytes.iter().fold(u32::MAX, |register, &byte| {
        TABLE[((register ^ u32::from(byte)) & 255) as usize] ^ (register >> 8)
    })
}
