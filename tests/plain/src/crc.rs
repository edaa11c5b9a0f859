//! CRC-8, polynomial 07h, seed 00h, bit 7 first (01, Commands), eight bytes at a time by eight tables.

/// `TABLES[n][byte]`: the CRC of the byte and n zero bytes behind it.
const TABLES: [[u8; 256]; 8] = {
    let mut tables = [[0; 256]; 8];
    let mut byte = 0;
    while byte < 256 {
        let mut sum = byte as u8;
        let mut n = 0;
        while n < 8 {
            let mut bit = 0;
            while bit < 8 {
                sum = if sum & 0x80 != 0 { sum << 1 ^ 0x07 } else { sum << 1 };
                bit += 1;
            }
            tables[n][byte] = sum;
            n += 1;
        }
        byte += 1;
    }
    tables
};

pub fn crc(bytes: &[u8]) -> u8 {
    let of = |n: usize, byte: u8| TABLES[n][usize::from(byte)];
    let mut sum = 0;
    let mut eights = bytes.chunks_exact(8);
    for eight in &mut eights {
        sum = of(7, sum ^ eight[0])
            ^ of(6, eight[1])
            ^ of(5, eight[2])
            ^ of(4, eight[3])
            ^ of(3, eight[4])
            ^ of(2, eight[5])
            ^ of(1, eight[6])
            ^ of(0, eight[7]);
    }
    eights.remainder().iter().fold(sum, |sum, &byte| of(0, sum ^ byte))
}
