//! A second opinion on PNG files, written from the formats' papers (RFC 1950, 1951, 2083) and not from `png.rs`: every
//! check sum is computed anew, and the pixels are read back.

/// A picture, read from a file.
#[derive(Debug, PartialEq, Eq)]
pub struct Decoded {
    pub width: usize,
    pub height: usize,
    pub bits: u8,
    /// Rows as in the file: eight pixels a byte for one bit a pixel.
    pub rows: Vec<u8>,
}

impl Decoded {
    /// A pixel of a picture of one bit or eight a pixel.
    pub fn pixel(&self, column: usize, row: usize) -> u8 {
        let length = self.rows.len() / self.height;
        let row = &self.rows[row * length..][..length];
        if self.bits == 8 { row[column] } else { row[column / 8] >> (7 - column % 8) & 1 }
    }
}

/// Reads a grey file of the chunks IHDR, IDAT and IEND, and says which thing is wrong.
pub fn decode(file: &[u8]) -> Result<Decoded, &'static str> {
    decode_as(file, 0, 1)
}

/// The same of a file in colour, three bytes a pixel.
pub fn decode_colour(file: &[u8]) -> Result<Decoded, &'static str> {
    decode_as(file, 2, 3)
}

/// A file of the kind that its head names, with so many numbers a pixel.
fn decode_as(file: &[u8], kind: u8, numbers: usize) -> Result<Decoded, &'static str> {
    let rest = file.strip_prefix(&[137, 80, 78, 71, 13, 10, 26, 10]).ok_or("signature")?;
    let (head, rest) = chunk(rest, b"IHDR")?;
    let (data, rest) = chunk(rest, b"IDAT")?;
    let (end, rest) = chunk(rest, b"IEND")?;
    if !end.is_empty() || !rest.is_empty() {
        return Err("end");
    }
    let (width, height) = (number(head, 0)? as usize, number(head, 4)? as usize);
    let bits = head[8];
    if !matches!(bits, 1 | 8) || head[9..] != [kind, 0, 0, 0] {
        return Err("head");
    }
    let length = (numbers * width * bits as usize).div_ceil(8);
    let rows = unfiltered(&inflated(data)?, length)?;
    if rows.len() == length * height { Ok(Decoded { width, height, bits, rows }) } else { Err("count of rows") }
}

/// The data of the chunk of a kind, and what follows it.
fn chunk<'a>(bytes: &'a [u8], kind: &[u8; 4]) -> Result<(&'a [u8], &'a [u8]), &'static str> {
    let length = number(bytes, 0)? as usize;
    let body = bytes.get(4..8 + length).ok_or("length")?;
    let rest = &bytes[8 + length..];
    if !body.starts_with(kind) {
        Err("kind")
    } else if number(rest, 0)? != crc(body) {
        Err("check sum of a chunk")
    } else {
        Ok((&body[4..], &rest[4..]))
    }
}

fn number(bytes: &[u8], at: usize) -> Result<u32, &'static str> {
    let four = bytes.get(at..at + 4).ok_or("length")?;
    Ok(four.iter().fold(0, |n, byte| n << 8 | u32::from(*byte)))
}

/// As a division of polynomials, bit by bit from the front: no table, and nothing reflected but the bits as they come.
fn crc(bytes: &[u8]) -> u32 {
    let bits = bytes.iter().flat_map(|byte| (0..8).map(move |i| u32::from(byte >> i & 1)));
    let rest = bits.fold(u32::MAX, |rest, bit| {
        let over = rest >> 31 ^ bit;
        (rest << 1) ^ (over * 0x04C1_1DB7)
    });
    !rest.reverse_bits()
}

fn inflated(data: &[u8]) -> Result<Vec<u8>, &'static str> {
    let head = data.first_chunk().filter(|_| data.len() >= 6).ok_or("head of the data")?;
    let over = u16::from_be_bytes(*head) % 31;
    if over != 0 || head[0] != 0x78 || head[1] & 0x20 != 0 {
        return Err("head of the data");
    }
    let (blocks, sum) = data[2..].split_at(data.len() - 6);
    let out = block(&mut Bits { bytes: blocks, at: 0 })?;
    let (mut a, mut b) = (1u64, 0u64);
    for byte in &out {
        a += u64::from(*byte);
        b += a;
    }
    let asked = (((b % 65_521) << 16) | (a % 65_521)) as u32;
    if number(sum, 0)? == asked { Ok(out) } else { Err("check sum of the data") }
}

struct Bits<'a> {
    bytes: &'a [u8],
    at: usize,
}

impl Bits<'_> {
    fn bit(&mut self) -> Result<usize, &'static str> {
        let byte = self.bytes.get(self.at / 8).ok_or("data cut off")?;
        let bit = byte >> (self.at % 8) & 1;
        self.at += 1;
        Ok(bit.into())
    }

    fn low_first(&mut self, count: usize) -> Result<usize, &'static str> {
        (0..count).try_fold(0, |n, i| Ok(n | self.bit()? << i))
    }

    fn high_first(&mut self, start: usize, count: usize) -> Result<usize, &'static str> {
        (0..count).try_fold(start, |n, _| Ok(n << 1 | self.bit()?))
    }

    /// A symbol of the fixed code, by the table of RFC 1951, 3.2.6.
    fn symbol(&mut self) -> Result<usize, &'static str> {
        let seven = self.high_first(0, 7)?;
        if seven < 0b001_1000 {
            return Ok(256 + seven);
        }
        let eight = self.high_first(seven, 1)?;
        match eight {
            0b0011_0000..=0b1011_1111 => Ok(eight - 0b0011_0000),
            0b1100_0000..=0b1100_0111 => Ok(280 + eight - 0b1100_0000),
            _ => Ok(144 + self.high_first(eight, 1)? - 0b1_1001_0000),
        }
    }
}

// RFC 1951, 3.2.5: the least length or distance of each symbol, and its extra bits.
#[rustfmt::skip]
const LENGTHS: [(usize, usize); 29] = [
    (3, 0), (4, 0), (5, 0), (6, 0), (7, 0), (8, 0), (9, 0), (10, 0), (11, 1), (13, 1), (15, 1), (17, 1), (19, 2), (23, 2),
    (27, 2), (31, 2), (35, 3), (43, 3), (51, 3), (59, 3), (67, 4), (83, 4), (99, 4), (115, 4), (131, 5), (163, 5),
    (195, 5), (227, 5), (258, 0),
];
#[rustfmt::skip]
const DISTANCES: [(usize, usize); 30] = [
    (1, 0), (2, 0), (3, 0), (4, 0), (5, 1), (7, 1), (9, 2), (13, 2), (17, 3), (25, 3), (33, 4), (49, 4), (65, 5), (97, 5),
    (129, 6), (193, 6), (257, 7), (385, 7), (513, 8), (769, 8), (1025, 9), (1537, 9), (2049, 10), (3073, 10), (4097, 11),
    (6145, 11), (8193, 12), (12289, 12), (16385, 13), (24577, 13),
];

/// One last block of fixed codes, with nothing after it.
fn block(bits: &mut Bits) -> Result<Vec<u8>, &'static str> {
    if bits.low_first(3)? != 0b011 {
        return Err("kind of block");
    }
    let mut out = Vec::new();
    loop {
        match bits.symbol()? {
            256 => break,
            literal @ 0..256 => out.push(literal as u8),
            length => repeat(bits, length, &mut out)?,
        }
    }
    if bits.at.div_ceil(8) == bits.bytes.len() { Ok(out) } else { Err("bytes after the block") }
}

fn repeat(bits: &mut Bits, symbol: usize, out: &mut Vec<u8>) -> Result<(), &'static str> {
    let (least, extra) = LENGTHS.get(symbol - 257).ok_or("length symbol")?;
    let length = least + bits.low_first(*extra)?;
    if length == 258 && symbol != 285 {
        return Err("258 has a symbol of its own");
    }
    let symbol = bits.high_first(0, 5)?;
    let (least, extra) = DISTANCES.get(symbol).ok_or("distance symbol")?;
    let distance = least + bits.low_first(*extra)?;
    let from = out.len().checked_sub(distance).ok_or("distance")?;
    (from..from + length).for_each(|at| out.push(out[at]));
    Ok(())
}

/// The rows without their filters, of which 0 (none) and 2 (up) are known.
fn unfiltered(bytes: &[u8], length: usize) -> Result<Vec<u8>, &'static str> {
    let mut rows: Vec<u8> = Vec::new();
    let mut above = vec![0; length];
    for line in bytes.chunks(length + 1) {
        let add = |(here, up): (&u8, &u8)| if line[0] == 2 { here.wrapping_add(*up) } else { *here };
        if line.len() != length + 1 || !matches!(line[0], 0 | 2) {
            return Err("row");
        }
        above = line[1..].iter().zip(&above).map(add).collect();
        rows.extend(&above);
    }
    Ok(rows)
}
