//! PNG files of pictures, grey or in colour, with what little of deflate keeps plain pictures small: fixed codes and repeats found by
//! their first three bytes.

/// A grey file of one bit a pixel (rows of whole bytes) or eight.
pub fn png(width: u32, height: u32, bits: u8, rows: &[u8]) -> Vec<u8> {
    file(width, height, [bits, 0], rows)
}

/// A file in colour, three bytes a pixel: red, green and blue.
pub fn colour_png(width: u32, height: u32, rows: &[u8]) -> Vec<u8> {
    file(width, height, [8, 2], rows)
}

/// A file with so many bits for each of a pixel's numbers, of a kind: 0 grey, 2 colour.
fn file(width: u32, height: u32, [bits, kind]: [u8; 2], rows: &[u8]) -> Vec<u8> {
    let mut head = Vec::new();
    head.extend(width.to_be_bytes());
    head.extend(height.to_be_bytes());
    head.extend([bits, kind, 0, 0, 0]);
    let mut file = b"\x89PNG\r\n\x1a\n".to_vec();
    chunk(&mut file, b"IHDR", &head);
    chunk(&mut file, b"IDAT", &zlib(&filtered(rows, rows.len() / height as usize)));
    chunk(&mut file, b"IEND", &[]);
    file
}

/// Each row after its filter's number: 2, the difference from the row above.
fn filtered(rows: &[u8], length: usize) -> Vec<u8> {
    let mut out = Vec::new();
    let mut above = vec![0; length];
    for row in rows.chunks(length) {
        out.push(2);
        out.extend(row.iter().zip(&above).map(|(here, up)| here.wrapping_sub(*up)));
        above.copy_from_slice(row);
    }
    out
}

fn chunk(file: &mut Vec<u8>, kind: &[u8; 4], data: &[u8]) {
    let body = [&kind[..], data].concat();
    file.extend((data.len() as u32).to_be_bytes());
    file.extend(&body);
    file.extend(crc(&body).to_be_bytes());
}

fn crc(bytes: &[u8]) -> u32 {
    let step = |c: u32| if c & 1 == 1 { 0xEDB8_8320 ^ (c >> 1) } else { c >> 1 };
    !bytes.iter().fold(!0, |c, &byte| (0..8).fold(c ^ byte as u32, |c, _| step(c)))
}

fn zlib(data: &[u8]) -> Vec<u8> {
    let mut out = vec![0x78, 0x01];
    out.extend(deflate(data));
    let (a, b) = data.iter().fold((1, 0), |(a, b), &byte| {
        let a = (a + byte as u32) % 65_521;
        (a, (b + a) % 65_521)
    });
    out.extend((b << 16 | a).to_be_bytes());
    out
}

/// Bits, the lowest of each byte first.
#[derive(Default)]
struct Bits {
    bytes: Vec<u8>,
    used: usize,
}

impl Bits {
    /// A number, its lowest bit first.
    fn number(&mut self, value: usize, count: usize) {
        for i in 0..count {
            let place = self.used % 8;
            if place == 0 {
                self.bytes.push(0);
            }
            *self.bytes.last_mut().unwrap() |= ((value >> i & 1) as u8) << place;
            self.used += 1;
        }
    }

    /// A code, its highest bit first.
    fn code(&mut self, code: usize, count: usize) {
        for i in (0..count).rev() {
            self.number(code >> i & 1, 1);
        }
    }

    /// A symbol in the fixed codes.
    fn symbol(&mut self, symbol: usize) {
        match symbol {
            0..=143 => self.code(0x30 + symbol, 8),
            144..=255 => self.code(0x190 + symbol - 144, 9),
            256..=279 => self.code(symbol - 256, 7),
            _ => self.code(0xC0 + symbol - 280, 8),
        }
    }

    /// A repeat of earlier bytes.
    fn repeat(&mut self, length: usize, distance: usize) {
        if length == 258 {
            self.symbol(285);
        } else {
            let (index, extra, rest) = step_of(length - 3, 4);
            self.symbol(257 + index);
            self.number(rest, extra);
        }
        let (index, extra, rest) = step_of(distance - 1, 2);
        self.code(index, 5);
        self.number(rest, extra);
    }
}

/// Where a value falls among deflate's steps, of which each size has `many` (4 for lengths, 2 for distances): the
/// step's index, its count of extra bits, and their value.
fn step_of(value: usize, many: usize) -> (usize, usize, usize) {
    let size = (value / many).max(1).ilog2() as usize;
    let extra = if value < many { 0 } else { size };
    let index = if value < many { value } else { many * extra + (value >> extra) };
    (index, extra, value & ((1 << extra) - 1))
}

/// One block with fixed codes.
fn deflate(data: &[u8]) -> Vec<u8> {
    let mut bits = Bits::default();
    bits.number(0b011, 3);
    let mut seen = std::collections::HashMap::new();
    let mut place = 0;
    while place < data.len() {
        let earlier = data.get(place..place + 3).and_then(|key| seen.insert(key, place));
        let length = earlier.map_or(0, |from| common(data, from, place));
        match earlier {
            Some(from) if length >= 3 && place - from <= 32_768 => {
                bits.repeat(length, place - from);
                place += length;
            }
            _ => {
                bits.symbol(data[place] as usize);
                place += 1;
            }
        }
    }
    bits.symbol(256);
    bits.bytes
}

/// How many bytes from two places on are the same, 258 at most.
fn common(data: &[u8], from: usize, to: usize) -> usize {
    let pairs = data[from..].iter().zip(&data[to..]);
    pairs.take(258).take_while(|(a, b)| a == b).count()
}
