//! SHA-256, as FIPS 180-4 has it.

use std::fmt::Write as _;
use std::io::{self, Write};

/// The first 32 bits of the fractions of the cube roots of the first 64 primes.
#[rustfmt::skip]
const ROUNDS: [u32; 64] = [
    0x428a2f98, 0x71374491, 0xb5c0fbcf, 0xe9b5dba5, 0x3956c25b, 0x59f111f1, 0x923f82a4, 0xab1c5ed5,
    0xd807aa98, 0x12835b01, 0x243185be, 0x550c7dc3, 0x72be5d74, 0x80deb1fe, 0x9bdc06a7, 0xc19bf174,
    0xe49b69c1, 0xefbe4786, 0x0fc19dc6, 0x240ca1cc, 0x2de92c6f, 0x4a7484aa, 0x5cb0a9dc, 0x76f988da,
    0x983e5152, 0xa831c66d, 0xb00327c8, 0xbf597fc7, 0xc6e00bf3, 0xd5a79147, 0x06ca6351, 0x14292967,
    0x27b70a85, 0x2e1b2138, 0x4d2c6dfc, 0x53380d13, 0x650a7354, 0x766a0abb, 0x81c2c92e, 0x92722c85,
    0xa2bfe8a1, 0xa81a664b, 0xc24b8b70, 0xc76c51a3, 0xd192e819, 0xd6990624, 0xf40e3585, 0x106aa070,
    0x19a4c116, 0x1e376c08, 0x2748774c, 0x34b0bcb5, 0x391c0cb3, 0x4ed8aa4a, 0x5b9cca4f, 0x682e6ff3,
    0x748f82ee, 0x78a5636f, 0x84c87814, 0x8cc70208, 0x90befffa, 0xa4506ceb, 0xbef9a3f7, 0xc67178f2,
];

/// The first 32 bits of the fractions of the square roots of the first 8 primes.
const START: [u32; 8] =
    [0x6a09e667, 0xbb67ae85, 0x3c6ef372, 0xa54ff53a, 0x510e527f, 0x9b05688c, 0x1f83d9ab, 0x5be0cd19];

/// A block's bytes.
const BLOCK: usize = 64;

/// A sum under way.
#[derive(Clone, Debug)]
pub struct Sha256 {
    state: [u32; 8],
    /// The bytes that no whole block has taken yet, `length` modulo 64 of them.
    rest: [u8; BLOCK],
    length: u64,
}

impl Sha256 {
    /// Of no byte yet.
    pub fn new() -> Self {
        Self { state: START, rest: [0; BLOCK], length: 0 }
    }

    fn held(&self) -> usize {
        (self.length % BLOCK as u64) as usize
    }

    /// Takes the bytes that come next.
    pub fn update(&mut self, bytes: &[u8]) {
        let held = self.held();
        self.length = self.length.wrapping_add(bytes.len() as u64);
        let (first, bytes) = bytes.split_at(bytes.len().min(BLOCK - held));
        self.rest[held..held + first.len()].copy_from_slice(first);
        if held + first.len() < BLOCK {
            return;
        }
        mix(&mut self.state, &self.rest);
        let (blocks, last) = bytes.as_chunks::<BLOCK>();
        for block in blocks {
            mix(&mut self.state, block);
        }
        self.rest[..last.len()].copy_from_slice(last);
    }

    /// The sum of all that came.
    pub fn finish(mut self) -> [u8; 32] {
        let bits = self.length.wrapping_mul(8).to_be_bytes();
        // A 1, then zeros until 8 bytes are left of a block, then how many bits came.
        let zeros = (2 * BLOCK - 9 - self.held()) % BLOCK;
        self.update(&[0x80]);
        self.update(&[0; BLOCK][..zeros]);
        self.update(&bits);
        let mut sum = [0; 32];
        for (bytes, word) in sum.chunks_exact_mut(4).zip(self.state) {
            bytes.copy_from_slice(&word.to_be_bytes());
        }
        sum
    }
}

impl Default for Sha256 {
    fn default() -> Self {
        Self::new()
    }
}

/// Takes one block into the state.
fn mix(state: &mut [u32; 8], block: &[u8; BLOCK]) {
    let w = schedule(block);
    let [mut a, mut b, mut c, mut d, mut e, mut f, mut g, mut h] = *state;
    for (round, word) in ROUNDS.iter().zip(w) {
        let s1 = e.rotate_right(6) ^ e.rotate_right(11) ^ e.rotate_right(25);
        let choice = (e & f) ^ (!e & g);
        let t1 = h.wrapping_add(s1).wrapping_add(choice).wrapping_add(*round).wrapping_add(word);
        let s0 = a.rotate_right(2) ^ a.rotate_right(13) ^ a.rotate_right(22);
        let majority = (a & b) ^ (a & c) ^ (b & c);
        (h, g, f, e) = (g, f, e, d.wrapping_add(t1));
        (d, c, b, a) = (c, b, a, t1.wrapping_add(s0.wrapping_add(majority)));
    }
    for (old, new) in state.iter_mut().zip([a, b, c, d, e, f, g, h]) {
        *old = old.wrapping_add(new);
    }
}

/// A block's words and those that follow from them.
fn schedule(block: &[u8; BLOCK]) -> [u32; 64] {
    let mut w = [0u32; 64];
    for (word, bytes) in w.iter_mut().zip(block.as_chunks::<4>().0) {
        *word = u32::from_be_bytes(*bytes);
    }
    for t in 16..64 {
        let s0 = w[t - 15].rotate_right(7) ^ w[t - 15].rotate_right(18) ^ (w[t - 15] >> 3);
        let s1 = w[t - 2].rotate_right(17) ^ w[t - 2].rotate_right(19) ^ (w[t - 2] >> 10);
        w[t] = w[t - 16].wrapping_add(s0).wrapping_add(w[t - 7]).wrapping_add(s1);
    }
    w
}

/// The sum of these bytes.
pub fn of(bytes: &[u8]) -> [u8; 32] {
    let mut sum = Sha256::new();
    sum.update(bytes);
    sum.finish()
}

/// In small hexadecimal digits, two a byte.
pub fn hex(bytes: &[u8]) -> String {
    bytes.iter().fold(String::with_capacity(2 * bytes.len()), |mut text, byte| {
        // Writing to a String does not fail.
        let _ = write!(text, "{byte:02x}");
        text
    })
}

/// Hands on what is written, and sums it up.
#[derive(Debug)]
pub struct Summed<W> {
    inner: W,
    sum: Sha256,
}

impl<W: Write> Summed<W> {
    /// Sums up what will go to `inner`.
    pub fn new(inner: W) -> Self {
        Self { inner, sum: Sha256::new() }
    }

    /// The sum of what was written.
    pub fn finish(self) -> [u8; 32] {
        self.sum.finish()
    }
}

impl<W: Write> Write for Summed<W> {
    fn write(&mut self, bytes: &[u8]) -> io::Result<usize> {
        let taken = self.inner.write(bytes)?;
        self.sum.update(&bytes[..taken]);
        Ok(taken)
    }

    fn flush(&mut self) -> io::Result<()> {
        self.inner.flush()
    }
}

#[cfg(test)]
mod tests {
    use super::*;

    // The messages and sums of FIPS 180-4's examples.
    const EMPTY: &str = "e3b0c44298fc1c149afbf4c8996fb92427ae41e4649b934ca495991b7852b855";
    const ABC: &str = "ba7816bf8f01cfea414140de5dae2223b00361a396177a9cb410ff61f20015ad";
    const TWO_BLOCKS: &str = "248d6a61d20638b8e5c026930c3e6039a33ce45964ff2167f6ecedd419db06c1";
    const MILLION: &str = "cdc76e5c9914fb9281a1c7e284d73e67f1809a48a497200e046d39ccc7112cd0";

    #[test]
    fn the_standards_examples() {
        assert_eq!(hex(&of(b"")), EMPTY);
        assert_eq!(hex(&of(b"abc")), ABC);
        assert_eq!(hex(&of(b"abcdbcdecdefdefgefghfghighijhijkijkljklmklmnlmnomnopnopq")), TWO_BLOCKS);
        assert_eq!(hex(&of(&vec![b'a'; 1_000_000])), MILLION);
    }

    /// The sums of 0 to 199 bytes, summed up: every length of the last block.
    #[test]
    fn every_length_of_the_last_block() {
        let bytes: Vec<u8> = (0..200).collect();
        let sums: Vec<u8> = (0..200).flat_map(|n| of(&bytes[..n])).collect();
        // By Python's hashlib: sha256(b"".join(sha256(bytes(range(n))).digest() for n in range(200))).
        assert_eq!(hex(&of(&sums)), "ba7b0fcea7d10c06b855b43d2b4dce1e3e842fff6be0acefb0faf4f2dd05bb47");
    }

    #[test]
    fn the_pieces_do_not_matter() {
        let bytes: Vec<u8> = (0u32..1000).map(|i| (i * i % 251) as u8).collect();
        for piece in [1, 2, 3, 63, 64, 65, 127, 128, 129, 999] {
            let mut sum = Sha256::new();
            bytes.chunks(piece).for_each(|bytes| sum.update(bytes));
            assert_eq!(sum.finish(), of(&bytes), "pieces of {piece}");
        }
    }

    /// Takes at most three bytes at a time.
    struct Slow(Vec<u8>);

    impl Write for Slow {
        fn write(&mut self, bytes: &[u8]) -> io::Result<usize> {
            self.0.write(&bytes[..bytes.len().min(3)])
        }

        fn flush(&mut self) -> io::Result<()> {
            Ok(())
        }
    }

    #[test]
    fn a_writer_that_takes_little_is_summed_up_once() {
        let mut slow = Slow(Vec::new());
        let mut summed = Summed::new(&mut slow);
        summed.write_all(b"abcdbcdecdef").unwrap();
        assert_eq!(summed.finish(), of(b"abcdbcdecdef"));
        assert_eq!(slow.0, b"abcdbcdecdef");
    }
}
