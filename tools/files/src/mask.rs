//! Masks: a layer's pixels, as picture files have them.

use crate::zip::crc32;
use png::{BitDepth, ColorType, Compression, Decoder, Encoder, FilterType, Limits, PixelDimensions, Unit, chunk};
use std::io::{self, Cursor, ErrorKind, Write};
use std::str::FromStr;

/// How a mask is written.
#[derive(Clone, Copy, Debug, PartialEq, Eq, Hash)]
pub enum Format {
    /// PNG, a bit a pixel.
    Png1,
    /// PNG, 256 levels of grey.
    Png8,
    /// Netpbm's P4, where 1 is material, whatever the colour of material.
    Pbm,
}

impl Format {
    /// As the flags and manifests have it.
    pub fn name(self) -> &'static str {
        match self {
            Format::Png1 => "png1",
            Format::Png8 => "png8",
            Format::Pbm => "pbm",
        }
    }

    /// The file's ending, without the point.
    pub fn ending(self) -> &'static str {
        match self {
            Format::Png1 | Format::Png8 => "png",
            Format::Pbm => "pbm",
        }
    }
}

impl FromStr for Format {
    type Err = String;

    fn from_str(name: &str) -> Result<Self, String> {
        [Format::Png1, Format::Png8, Format::Pbm]
            .into_iter()
            .find(|format| format.name() == name)
            .ok_or_else(|| format!("'{name}' is not png1, png8 or pbm"))
    }
}

/// The colour of material in a PNG.
#[derive(Clone, Copy, Debug, PartialEq, Eq, Hash)]
pub enum Material {
    /// White on black.
    White,
    /// Black on white.
    Black,
}

impl Material {
    /// As the flags and manifests have it.
    pub fn name(self) -> &'static str {
        match self {
            Material::White => "white",
            Material::Black => "black",
        }
    }

    /// What turns material into a colour and back: 0 leaves a byte as it is, 255 changes all its bits.
    fn flip(self) -> u8 {
        match self {
            Material::White => 0,
            Material::Black => 0xff,
        }
    }
}

impl FromStr for Material {
    type Err = String;

    fn from_str(name: &str) -> Result<Self, String> {
        [Material::White, Material::Black]
            .into_iter()
            .find(|material| material.name() == name)
            .ok_or_else(|| format!("'{name}' is not white or black"))
    }
}

/// What else a picture file says.
#[derive(Clone, Copy, Debug, PartialEq, Eq)]
pub struct Style {
    /// Which file.
    pub format: Format,
    /// Which colour material has; a PBM takes no notice of it.
    pub material: Material,
    /// Pixels a metre, along x and y; a PBM does not have it.
    pub density: Option<(u32, u32)>,
}

/// The pixels, by rows from the first row of the picture on.
#[derive(Clone, Debug, PartialEq, Eq)]
pub enum Pixels {
    /// A bit a pixel, 1 is material; rows are whole bytes, the first pixel is a byte's highest bit, as in P4.
    Bits(Vec<u8>),
    /// A byte a pixel: 0 has no material, 255 is all material.
    Grey(Vec<u8>),
}

/// A layer's picture.
#[derive(Clone, Debug, PartialEq, Eq)]
pub struct Mask {
    width: u32,
    height: u32,
    pixels: Pixels,
}

impl Mask {
    /// A mask of these pixels. None if they are not as many as the sizes say, or if a size is 0.
    pub fn new(width: u32, height: u32, pixels: Pixels) -> Option<Self> {
        let (row, bytes) = match &pixels {
            Pixels::Bits(bytes) => (row_bytes(width), bytes),
            Pixels::Grey(bytes) => (width as usize, bytes),
        };
        let fits = row > 0 && height > 0 && row.checked_mul(height as usize) == Some(bytes.len());
        let mut mask = fits.then_some(Self { width, height, pixels })?;
        mask.clear_padding();
        Some(mask)
    }

    /// The bits behind a row's last pixel are 0, so that masks of the same pixels are equal.
    fn clear_padding(&mut self) {
        let (width, used) = (self.width, 8 - self.width.wrapping_neg() % 8);
        if let Pixels::Bits(bytes) = &mut self.pixels {
            for row in bytes.chunks_exact_mut(row_bytes(width)) {
                row[row_bytes(width) - 1] &= !(0xff_u16 >> used) as u8;
            }
        }
    }

    /// Pixels in a row.
    pub fn width(&self) -> u32 {
        self.width
    }

    /// Rows.
    pub fn height(&self) -> u32 {
        self.height
    }

    /// All pixels.
    pub fn pixels(&self) -> &Pixels {
        &self.pixels
    }

    /// How much of a pixel is material, of 255. Panics if it is not in the picture.
    pub fn level(&self, column: u32, row: u32) -> u8 {
        assert!(column < self.width && row < self.height, "({column}, {row}) is not in the picture");
        let (column, row) = (column as usize, row as usize);
        match &self.pixels {
            Pixels::Bits(bytes) => {
                let byte = bytes[row * row_bytes(self.width) + column / 8];
                if byte << (column % 8) & 0x80 == 0 { 0 } else { 255 }
            }
            Pixels::Grey(bytes) => bytes[row * self.width as usize + column],
        }
    }

    /// How many pixels have material, be it a part of them.
    pub fn filled(&self) -> u64 {
        match &self.pixels {
            Pixels::Bits(bytes) => bytes.iter().map(|byte| u64::from(byte.count_ones())).sum(),
            Pixels::Grey(bytes) => bytes.iter().map(|byte| u64::from(*byte != 0)).sum(),
        }
    }
}

/// The bytes of a row of bits.
pub fn row_bytes(width: u32) -> usize {
    width.div_ceil(8) as usize
}

/// The level of a pixel of which `count` of `of` samples have material: the nearest of 255ths, so that none is 0 and
/// all is 255.
pub fn level(count: u32, of: u32) -> u8 {
    assert!(count <= of && of > 0, "{count} samples of {of}");
    ((u64::from(count) * 510 + u64::from(of)) / (2 * u64::from(of))) as u8
}

/// Writes a mask as a picture file. One of greys cannot be written by bits: that is an error.
pub fn encode(mask: &Mask, style: Style, to: &mut dyn Write) -> io::Result<()> {
    let depth = match style.format {
        Format::Pbm => return encode_pbm(mask, to),
        Format::Png1 => BitDepth::One,
        Format::Png8 => BitDepth::Eight,
    };
    let mut encoder = Encoder::new(to, mask.width, mask.height);
    encoder.set_color(ColorType::Grayscale);
    encoder.set_depth(depth);
    // Rows as they are: a mask has long runs, and Debian's png, 0.17.7, streams filters of the row above wrongly.
    encoder.set_filter(FilterType::NoFilter);
    encoder.set_compression(Compression::Fast);
    let mut writer = encoder.write_header()?;
    if let Some((x, y)) = style.density {
        writer.write_chunk(chunk::pHYs, &[&x.to_be_bytes()[..], &y.to_be_bytes(), &[1]].concat())?;
    }
    let mut stream = writer.stream_writer()?;
    let flip = style.material.flip();
    match (&mask.pixels, depth) {
        (Pixels::Bits(bytes), BitDepth::One) => write_bits(mask.width, bytes, flip, &mut stream)?,
        (Pixels::Bits(bytes), _) => write_bits_as_grey(mask.width, bytes, flip, &mut stream)?,
        (Pixels::Grey(_), BitDepth::One) => return Err(greys_by_bits()),
        (Pixels::Grey(bytes), _) => write_grey(mask.width, bytes, flip, &mut stream)?,
    }
    stream.finish()?;
    Ok(writer.finish()?)
}

fn greys_by_bits() -> io::Error {
    io::Error::new(ErrorKind::InvalidInput, "greys cannot be written by a bit a pixel")
}

fn write_bits(width: u32, bytes: &[u8], flip: u8, to: &mut impl Write) -> io::Result<()> {
    let mut line = vec![0; row_bytes(width)];
    for row in bytes.chunks_exact(line.len()) {
        line.iter_mut().zip(row).for_each(|(to, from)| *to = from ^ flip);
        to.write_all(&line)?;
    }
    Ok(())
}

fn write_bits_as_grey(width: u32, bytes: &[u8], flip: u8, to: &mut impl Write) -> io::Result<()> {
    let mut line = vec![0; 8 * row_bytes(width)];
    for row in bytes.chunks_exact(row_bytes(width)) {
        for (eight, byte) in line.as_chunks_mut::<8>().0.iter_mut().zip(row) {
            *eight = std::array::from_fn(|i| (byte >> (7 - i) & 1).wrapping_neg() ^ flip);
        }
        to.write_all(&line[..width as usize])?;
    }
    Ok(())
}

fn write_grey(width: u32, bytes: &[u8], flip: u8, to: &mut impl Write) -> io::Result<()> {
    let mut line = vec![0; width as usize];
    for row in bytes.chunks_exact(line.len()) {
        line.iter_mut().zip(row).for_each(|(to, from)| *to = from ^ flip);
        to.write_all(&line)?;
    }
    Ok(())
}

fn encode_pbm(mask: &Mask, to: &mut dyn Write) -> io::Result<()> {
    let Pixels::Bits(bytes) = &mask.pixels else { return Err(greys_by_bits()) };
    write!(to, "P4\n{} {}\n", mask.width, mask.height)?;
    to.write_all(bytes)
}

/// Reads such a file; of a PNG `material` is the colour that counts as material.
pub fn decode(file: &[u8], material: Material) -> io::Result<(Mask, Style)> {
    if file.starts_with(b"P4") { decode_pbm(file, material) } else { decode_png(file, material) }
}

fn wrong(what: &str) -> io::Error {
    io::Error::new(ErrorKind::InvalidData, what)
}

/// The most bytes of a picture's pixels that are read: a damaged file may ask for any number.
const MOST: usize = 1 << 30;

/// Whether a PNG's chunks follow one another to the last, and each has its checksum. The `png` crate stops reading at
/// the last pixel.
fn chunks_are_whole(file: &[u8]) -> bool {
    let mut rest = file.get(8..).unwrap_or_default();
    while let Some((size, after)) = rest.split_first_chunk() {
        // The chunk's name, its bytes, and their checksum.
        let size = u32::from_be_bytes(*size) as usize;
        let Some((chunk, after)) = size.checked_add(4).and_then(|size| after.split_at_checked(size)) else {
            return false;
        };
        let Some((crc, after)) = after.split_first_chunk() else { return false };
        if u32::from_be_bytes(*crc) != crc32(chunk) {
            return false;
        }
        if chunk == b"IEND" {
            return after.is_empty();
        }
        rest = after;
    }
    false
}

fn decode_png(file: &[u8], material: Material) -> io::Result<(Mask, Style)> {
    if !chunks_are_whole(file) {
        return Err(wrong("not a whole PNG"));
    }
    let mut reader = Decoder::new_with_limits(Cursor::new(file), Limits { bytes: MOST }).read_info()?;
    let info = reader.info();
    let (width, height) = (info.width, info.height);
    let (format, row) = match (info.color_type, info.bit_depth) {
        (ColorType::Grayscale, BitDepth::One) => (Format::Png1, row_bytes(width)),
        (ColorType::Grayscale, BitDepth::Eight) => (Format::Png8, width as usize),
        _ => return Err(wrong("a PNG that is not grey of 1 or 8 bits")),
    };
    let density = info.pixel_dims.and_then(metres);
    let size = row.checked_mul(height as usize).filter(|size| *size <= MOST);
    let mut bytes = vec![0; size.ok_or_else(|| wrong("a picture too large"))?];
    reader.next_frame(&mut bytes)?;
    bytes.iter_mut().for_each(|byte| *byte ^= material.flip());
    let pixels = if format == Format::Png1 { Pixels::Bits(bytes) } else { Pixels::Grey(bytes) };
    let mask = Mask::new(width, height, pixels).ok_or_else(|| wrong("a picture without pixels"))?;
    Ok((mask, Style { format, material, density }))
}

fn metres(dims: PixelDimensions) -> Option<(u32, u32)> {
    matches!(dims.unit, Unit::Meter).then_some((dims.xppu, dims.yppu))
}

fn decode_pbm(file: &[u8], material: Material) -> io::Result<(Mask, Style)> {
    let (header, bytes) = pbm_header(file).ok_or_else(|| wrong("a PBM without its header"))?;
    let mask = Mask::new(header.0, header.1, Pixels::Bits(bytes.to_vec()))
        .ok_or_else(|| wrong("a PBM that does not have the pixels that its header says"))?;
    Ok((mask, Style { format: Format::Pbm, material, density: None }))
}

/// The sizes that a P4 file begins with, and what comes behind them.
fn pbm_header(file: &[u8]) -> Option<((u32, u32), &[u8])> {
    let mut rest = file.strip_prefix(b"P4")?;
    let mut sizes = [0; 2];
    for size in &mut sizes {
        rest = rest.trim_ascii_start();
        let digits = rest.iter().position(|byte| !byte.is_ascii_digit())?;
        *size = std::str::from_utf8(&rest[..digits]).ok()?.parse().ok()?;
        rest = &rest[digits..];
    }
    let (space, bytes) = rest.split_first()?;
    space.is_ascii_whitespace().then_some(((sizes[0], sizes[1]), bytes))
}

#[cfg(test)]
mod tests {
    use super::*;
    use crate::tests::{Folder, other};
    use std::ffi::OsStr;
    use std::fs;

    const STYLE: Style = Style { format: Format::Png1, material: Material::White, density: Some((20_000, 19_999)) };

    /// A picture of bits, or of greys, without any order in it.
    fn random(width: u32, height: u32, grey: bool) -> Mask {
        let mut seed = u64::from(width) * 1_000_003 + u64::from(height);
        let mut byte = || {
            seed = seed.wrapping_mul(6_364_136_223_846_793_005).wrapping_add(1_442_695_040_888_963_407);
            (seed >> 56) as u8
        };
        let row = if grey { width as usize } else { row_bytes(width) };
        let bytes = (0..row * height as usize).map(|_| byte()).collect();
        Mask::new(width, height, if grey { Pixels::Grey(bytes) } else { Pixels::Bits(bytes) }).unwrap()
    }

    /// Every style that a mask of bits, or of greys, can be written in.
    fn styles(grey: bool) -> Vec<Style> {
        let formats: &[Format] = if grey { &[Format::Png8] } else { &[Format::Png1, Format::Png8, Format::Pbm] };
        let of = |&format| [Material::White, Material::Black].map(|material| Style { format, material, ..STYLE });
        formats.iter().flat_map(of).collect()
    }

    fn file(mask: &Mask, style: Style) -> Vec<u8> {
        let mut file = Vec::new();
        encode(mask, style, &mut file).unwrap();
        file
    }

    fn levels(mask: &Mask) -> Vec<u8> {
        (0..mask.height())
            .flat_map(|row| (0..mask.width()).map(move |column| (column, row)))
            .map(|(column, row)| mask.level(column, row))
            .collect()
    }

    #[test]
    fn what_is_written_is_read_again() {
        for (width, height) in [(1, 1), (7, 3), (8, 2), (9, 5), (64, 64), (513, 17)] {
            for grey in [false, true] {
                let mask = random(width, height, grey);
                for style in styles(grey) {
                    let (read, said) = decode(&file(&mask, style), style.material).unwrap();
                    assert_eq!(levels(&read), levels(&mask), "{width} by {height}, {style:?}");
                    assert_eq!(read.filled(), mask.filled());
                    let density = style.density.filter(|_| style.format != Format::Pbm);
                    assert_eq!(said, Style { density, ..style });
                }
            }
        }
    }

    #[test]
    fn material_has_its_colour() {
        let mask = Mask::new(3, 1, Pixels::Bits(vec![0b1011_1111])).unwrap();
        assert_eq!(levels(&mask), [255, 0, 255]);
        for (style, says) in [(Material::White, [255, 0, 255]), (Material::Black, [0, 255, 0])]
            .map(|(material, says)| (Style { material, ..STYLE }, says))
        {
            for format in [Format::Png1, Format::Png8] {
                // Read as if white were material, the levels are the colours.
                let (read, _) = decode(&file(&mask, Style { format, ..style }), Material::White).unwrap();
                assert_eq!(levels(&read), says, "{format:?} {style:?}");
            }
        }
        assert_eq!(file(&mask, Style { format: Format::Pbm, ..STYLE }), b"P4\n3 1\n\xa0");
    }

    /// Bits behind the last pixel say nothing.
    #[test]
    fn padding_does_not_matter() {
        for width in 1..=16 {
            let row = row_bytes(width);
            let full = Mask::new(width, 2, Pixels::Bits(vec![255; 2 * row])).unwrap();
            assert_eq!(full.filled(), u64::from(2 * width));
            assert_eq!(levels(&full), vec![255; 2 * width as usize]);
        }
    }

    #[test]
    fn pixels_that_do_not_fit_are_no_mask() {
        assert_eq!(Mask::new(9, 2, Pixels::Bits(vec![0; 3])), None);
        assert_eq!(Mask::new(9, 2, Pixels::Grey(vec![0; 19])), None);
        assert_eq!(Mask::new(0, 2, Pixels::Grey(vec![])), None);
        assert_eq!(Mask::new(9, 0, Pixels::Bits(vec![])), None);
    }

    #[test]
    fn levels_are_the_nearest() {
        assert_eq!([0, 1, 2, 3, 4].map(|count| level(count, 4)), [0, 64, 128, 191, 255]);
        assert_eq!([0, 1].map(|count| level(count, 1)), [0, 255]);
        for count in 0..=16u32 {
            let exact = f64::from(count) * 255.0 / 16.0;
            assert!((f64::from(level(count, 16)) - exact).abs() <= 0.5);
        }
    }

    #[test]
    fn greys_are_not_written_by_bits() {
        let mask = random(5, 5, true);
        for format in [Format::Png1, Format::Pbm] {
            let wrong = encode(&mask, Style { format, ..STYLE }, &mut Vec::new()).unwrap_err();
            assert_eq!(wrong.kind(), ErrorKind::InvalidInput);
        }
    }

    /// Each cut and each changed byte of a file: an error, or another picture, and no panic.
    #[test]
    fn damaged_files_are_refused() {
        let mask = random(21, 5, false);
        for style in styles(false) {
            let whole = file(&mask, style);
            for length in 0..whole.len() {
                assert!(decode(&whole[..length], style.material).is_err(), "{style:?} cut to {length}");
            }
            for place in 0..whole.len() {
                let mut file = whole.clone();
                file[place] ^= 0x10;
                match decode(&file, style.material) {
                    Ok((read, _)) if style.format == Format::Pbm => assert_ne!(read, mask, "byte {place}"),
                    Ok(_) => panic!("{style:?}: byte {place} is not noticed"),
                    Err(_) => {}
                }
            }
        }
    }

    /// Full at any byte: the error comes out, also that of the last bytes.
    #[test]
    fn a_full_disk_is_told() {
        struct Full(usize);
        impl Write for Full {
            fn write(&mut self, bytes: &[u8]) -> io::Result<usize> {
                let taken = bytes.len().min(self.0);
                self.0 -= taken;
                if taken == 0 { Err(ErrorKind::StorageFull.into()) } else { Ok(taken) }
            }

            fn flush(&mut self) -> io::Result<()> {
                Ok(())
            }
        }
        let mask = random(30, 30, false);
        for style in styles(false) {
            let whole = file(&mask, style).len();
            for room in 0..whole {
                assert!(encode(&mask, style, &mut Full(room)).is_err(), "{style:?}, room for {room} of {whole}");
            }
            encode(&mask, style, &mut Full(whole)).unwrap();
        }
    }

    /// Python's zlib, and a few lines that know PNG and P4: for each file a line of levels, then one of pixels a metre.
    const READER: &str = r"
import struct, sys, zlib
for path in sys.argv[1:]:
    data = open(path, 'rb').read()
    density = 'none'
    if data[:2] == b'P4':
        width, height = (int(n) for n in data.split(b'\n')[1].split())
        depth, rows = 1, data.split(b'\n', 2)[2]
        row = (width + 7) // 8
        rows = [rows[i * row:(i + 1) * row] for i in range(height)]
    else:
        assert data[:8] == b'\x89PNG\r\n\x1a\n'
        at, pixels, ended = 8, b'', False
        while at < len(data):
            size, kind = struct.unpack('>I4s', data[at:at + 8])
            body = data[at + 8:at + 8 + size]
            assert struct.unpack('>I', data[at + 8 + size:at + 12 + size])[0] == zlib.crc32(kind + body)
            at += 12 + size
            if kind == b'IHDR':
                width, height, depth, colour, packing, filters, lace = struct.unpack('>IIBBBBB', body)
                assert (colour, packing, filters, lace) == (0, 0, 0, 0)
            if kind == b'pHYs':
                x, y, unit = struct.unpack('>IIB', body)
                assert unit == 1 and not pixels
                density = '%d %d' % (x, y)
            if kind == b'IDAT':
                pixels += body
            if kind == b'IEND':
                ended = at == len(data)
        assert ended
        pixels = zlib.decompress(pixels)
        row = (width * depth + 7) // 8
        assert len(pixels) == (row + 1) * height
        rows = []
        for i in range(height):
            line = pixels[i * (row + 1):(i + 1) * (row + 1)]
            assert line[0] == 0
            rows.append(line[1:])
    for line in rows:
        if depth == 1:
            print(*(255 * (line[i // 8] >> (7 - i % 8) & 1) for i in range(width)), end=' ')
        else:
            print(*line, end=' ')
    print()
    print(density)
";

    /// Colours as another program has them: those of a PNG as they are, those of a PBM 255 for material.
    fn colours(mask: &Mask, style: Style) -> Vec<u8> {
        let flip = if style.format == Format::Pbm { 0 } else { style.material.flip() };
        levels(mask).iter().map(|level| level ^ flip).collect()
    }

    #[test]
    fn another_program_reads_the_same() {
        let folder = Folder::new();
        let sizes = [(1, 1, false), (19, 7, false), (64, 9, false), (33, 8, true)];
        let masks = sizes.map(|(width, height, grey)| (random(width, height, grey), styles(grey)));
        let cases: Vec<_> =
            masks.iter().flat_map(|(mask, styles)| styles.iter().map(move |style| (mask, *style))).collect();
        let paths: Vec<_> = (0..cases.len()).map(|number| folder.path(&number.to_string())).collect();
        for ((mask, style), path) in cases.iter().zip(&paths) {
            fs::write(path, file(mask, *style)).unwrap();
        }
        let arguments: Vec<&OsStr> =
            ["-c", READER].into_iter().map(OsStr::new).chain(paths.iter().map(|path| path.as_os_str())).collect();
        let Some(said) = other("python3", &arguments) else { return };
        let mut lines = said.lines();
        for (mask, style) in cases {
            let pixels: Vec<u8> =
                lines.next().unwrap().split_whitespace().map(|level| level.parse().unwrap()).collect();
            assert_eq!(pixels, colours(mask, style), "{style:?}");
            let written = if style.format == Format::Pbm { "none" } else { "20000 19999" };
            assert_eq!(lines.next(), Some(written));
        }
        assert_eq!(lines.next(), None);
    }

    /// Netpbm's pngtopnm where it is at hand: P4 or P5, in plain letters.
    #[test]
    fn netpbm_reads_the_same() {
        let folder = Folder::new();
        let path = folder.path("mask");
        for (width, height, grey) in [(19, 7, false), (33, 8, true)] {
            let mask = random(width, height, grey);
            for style in styles(grey).into_iter().filter(|style| style.format != Format::Pbm) {
                fs::write(&path, file(&mask, style)).unwrap();
                let Some(said) = other("pngtopnm", &["-plain".as_ref(), path.as_ref()]) else { return };
                let mut words = said.split_whitespace();
                let (kind, sizes) = (words.next().unwrap(), [words.next().unwrap(), words.next().unwrap()]);
                assert_eq!(sizes, [width.to_string(), height.to_string()]);
                let pixels: Vec<u8> = if kind == "P1" {
                    words.flat_map(str::bytes).map(|digit| if digit == b'0' { 255 } else { 0 }).collect()
                } else {
                    words.skip(1).map(|level| level.parse().unwrap()).collect()
                };
                assert_eq!(pixels, colours(&mask, style), "{width} by {height}, {style:?}");
            }
        }
    }
}
