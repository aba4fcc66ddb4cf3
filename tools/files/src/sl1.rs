//! SL1 archives, which PrusaSlicer imports: a stored zip of two files of settings and a picture a layer.
//!
//! The pictures are PNGs of 8-bit grey with white material, also where the masks are of bits: of 1-bit ones PrusaSlicer
//! makes no model, without a word. Their first row is that of the greatest y; nothing is turned or mirrored.

use crate::mask::{self, Format, Mask, Material, Style};
use crate::zip::Zip;
use std::io::{self, ErrorKind, Write};

/// What an archive says of its layers. Lengths are in mm, as decimal numbers.
#[derive(Clone, Debug, PartialEq, Eq)]
pub struct Job {
    /// The job's name: ASCII letters, digits, `-` and `_`. Its pictures are called by it.
    pub name: String,
    /// The printer's name.
    pub printer: String,
    /// Pixels of the display along x and y.
    pub pixels: (u32, u32),
    /// The display's size along x and y.
    pub size: (String, String),
    /// The height of a layer.
    pub layer_height: String,
    /// The greatest height that the printer prints.
    pub max_height: String,
    /// How many layers.
    pub layers: usize,
}

/// The most layers: a picture's number has five digits.
pub const MOST_LAYERS: usize = 65_533;

/// Writes an archive. `layer` gives each layer's mask in turn; a mask of another size than the display is an error.
pub fn write(job: &Job, to: &mut dyn Write, layer: &mut dyn FnMut(usize) -> io::Result<Mask>) -> io::Result<()> {
    if let Some(wrong) = job.wrong() {
        return Err(io::Error::new(ErrorKind::InvalidInput, wrong));
    }
    let mut zip = Zip::new(to);
    zip.add("config.ini", job.config().as_bytes())?;
    zip.add("prusaslicer.ini", job.profile().as_bytes())?;
    for number in 0..job.layers {
        let mask = layer(number)?;
        if (mask.width(), mask.height()) != job.pixels {
            return Err(io::Error::new(ErrorKind::InvalidInput, "a mask of another size than the display"));
        }
        zip.add(&job.picture(number), &picture(&mask)?)?;
    }
    zip.finish()?;
    Ok(())
}

fn picture(mask: &Mask) -> io::Result<Vec<u8>> {
    let mut file = Vec::new();
    mask::encode(mask, Style { format: Format::Png8, material: Material::White, density: None }, &mut file)?;
    Ok(file)
}

/// Whether a text is digits, perhaps with a point and digits.
fn is_decimal(text: &str) -> bool {
    let digits = |text: &str| !text.is_empty() && text.bytes().all(|byte| byte.is_ascii_digit());
    text.split_once('.').map_or(digits(text), |(whole, part)| digits(whole) && digits(part))
}

impl Job {
    /// The name of a layer's picture.
    pub fn picture(&self, number: usize) -> String {
        format!("{}{number:05}.png", self.name)
    }

    fn wrong(&self) -> Option<&'static str> {
        let letter = |byte: u8| byte.is_ascii_alphanumeric() || byte == b'-' || byte == b'_';
        let lengths = [&self.size.0, &self.size.1, &self.layer_height, &self.max_height];
        if self.name.is_empty() || !self.name.bytes().all(letter) {
            Some("a job's name has letters, digits, '-' and '_'")
        } else if self.printer.is_empty() || self.printer.chars().any(char::is_control) {
            Some("a printer's name is one line")
        } else if !lengths.into_iter().all(|length| is_decimal(length)) {
            Some("a length is a decimal number")
        } else if self.layers > MOST_LAYERS {
            Some("an SL1 archive has at most 65,533 layers")
        } else {
            None
        }
    }

    /// What a printer reads. Exposure is the shop's own: these are times to start from, and PrusaSlicer sets its own
    /// when the model is sliced again.
    fn config(&self) -> String {
        settings(&[
            ("action", "print"),
            ("expTime", "8"),
            ("expTimeFirst", "35"),
            ("expUserProfile", "0"),
            ("jobDir", &self.name),
            ("layerHeight", &self.layer_height),
            ("materialName", "unknown"),
            ("numFade", "0"),
            ("numFast", &self.layers.to_string()),
            ("numSlow", "0"),
            ("printProfile", "unknown"),
            ("printTime", "0"),
            ("printerModel", &self.printer),
            ("printerProfile", &self.printer),
            ("printerVariant", "default"),
            ("usedMaterial", "0"),
        ])
    }

    /// What PrusaSlicer reads to put the pixels in their place.
    fn profile(&self) -> String {
        let (x, y) = &self.size;
        settings(&[
            ("bed_shape", &format!("0x0,{x}x0,{x}x{y},0x{y}")),
            ("display_height", y),
            ("display_mirror_x", "0"),
            ("display_mirror_y", "0"),
            ("display_orientation", "landscape"),
            ("display_pixels_x", &self.pixels.0.to_string()),
            ("display_pixels_y", &self.pixels.1.to_string()),
            ("display_width", x),
            ("initial_layer_height", &self.layer_height),
            ("layer_height", &self.layer_height),
            ("max_print_height", &self.max_height),
            ("printer_technology", "SLA"),
        ])
    }
}

fn settings(lines: &[(&str, &str)]) -> String {
    lines.iter().map(|(name, value)| format!("{name} = {value}\n")).collect()
}

#[cfg(test)]
mod tests {
    use super::*;
    use crate::mask::Pixels;
    use crate::zip;

    fn job() -> Job {
        Job {
            name: "flange-2_a".into(),
            printer: "Mono 4K".into(),
            pixels: (20, 3),
            size: ("1".into(), "0.15".into()),
            layer_height: "0.05".into(),
            max_height: "150".into(),
            layers: 3,
        }
    }

    fn mask(number: usize) -> Mask {
        Mask::new(20, 3, Pixels::Bits((0..9).map(|byte| byte * 29 + number as u8).collect())).unwrap()
    }

    fn archive(job: &Job) -> io::Result<Vec<u8>> {
        let mut archive = Vec::new();
        write(job, &mut archive, &mut |number| Ok(mask(number)))?;
        Ok(archive)
    }

    /// The value of a setting, which is there once.
    fn setting<'a>(file: &'a [u8], name: &str) -> &'a str {
        let lines = std::str::from_utf8(file).unwrap().lines().filter_map(|line| line.split_once(" = "));
        let values: Vec<_> = lines.filter(|(other, _)| *other == name).map(|(_, value)| value).collect();
        assert_eq!(values.len(), 1, "{name}");
        values[0]
    }

    #[test]
    fn the_archive_has_settings_and_a_picture_a_layer() {
        let archive = archive(&job()).unwrap();
        let files = zip::read(&archive).unwrap();
        let names: Vec<_> = files.iter().map(|(name, _)| name.as_str()).collect();
        let pictures = ["flange-2_a00000.png", "flange-2_a00001.png", "flange-2_a00002.png"];
        assert_eq!(names, [&["config.ini", "prusaslicer.ini"][..], &pictures].concat());
        for (number, (_, file)) in files[2..].iter().enumerate() {
            let (read, style) = mask::decode(file, Material::White).unwrap();
            assert_eq!(style.format, Format::Png8);
            let pixels = (0..3).flat_map(|row| (0..20).map(move |column| (column, row)));
            for (column, row) in pixels {
                assert_eq!(read.level(column, row), mask(number).level(column, row), "layer {number}");
            }
        }
    }

    #[test]
    fn the_settings_are_those_that_are_asked_for() {
        let archive = archive(&job()).unwrap();
        let files = zip::read(&archive).unwrap();
        let (config, profile) = (files[0].1, files[1].1);
        for (name, value) in [("jobDir", "flange-2_a"), ("layerHeight", "0.05"), ("numFast", "3"), ("action", "print")]
        {
            assert_eq!(setting(config, name), value);
        }
        for (name, value) in [
            ("printer_technology", "SLA"),
            ("display_width", "1"),
            ("display_height", "0.15"),
            ("display_pixels_x", "20"),
            ("display_pixels_y", "3"),
            ("display_orientation", "landscape"),
            ("display_mirror_x", "0"),
            ("display_mirror_y", "0"),
            ("layer_height", "0.05"),
            ("initial_layer_height", "0.05"),
            ("bed_shape", "0x0,1x0,1x0.15,0x0.15"),
            ("max_print_height", "150"),
        ] {
            assert_eq!(setting(profile, name), value);
        }
    }

    #[test]
    fn what_does_not_fit_is_refused() {
        let wrong = [
            Job { name: String::new(), ..job() },
            Job { name: "../part".into(), ..job() },
            Job { printer: "a\nb".into(), ..job() },
            Job { pixels: (21, 3), ..job() },
            Job { size: ("1".into(), "1/3".into()), ..job() },
            Job { layer_height: "-1".into(), ..job() },
            Job { max_height: "1.".into(), ..job() },
            Job { layers: MOST_LAYERS + 1, ..job() },
        ];
        for job in wrong {
            assert_eq!(archive(&job).unwrap_err().kind(), ErrorKind::InvalidInput, "{job:?}");
        }
    }

    #[test]
    fn a_layer_that_cannot_be_had_is_told() {
        let mut lost = |number| if number == 1 { Err(ErrorKind::NotFound.into()) } else { Ok(mask(number)) };
        assert_eq!(write(&job(), &mut Vec::new(), &mut lost).unwrap_err().kind(), ErrorKind::NotFound);
    }
}
