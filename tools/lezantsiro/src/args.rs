//! The command line.

use crate::manifest::Shard;
use crate::plate::Origin;
use crate::printers::{pitches, size};
use crate::units::Fraction;
use clap::{Args, Parser, Subcommand};
use files::mask::{Format, Material};
use std::path::PathBuf;

const AFTER: &str = "\
Every pixel comes from a call of the proved core. This program places blocks of 512 by 512
pixels, scales axes so that a pitch is exact, and writes files; it is tested, not proved.

A PART is a formula as text (NAME.txt, or --formula), a .part with its grid, or a tape. What the
flags leave out is taken from the part's own grid. Lengths are in mm: 0.05, 0.05mm, 1/20, 50um.

Exit status: 0 done; 1 refused, with number, place and words; 2 wrong use; 3 values clamp, or a
check failed; 4 cannot write; 130 or 143 by a signal.";

/// From a formula to a printer's masks.
#[derive(Parser, Debug)]
#[command(name = "lezantsiro", version, about, after_help = AFTER)]
pub struct Cli {
    #[command(subcommand)]
    pub command: Command,
    /// How many cores to use [default: all]
    #[arg(long, global = true, value_name = "N", value_parser = clap::value_parser!(u16).range(1..))]
    pub jobs: Option<u16>,
    /// Say nothing but what is wrong
    #[arg(long, global = true)]
    pub quiet: bool,
    /// Say the result as JSON on standard output
    #[arg(long, global = true)]
    pub json: bool,
}

#[derive(Subcommand, Debug)]
pub enum Command {
    /// Draw one layer as a mask
    Layer(LayerArgs),
    /// Draw all layers as masks; a run that was stopped goes on where it was
    Stack(StackArgs),
    /// Draw the part from above: heights.pgm, and a picture to look at
    Heights(HeightsArgs),
    /// Say the formula's value at a point
    Probe(ProbeArgs),
    /// Say what a part and its plate come to, and draw nothing
    Check(CheckArgs),
    /// Compare a folder's masks with its manifests, and random pixels with the proved probe
    Verify(VerifyArgs),
    /// Write a folder's masks as an SL1 archive, which PrusaSlicer imports
    Sl1(Sl1Args),
    /// Print the plain formula that a text with names and the like comes to
    Expand(ExpandArgs),
    /// Make one part of several, where any of them has material
    Join(JoinArgs),
    /// Compare the masks of two folders, pixel by pixel
    Diff(DiffArgs),
    /// Say where clauses are run, layer by layer
    Time(TimeArgs),
    /// Write a folder's masks as one page to look at
    View(ViewArgs),
    /// Say why a pixel has material or none
    Why(WhyArgs),
    /// Draw what a part sweeps along a path
    Sweep(SweepArgs),
    /// Make a tape of a .vm file, as Fidget and mpr have them
    Import(ImportArgs),
}

#[derive(Args, Debug)]
pub struct PartArgs {
    /// A formula as text, a .part, or a tape
    #[arg(value_name = "PART")]
    pub part: Option<PathBuf>,
    /// The formula itself, in the place of a file
    #[arg(long, value_name = "TEXT", conflicts_with = "part", allow_hyphen_values = true)]
    pub formula: Option<String>,
}

#[derive(Args, Debug)]
pub struct PlateArgs {
    /// Pixels along x and y
    #[arg(long, value_name = "WxH", value_parser = parse_size)]
    pub size: Option<(u32, u32)>,
    /// A printer's pixels and pitch, by its name in the table
    #[arg(long, value_name = "NAME")]
    pub printer: Option<String>,
    /// Another table of printers than the tool's own, tools/printers.txt
    #[arg(long, value_name = "FILE")]
    pub printers: Option<PathBuf>,
    /// The side of a pixel, exactly; PXxPY where they are not square
    #[arg(long, value_name = "MM", value_parser = parse_pitch)]
    pub pitch: Option<[Fraction; 2]>,
    /// Draw with the nearest step of whole units, and say how far the far edge is off
    #[arg(long)]
    pub pitch_nearest: bool,
    /// centre: the plate's middle is at 0, 0; corner: its corner of least x and y is; X,Y: that corner is there
    #[arg(long, value_name = "WHERE", value_parser = parse_origin, allow_hyphen_values = true)]
    pub origin: Option<Origin>,
    /// Draw also where values clamp
    #[arg(long)]
    pub allow_clamped: bool,
}

#[derive(Args, Debug)]
pub struct LevelArgs {
    /// The height of a layer
    #[arg(long, value_name = "MM", value_parser = parse_positive)]
    pub layer_height: Option<Fraction>,
    /// Where the first layer begins [default: 0]
    #[arg(long, value_name = "MM", allow_hyphen_values = true)]
    pub z_from: Option<Fraction>,
    /// Where the last layer ends: those count whose middle is below
    #[arg(long, value_name = "MM", allow_hyphen_values = true)]
    pub z_to: Option<Fraction>,
}

#[derive(Args, Debug)]
pub struct MaskArgs {
    /// png1, png8 or pbm [default: png1, or png8 with --aa]
    #[arg(long, value_name = "FORMAT")]
    pub format: Option<Format>,
    /// Samples a pixel along each axis: grey is how many of n by n have material
    #[arg(long, value_name = "1|2|4", default_value_t = 1, value_parser = parse_aa)]
    pub aa: u32,
    /// up: the first row of a mask is that of the greatest y; down: of the least
    #[arg(long, value_name = "up|down", default_value = "up", value_parser = ["up", "down"])]
    pub y: String,
    /// The colour of material in a PNG: white or black
    #[arg(long, value_name = "COLOUR", default_value = "white")]
    pub material: Material,
    /// The folder of the masks [default: out/NAME]
    #[arg(long, value_name = "DIR")]
    pub out: Option<PathBuf>,
}

#[derive(Args, Debug)]
pub struct LayerArgs {
    #[command(flatten)]
    pub part: PartArgs,
    /// The layer's z
    #[arg(long, value_name = "MM", allow_hyphen_values = true)]
    pub z: Option<Fraction>,
    #[command(flatten)]
    pub plate: PlateArgs,
    #[command(flatten)]
    pub mask: MaskArgs,
}

#[derive(Args, Debug)]
pub struct StackArgs {
    #[command(flatten)]
    pub part: PartArgs,
    #[command(flatten)]
    pub levels: LevelArgs,
    #[command(flatten)]
    pub plate: PlateArgs,
    #[command(flatten)]
    pub mask: MaskArgs,
    /// Draw only a share of the layers, the Ith of N; all shares can go to one folder
    #[arg(long, value_name = "I/N")]
    pub shard: Option<Shard>,
}

#[derive(Args, Debug)]
pub struct HeightsArgs {
    #[command(flatten)]
    pub part: PartArgs,
    #[command(flatten)]
    pub levels: LevelArgs,
    #[command(flatten)]
    pub plate: PlateArgs,
    /// Write also shade.png, lit by the formula's slopes
    #[arg(long)]
    pub shade: bool,
    /// up: the first row is that of the greatest y; down: of the least
    #[arg(long, value_name = "up|down", default_value = "up", value_parser = ["up", "down"])]
    pub y: String,
    /// The folder of the pictures [default: out/NAME]
    #[arg(long, value_name = "DIR")]
    pub out: Option<PathBuf>,
}

#[derive(Args, Debug)]
pub struct ProbeArgs {
    /// The part, unless --formula is there, and then x, y and z in mm
    #[arg(value_name = "[PART] X Y Z", num_args = 3..=4, required = true, allow_negative_numbers = true)]
    pub words: Vec<String>,
    /// The formula itself, in the place of a file
    #[arg(long, value_name = "TEXT", allow_hyphen_values = true)]
    pub formula: Option<String>,
}

#[derive(Args, Debug)]
pub struct CheckArgs {
    #[command(flatten)]
    pub part: PartArgs,
    #[command(flatten)]
    pub levels: LevelArgs,
    #[command(flatten)]
    pub plate: PlateArgs,
    /// Samples a pixel along each axis
    #[arg(long, value_name = "1|2|4", default_value_t = 1, value_parser = parse_aa)]
    pub aa: u32,
}

#[derive(Args, Debug)]
pub struct VerifyArgs {
    /// The folder of the masks
    pub dir: PathBuf,
    /// How many random pixels of each layer to compare, half of them where material begins or ends
    #[arg(long, value_name = "N", default_value_t = 256)]
    pub pixels: u64,
    /// What picks the pixels [default: the time]
    #[arg(long)]
    pub seed: Option<u64>,
}

#[derive(Args, Debug)]
pub struct Sl1Args {
    /// The folder of the masks
    pub dir: PathBuf,
    /// The archive [default: DIR.sl1]
    #[arg(long, value_name = "FILE")]
    pub out: Option<PathBuf>,
    /// The printer's name and height, from the table
    #[arg(long, value_name = "NAME")]
    pub printer: Option<String>,
    /// Another table of printers
    #[arg(long, value_name = "FILE")]
    pub printers: Option<PathBuf>,
}

#[derive(Args, Debug)]
pub struct ExpandArgs {
    #[command(flatten)]
    pub part: PartArgs,
}

#[derive(Args, Debug)]
pub struct JoinArgs {
    /// The parts: two or more
    #[arg(value_name = "PART", num_args = 2.., required = true)]
    pub parts: Vec<PathBuf>,
    /// The tape of the whole
    #[arg(long, value_name = "FILE", default_value = "out/join.tape")]
    pub out: PathBuf,
}

#[derive(Args, Debug)]
pub struct DiffArgs {
    /// A folder of masks
    pub first: PathBuf,
    /// Another one, of the same plate
    pub second: PathBuf,
    /// The picture of where they differ
    #[arg(long, value_name = "FILE", default_value = "out/diff.png")]
    pub out: PathBuf,
}

#[derive(Args, Debug)]
pub struct TimeArgs {
    #[command(flatten)]
    pub part: PartArgs,
    #[command(flatten)]
    pub levels: LevelArgs,
    #[command(flatten)]
    pub plate: PlateArgs,
    /// Write the chart as a picture too
    #[arg(long, value_name = "FILE")]
    pub png: Option<PathBuf>,
}

#[derive(Args, Debug)]
pub struct ViewArgs {
    /// The folder of the masks
    pub dir: PathBuf,
    /// The page [default: DIR/view.html]
    #[arg(long, value_name = "FILE")]
    pub out: Option<PathBuf>,
    /// The most bytes of masks in it; beyond, every n-th layer is taken
    #[arg(long, value_name = "BYTES", hide = true)]
    pub largest: Option<usize>,
}

#[derive(Args, Debug)]
pub struct WhyArgs {
    /// The part, or a folder of masks, whose plate and layers are then taken
    #[command(flatten)]
    pub part: PartArgs,
    /// The pixel of the mask: its column from the left and its row from the top, from 0
    #[arg(long, value_name = "X,Y", value_parser = parse_pixel)]
    pub pixel: (u32, u32),
    /// The layer, counted from 0
    #[arg(long, value_name = "K", default_value_t = 0)]
    pub layer: u32,
    /// The layer's z, in the place of its number
    #[arg(long, value_name = "MM", allow_hyphen_values = true, conflicts_with = "layer")]
    pub z: Option<Fraction>,
    /// Write also a picture of where the work goes
    #[arg(long, value_name = "FILE")]
    pub png: Option<PathBuf>,
    #[command(flatten)]
    pub levels: LevelArgs,
    #[command(flatten)]
    pub plate: PlateArgs,
    #[command(flatten)]
    pub mask: MaskArgs,
}

#[derive(Args, Debug)]
pub struct SweepArgs {
    #[command(flatten)]
    pub part: PartArgs,
    /// The positions: a line each, how far the part is moved along x and y in mm
    #[arg(long, value_name = "FILE.csv")]
    pub path: PathBuf,
    /// The z at which the part is looked at
    #[arg(long, value_name = "MM", allow_hyphen_values = true)]
    pub z: Option<Fraction>,
    #[command(flatten)]
    pub plate: PlateArgs,
    /// The folder of the pictures [default: out/NAME]
    #[arg(long, value_name = "DIR")]
    pub out: Option<PathBuf>,
}

#[derive(Args, Debug)]
pub struct ImportArgs {
    /// A .vm file: a line a clause
    pub file: PathBuf,
    /// How many mm one of the model is
    #[arg(long, value_name = "MM", default_value = "1", value_parser = parse_positive)]
    pub scale: Fraction,
    /// The tape [default: out/NAME.tape]
    #[arg(long, value_name = "FILE")]
    pub out: Option<PathBuf>,
}

fn parse_size(text: &str) -> Result<(u32, u32), String> {
    size(text).ok_or(format!("'{text}' is no size such as 3840x2400, of 1 to 65535 pixels a side"))
}

fn parse_pitch(text: &str) -> Result<[Fraction; 2], String> {
    pitches(text).ok_or(format!("'{text}' is no pitch such as 0.05mm, 1/20 or 0.019x0.024mm"))
}

fn parse_pixel(text: &str) -> Result<(u32, u32), String> {
    let pixel = text.split_once(',').and_then(|(x, y)| Some((x.trim().parse().ok()?, y.trim().parse().ok()?)));
    pixel.ok_or(format!("'{text}' is no pixel such as 120,80: a column and a row"))
}

fn parse_positive(text: &str) -> Result<Fraction, String> {
    let length: Fraction = text.parse()?;
    if length.is_positive() { Ok(length) } else { Err(format!("'{text}' is not above 0")) }
}

fn parse_aa(text: &str) -> Result<u32, String> {
    text.parse().ok().filter(|aa| [1, 2, 4].contains(aa)).ok_or(format!("'{text}' is not 1, 2 or 4"))
}

fn parse_origin(text: &str) -> Result<Origin, String> {
    match text {
        "centre" => Ok(Origin::Centre),
        "corner" => Ok(Origin::Corner([Fraction::whole(0); 2])),
        _ => {
            let corner = text.split_once(',').and_then(|(x, y)| Some([x.parse().ok()?, y.parse().ok()?]));
            corner.map(Origin::Corner).ok_or(format!("'{text}' is not centre, corner, or X,Y in mm"))
        }
    }
}
