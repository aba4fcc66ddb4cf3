//! The example parts. y runs downward in a picture, and a solid is seen from above, from the side of great z.

mod bracket;
mod chart;
mod flange;
mod font;
mod gear;
mod housing;
mod lattice;
mod lettering;
mod plate;
mod tray;

use crate::Design;
pub use plate::plate;

pub fn designs() -> Vec<Design> {
    vec![
        bracket::bracket(),
        gear::gear(),
        housing::housing(),
        lettering::lettering(),
        lattice::lattice(),
        tray::tray(),
        flange::flange(),
        chart::chart(),
    ]
}
