//! A layer writer and a preview of the same layer, each in a thread and with a picture of its own. The writer goes through
//! the layer row by row of 64-tiles, as its file is written; the preview wants the middle first, tile by tile. They take
//! turns by a lock, and share a table: whoever meets a tile first leaves its verdict there for the other. Prints what each
//! counted, and writes the layer as a Netpbm bitmap if a name is given:
//!
//!     cargo run --release -p parts --example turns -- gear.pbm

use layers::{Bitmap, Drawn, Grid, Rectangle, Refusal, VerdictTable};
use parts::Part;
use std::error::Error;
use std::sync::Mutex;
use std::thread;

/// The layer's rows of tiles, from the first on.
fn rows(grid: Grid) -> Vec<Rectangle> {
    let all = Rectangle::whole(grid);
    (0..all.rows).map(|row| Rectangle { row, rows: 1, ..all }).collect()
}

/// Its tiles, those in the middle first.
fn from_middle(grid: Grid) -> Vec<Rectangle> {
    let tiles: Vec<Rectangle> = Rectangle::whole(grid).tiles().collect();
    let numbers = Grid { depth: 1, ..grid }.tiles_from_middle();
    numbers.into_iter().map(|number| tiles[usize::from(number)]).collect()
}

/// Draws these rectangles in a picture of one's own, one a turn: the table is locked for that long and no longer.
fn by_turns(table: &Mutex<VerdictTable>, turns: &[Rectangle]) -> Result<Drawn<Bitmap>, Refusal> {
    let locked = || table.lock().expect("the other has not panicked");
    let mut drawn = Drawn { picture: locked().blank(), count: 0 };
    for &rectangle in turns {
        drawn.count += locked().draw(rectangle, &mut drawn.picture)?;
        thread::yield_now();
    }
    Ok(drawn)
}

/// What the writer and the preview have drawn.
fn both(part: &Part) -> Result<[Drawn<Bitmap>; 2], Refusal> {
    let table = Mutex::new(VerdictTable::new(&part.tape, part.flat)?);
    let (writer, preview) = thread::scope(|scope| {
        let preview = scope.spawn(|| by_turns(&table, &from_middle(part.flat)));
        (by_turns(&table, &rows(part.flat)), preview.join().expect("the preview has not panicked"))
    });
    Ok([writer?, preview?])
}

fn gear() -> Part {
    parts::designed().into_iter().find(|part| part.name == "gear").expect("an example part")
}

fn main() -> Result<(), Box<dyn Error>> {
    let part = gear();
    let [writer, preview] = both(&part)?;
    let alone = Bitmap::draw(&part.tape, part.flat)?.count;
    println!("alone, either would count {alone} clauses");
    println!("the writer counted {}, the preview {}", writer.count, preview.count);
    println!("the other's verdicts saved {} in all", 2 * alone - writer.count - preview.count);
    if let Some(name) = std::env::args().nth(1) {
        std::fs::write(name, writer.picture.to_netpbm())?;
    }
    Ok(())
}

#[cfg(test)]
mod tests {
    use super::*;

    /// Whoever was first where: both pictures are the layer, and the region of each tile is counted one time.
    #[test]
    fn turns() {
        let part = gear();
        let alone = Bitmap::draw(&part.tape, part.flat).unwrap();
        for _ in 0..5 {
            let [writer, preview] = both(&part).unwrap();
            assert_eq!([&writer.picture, &preview.picture], [&alone.picture; 2]);
            assert_eq!(writer.count + preview.count, 2 * alone.count - 64 * part.clauses() as u64);
        }
    }

    #[test]
    fn every_tile_has_a_turn() {
        let grid = Grid::flat(200, 70);
        assert_eq!(rows(grid).len(), 2);
        assert_eq!(from_middle(grid)[..2], [Rectangle::tile(1, 0), Rectangle::tile(1, 1)]);
        let mut tiles = from_middle(grid);
        tiles.sort_by_key(|tile| (tile.row, tile.column));
        assert_eq!(tiles, Rectangle::whole(grid).tiles().collect::<Vec<_>>());
    }
}
