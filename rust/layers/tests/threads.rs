//! The public types go from thread to thread, and threads share them.

use layers::{
    Bitmap, Clause, Drawn, Grid, Heightmap, ONE, Opcode, Plate, Rectangle, Refusal, Slopes, Tape, VerdictTable, Work,
    fixed, raw,
};
use std::thread;

fn shared<T: Send + Sync + 'static>() {}

#[test]
fn every_type_is_send_and_sync() {
    shared::<Bitmap>();
    shared::<Clause>();
    shared::<Drawn<Bitmap>>();
    shared::<Drawn<Heightmap>>();
    shared::<Grid>();
    shared::<Heightmap>();
    shared::<Opcode>();
    shared::<Plate>();
    shared::<Rectangle>();
    shared::<Refusal>();
    shared::<Slopes>();
    shared::<Tape>();
    shared::<VerdictTable>();
    shared::<Work>();
    shared::<raw::Answer>();
    shared::<raw::Listed>();
}

/// Layers of one tape, each drawn by a thread of its own, are those that one thread draws.
#[test]
fn threads_draw_as_one_does() {
    let clauses = [Clause::x(0), Clause::z(1), Clause::subtract(0, 0, 1)];
    let tape = Tape::from_clauses(2, &clauses).unwrap();
    let layer = |z: i32| Bitmap::draw(&tape, Grid::flat(200, 100).origin(fixed(-50.0), 0, z * ONE)).unwrap();
    let alone: Vec<Drawn<Bitmap>> = (0..8).map(layer).collect();
    let beside = thread::scope(|scope| {
        let threads: Vec<_> = (0..8).map(|z| scope.spawn(move || layer(z))).collect();
        threads.into_iter().map(|thread| thread.join().unwrap()).collect::<Vec<_>>()
    });
    assert_eq!(beside, alone);
    assert_ne!(alone[0].picture, alone[1].picture);
}
