// What a read of dense tiles comes down to, in plain Rust: each tile of 100 by 100 int32 is copied into a buffer of its own, and its rows to their
// places in the quarter that has them. Prints the milliseconds that four quarters take, the median of nine runs.
use std::time::Instant;

const TILE: usize = 100;
const RUNS: usize = 9;

fn decoded(bytes: &[u8]) -> Vec<i32> {
    bytes.chunks_exact(4).map(|four| i32::from_le_bytes(four.try_into().unwrap())).collect()
}

fn read(tiles: &[Vec<u8>], side: usize) -> Vec<i32> {
    let decoded: Vec<_> = tiles.iter().map(|tile| decoded(tile)).collect();
    let mut cells = vec![0; side * side];
    for (at, tile) in decoded.iter().enumerate() {
        let (row, column) = (at / (side / TILE) * TILE, at % (side / TILE) * TILE);
        for (nth, cut) in tile.chunks_exact(TILE).enumerate() {
            let place = (row + nth) * side + column;
            cells[place..place + TILE].copy_from_slice(cut);
        }
    }
    cells
}

fn main() {
    let side = std::env::args().nth(1).map_or(1000, |word| word.parse().unwrap());
    let count = (side / TILE) * (side / TILE);
    let quarters: Vec<Vec<Vec<u8>>> = (0..4).map(|quarter| (0..count).map(|at| (0..TILE * TILE * 4).map(|byte| (byte ^ at ^ quarter) as u8).collect()).collect()).collect();
    let mut sum = 0i64;
    let mut took: Vec<f64> = (0..RUNS)
        .map(|_| {
            let start = Instant::now();
            for tiles in &quarters {
                sum = sum.wrapping_add(read(tiles, side)[side] as i64);
            }
            start.elapsed().as_secs_f64() * 1000.0
        })
        .collect();
    took.sort_by(f64::total_cmp);
    println!("{:.2}\t{sum}", took[RUNS / 2]);
}
