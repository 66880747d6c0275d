//! The work of `speed table` and `speed tiles` in plain Rust: a table of a million scattered cells, of two dimensions and
//! three attributes, and a million values in tiles.
//!
//! It prints the lines that they print: the work, picoseconds for each cell, and a number that depends on all results.
use std::time::{Duration, Instant};

const CELLS: u64 = 1_000_000;
const SIDE: u64 = 1000;
const STRIDE: u64 = 611_953;
const EXTENT: u64 = 100;
const NAME: &[u8] = b"abcdefghijklmno";

/// Texts one after another, and where each starts.
struct Texts {
    starts: Vec<u64>,
    bytes: Vec<u8>,
}

impl Texts {
    fn at(&self, place: usize) -> &[u8] {
        let end = self.starts.get(place + 1).map_or(self.bytes.len(), |it| *it as usize);
        &self.bytes[self.starts[place] as usize..end]
    }

    fn push(&mut self, text: &[u8]) {
        self.starts.push(self.bytes.len() as u64);
        self.bytes.extend_from_slice(text);
    }
}

struct Table {
    x: Vec<i64>,
    y: Vec<i64>,
    height: Vec<i64>,
    kind: Vec<i64>,
    name: Texts,
}

fn report(name: &str, start: Instant, sum: u64) {
    println!("{name}\t{} ps\t{sum}", start.elapsed().as_nanos() as u64 * 1000 / CELLS);
}

fn empty() -> Table {
    Table { x: Vec::new(), y: Vec::new(), height: Vec::new(), kind: Vec::new(), name: Texts { starts: Vec::new(), bytes: Vec::new() } }
}

fn made() -> Table {
    let mut table = empty();
    for cell in 0..CELLS {
        let place = cell * STRIDE % CELLS;
        table.x.push((place / SIDE) as i64);
        table.y.push((place % SIDE) as i64);
        table.height.push(cell as i64);
        table.kind.push((cell % 256) as i64);
        table.name.push(&NAME[..5 + (cell % 10) as usize]);
    }
    table
}

fn sum_of(table: &Table) -> u64 {
    let mut sum = 0u64;
    for place in 0..table.x.len() {
        sum = sum
            .wrapping_add(table.x[place] as u64)
            .wrapping_add(table.y[place] as u64)
            .wrapping_add(table.height[place] as u64)
            .wrapping_add(table.kind[place] as u64)
            .wrapping_add(table.name.at(place).len() as u64);
    }
    sum
}

fn climbs(table: &Table) -> u64 {
    let mut count = 0;
    for place in 1..table.x.len() {
        count += ((table.x[place - 1], table.y[place - 1]) < (table.x[place], table.y[place])) as u64;
    }
    count
}

fn ordered(table: &Table) -> Vec<u32> {
    let rank = |place: usize| {
        let (x, y) = (table.x[place] as u64, table.y[place] as u64);
        ((x / EXTENT * (SIDE / EXTENT) + y / EXTENT) * EXTENT + x % EXTENT) * EXTENT + y % EXTENT
    };
    let mut ranked: Vec<(u64, u32)> = (0..table.x.len()).map(|place| (rank(place), place as u32)).collect();
    ranked.sort_unstable();
    ranked.into_iter().map(|it| it.1).collect()
}

fn gathered(table: &Table, places: &[u32]) -> Table {
    let gather = |numbers: &[i64]| places.iter().map(|it| numbers[*it as usize]).collect();
    let mut name = empty().name;
    for place in places {
        name.push(table.name.at(*place as usize));
    }
    Table { x: gather(&table.x), y: gather(&table.y), height: gather(&table.height), kind: gather(&table.kind), name }
}

/// The values of some cells of one attribute, as bytes.
struct Tile {
    fixed: Vec<u8>,
    var: Vec<u8>,
    validity: Vec<u8>,
}

fn number_tile(first: u64, count: u64) -> Tile {
    Tile { fixed: (0..count).flat_map(|it| ((first + it) as u32).to_le_bytes()).collect(), var: Vec::new(), validity: Vec::new() }
}

fn decode_numbers(tile: &Tile, count: usize) -> Option<Vec<i32>> {
    let (numbers, rest) = tile.fixed.as_chunks::<4>();
    let whole = numbers.len() == count && rest.is_empty() && tile.var.is_empty() && tile.validity.is_empty();
    whole.then(|| numbers.iter().map(|it| i32::from_le_bytes(*it)).collect())
}

fn encode_numbers(numbers: &[i32]) -> Tile {
    let mut fixed = Vec::with_capacity(numbers.len() * 4);
    for number in numbers {
        fixed.extend_from_slice(&number.to_le_bytes());
    }
    Tile { fixed, var: Vec::new(), validity: Vec::new() }
}

fn marked_tile(first: u64, count: u64) -> Tile {
    let mut tile = Tile { fixed: Vec::new(), var: Vec::new(), validity: Vec::new() };
    for place in first..first + count {
        let there = place as u16 % 7 != 0;
        tile.fixed.extend_from_slice(&if there { place as u16 } else { 0 }.to_le_bytes());
        tile.validity.push(there as u8);
    }
    tile
}

fn decode_marked(tile: &Tile, count: usize) -> Option<Vec<Option<i16>>> {
    let (numbers, rest) = tile.fixed.as_chunks::<2>();
    if numbers.len() != count || tile.validity.len() != count || !rest.is_empty() || !tile.var.is_empty() {
        return None;
    }
    let mut column = Vec::with_capacity(count);
    for (number, mark) in numbers.iter().zip(&tile.validity) {
        column.push(match (mark, i16::from_le_bytes(*number)) {
            (1, number) => Some(number),
            (0, 0) => None,
            _ => return None,
        });
    }
    Some(column)
}

fn encode_marked(column: &[Option<i16>]) -> Tile {
    let mut fixed = Vec::with_capacity(column.len() * 2);
    let mut validity = Vec::with_capacity(column.len());
    for number in column {
        fixed.extend_from_slice(&number.unwrap_or(0).to_le_bytes());
        validity.push(number.is_some() as u8);
    }
    Tile { fixed, var: Vec::new(), validity }
}

fn text_tile(first: u64, count: u64) -> Tile {
    let mut tile = Tile { fixed: Vec::new(), var: Vec::new(), validity: Vec::new() };
    for place in first..first + count {
        tile.fixed.extend_from_slice(&(tile.var.len() as u64).to_le_bytes());
        tile.var.extend_from_slice(&NAME[..5 + (place % 10) as usize]);
    }
    tile
}

fn decode_texts(tile: &Tile, count: usize) -> Option<Texts> {
    let (starts, rest) = tile.fixed.as_chunks::<8>();
    if starts.len() != count || !rest.is_empty() || !tile.validity.is_empty() {
        return None;
    }
    let texts = Texts { starts: starts.iter().map(|it| u64::from_le_bytes(*it)).collect(), bytes: tile.var.clone() };
    let (end, first) = (texts.bytes.len() as u64, texts.starts.first().copied().unwrap_or(tile.var.len() as u64));
    if first != 0 || texts.starts.windows(2).any(|it| it[0] > it[1]) || texts.starts.last().is_some_and(|it| *it > end) {
        return None;
    }
    (0..count).all(|place| std::str::from_utf8(texts.at(place)).is_ok()).then_some(texts)
}

fn encode_texts(texts: &Texts) -> Tile {
    let mut fixed = Vec::with_capacity(texts.starts.len() * 8);
    for start in &texts.starts {
        fixed.extend_from_slice(&start.to_le_bytes());
    }
    Tile { fixed, var: texts.bytes.clone(), validity: Vec::new() }
}

/// Decodes the tiles of a million values one after the other, and encodes each column.
fn time_kind<Column>(name: &str, count: u64, made: fn(u64, u64) -> Tile, decode: fn(&Tile, usize) -> Option<Column>, encode: impl Fn(&Column) -> Tile) {
    let (mut decoding, mut encoding, mut bytes) = (Duration::ZERO, Duration::ZERO, 0);
    for first in (0..CELLS).step_by(count as usize) {
        let tile = made(first, count);
        let start = Instant::now();
        let column = decode(&tile, count as usize).expect("the tile is whole");
        decoding += start.elapsed();
        let start = Instant::now();
        let again = encode(&column);
        encoding += start.elapsed();
        bytes += again.fixed.len() + again.var.len() + again.validity.len();
    }
    for (step, took) in [("decode", decoding), ("encode", encoding)] {
        println!("{step} {name} in tiles of {count}\t{} ps\t{bytes}", took.as_nanos() as u64 * 1000 / CELLS);
    }
}

fn time_tiles() {
    for count in [10_000, CELLS] {
        time_kind("int32", count, number_tile, decode_numbers, |it| encode_numbers(it));
        time_kind("nullable int16", count, marked_tile, decode_marked, |it| encode_marked(it));
        time_kind("text", count, text_tile, decode_texts, encode_texts);
    }
}

fn time_table() {
    let start = Instant::now();
    let table = made();
    report("make", start, 2);
    let start = Instant::now();
    let sum = sum_of(&table);
    report("read", start, sum);
    let start = Instant::now();
    let count = climbs(&table);
    report("compare neighbours", start, count);
    let start = Instant::now();
    let places = ordered(&table);
    report("order", start, places.len() as u64);
    let start = Instant::now();
    let other = gathered(&table, &places);
    report("gather", start, 3);
    std::hint::black_box((table, other));
}

fn main() {
    match std::env::args().nth(1).as_deref() {
        Some("tiles") => time_tiles(),
        _ => time_table(),
    }
}
