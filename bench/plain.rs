//! The work of one script in plain Rust, on columns: a create, one write of many cells, and a read of all of them.
//!
//! `plain < SCRIPT` prints what `tilestore - play` prints but for names, and on standard error the milliseconds of
//! processor time of each stage. It knows the forms that `bench/stages.py` makes, and no others; nothing is checked.
use std::collections::HashMap;
use std::io::{Read, Write};

#[repr(C)]
struct Timespec {
    seconds: i64,
    nanoseconds: i64,
}

extern "C" {
    fn clock_gettime(clock: i32, at: *mut Timespec) -> i32;
}

/// The milliseconds of processors that the process took so far.
fn processor_time() -> f64 {
    const PROCESS: i32 = 2;
    let mut at = Timespec { seconds: 0, nanoseconds: 0 };
    unsafe { clock_gettime(PROCESS, &mut at) };
    at.seconds as f64 * 1e3 + at.nanoseconds as f64 / 1e6
}

/// What a script has in the place of a value.
enum Json {
    Number(i64),
    Text(String),
    Numbers(Vec<i64>),
    Texts(Vec<String>),
    List(Vec<Json>),
    Object(Vec<(String, Json)>),
}

struct Reader<'a> {
    bytes: &'a [u8],
    at: usize,
}

impl Reader<'_> {
    fn byte(&mut self) -> u8 {
        while self.bytes[self.at] == b' ' {
            self.at += 1;
        }
        self.bytes[self.at]
    }

    fn take(&mut self, byte: u8) -> bool {
        let found = self.byte() == byte;
        self.at += found as usize;
        found
    }

    fn number(&mut self) -> i64 {
        let below = self.take(b'-');
        let mut number = 0;
        while self.bytes[self.at].is_ascii_digit() {
            number = number * 10 + i64::from(self.bytes[self.at] - b'0');
            self.at += 1;
        }
        if below { -number } else { number }
    }

    fn text(&mut self) -> String {
        self.take(b'"');
        let start = self.at;
        while self.bytes[self.at] != b'"' {
            self.at += 1;
        }
        self.at += 1;
        String::from_utf8(self.bytes[start..self.at - 1].to_vec()).unwrap()
    }

    fn list(&mut self) -> Json {
        self.take(b'[');
        let (mut numbers, mut texts, mut others) = (Vec::new(), Vec::new(), Vec::new());
        while !self.take(b']') {
            match self.value() {
                Json::Number(number) => numbers.push(number),
                Json::Text(text) => texts.push(text),
                other => others.push(other),
            }
            self.take(b',');
        }
        match (numbers.is_empty(), texts.is_empty()) {
            (false, _) => Json::Numbers(numbers),
            (_, false) => Json::Texts(texts),
            _ => Json::List(others),
        }
    }

    fn object(&mut self) -> Json {
        self.take(b'{');
        let mut members = Vec::new();
        while !self.take(b'}') {
            let name = self.text();
            self.take(b':');
            members.push((name, self.value()));
            self.take(b',');
        }
        Json::Object(members)
    }

    fn value(&mut self) -> Json {
        match self.byte() {
            b'{' => self.object(),
            b'[' => self.list(),
            b'"' => Json::Text(self.text()),
            _ => Json::Number(self.number()),
        }
    }
}

impl Json {
    fn get(&self, name: &str) -> &Json {
        match self {
            Json::Object(members) => &members.iter().find(|it| it.0 == name).unwrap().1,
            _ => panic!("no object"),
        }
    }

    fn is(&self, text: &str) -> bool {
        matches!(self, Json::Text(own) if own == text)
    }

    fn list(&self) -> &[Json] {
        match self {
            Json::List(items) => items,
            _ => panic!("no list"),
        }
    }

    fn name(&self) -> &str {
        match self {
            Json::Text(text) => text,
            _ => panic!("no text"),
        }
    }
}

/// A dimension: its least coordinate, its greatest, and the side of a space tile.
struct Dim {
    name: String,
    low: i64,
    high: i64,
    extent: i64,
}

/// A column of a fragment.
enum Column {
    Numbers(Vec<i64>),
    Texts(Vec<u64>, Vec<u8>),
}

struct Stages {
    before: f64,
    all: Vec<(&'static str, f64)>,
}

impl Stages {
    fn end(&mut self, name: &'static str) {
        let took = processor_time() - self.before;
        match self.all.iter_mut().find(|it| it.0 == name) {
            Some(stage) => stage.1 += took,
            None => self.all.push((name, took)),
        }
        self.before = processor_time();
    }
}

/// The place of a cell in global order: its space tile and then itself, both by rows.
fn place(dims: &[Dim], cell: &[i64]) -> (u64, u64) {
    let (mut tile, mut own) = (0, 0);
    for (dim, at) in dims.iter().zip(cell) {
        let tiles = (dim.high - dim.low) / dim.extent + 1;
        tile = tile * tiles as u64 + ((at - dim.low) / dim.extent) as u64;
        own = own * (dim.high - dim.low + 1) as u64 + (at - dim.low) as u64;
    }
    (tile, own)
}

fn gathered(column: &Column, places: &[u32]) -> Column {
    match column {
        Column::Numbers(numbers) => Column::Numbers(places.iter().map(|it| numbers[*it as usize]).collect()),
        Column::Texts(starts, bytes) => {
            let (mut own, mut all) = (Vec::with_capacity(places.len()), Vec::new());
            for it in places {
                own.push(all.len() as u64);
                all.extend_from_slice(text(starts, bytes, *it as usize));
            }
            Column::Texts(own, all)
        }
    }
}

fn text<'a>(starts: &[u64], bytes: &'a [u8], at: usize) -> &'a [u8] {
    let end = starts.get(at + 1).map_or(bytes.len(), |it| *it as usize);
    &bytes[starts[at] as usize..end]
}

fn encoded(columns: &[Column]) -> Vec<Vec<u8>> {
    let mut objects = Vec::new();
    for column in columns {
        match column {
            Column::Numbers(numbers) => objects.push(numbers.iter().flat_map(|it| it.to_le_bytes()).collect()),
            Column::Texts(starts, bytes) => {
                objects.push(starts.iter().flat_map(|it| it.to_le_bytes()).collect());
                objects.push(bytes.clone());
            }
        }
    }
    objects
}

fn numbers_of(object: &[u8]) -> Vec<i64> {
    object.chunks_exact(8).map(|it| i64::from_le_bytes(it.try_into().unwrap())).collect()
}

fn decoded(objects: &[Vec<u8>], kinds: &[bool]) -> Vec<Column> {
    let (mut columns, mut at) = (Vec::new(), 0);
    for is_text in kinds {
        let numbers = numbers_of(&objects[at]);
        at += 1;
        columns.push(if *is_text {
            at += 1;
            Column::Texts(numbers.iter().map(|it| *it as u64).collect(), objects[at - 1].clone())
        } else {
            Column::Numbers(numbers)
        });
    }
    columns
}

/// The columns of a write: in a dense array the coordinates of all cells go before them.
fn laid(dims: &[Dim], attrs: &[String], is_dense: bool, cols: Json) -> Vec<Column> {
    let Json::Object(members) = cols else { panic!("no columns") };
    let mut given: HashMap<String, Json> = members.into_iter().collect();
    let mut columns = Vec::new();
    let mut repeats = 1;
    let count: i64 = dims.iter().map(|it| it.high - it.low + 1).product();
    for dim in dims {
        columns.push(if is_dense {
            let side = dim.high - dim.low + 1;
            repeats *= side;
            let inner = count / repeats;
            Column::Numbers((0..count).map(|it| dim.low + it / inner % side).collect())
        } else {
            column(given.remove(&dim.name).unwrap())
        });
    }
    columns.extend(attrs.iter().map(|it| column(given.remove(it).unwrap())));
    columns
}

fn column(values: Json) -> Column {
    match values {
        Json::Numbers(numbers) => Column::Numbers(numbers),
        Json::Texts(texts) => {
            let (mut starts, mut bytes) = (Vec::with_capacity(texts.len()), Vec::new());
            for it in texts {
                starts.push(bytes.len() as u64);
                bytes.extend_from_slice(it.as_bytes());
            }
            Column::Texts(starts, bytes)
        }
        _ => panic!("no column"),
    }
}

/// The places of the cells, so that their keys ascend.
fn ordered<K: Ord + Copy>(count: usize, key: impl Fn(usize) -> K) -> Vec<u32> {
    let mut keyed: Vec<(K, u32)> = (0..count).map(|it| (key(it), it as u32)).collect();
    if !keyed.is_sorted() {
        keyed.sort_unstable();
    }
    keyed.into_iter().map(|it| it.1).collect()
}

fn cell(columns: &[Column], dims: usize, at: usize) -> [i64; 8] {
    let mut cell = [0; 8];
    for (own, column) in cell.iter_mut().zip(&columns[..dims]) {
        if let Column::Numbers(numbers) = column {
            *own = numbers[at];
        }
    }
    cell
}

fn count_of(columns: &[Column]) -> usize {
    match &columns[0] {
        Column::Numbers(numbers) => numbers.len(),
        Column::Texts(starts, _) => starts.len(),
    }
}

fn print_rows(out: &mut Vec<u8>, columns: &[Column], places: &[u32]) {
    for it in places {
        for (number, column) in columns.iter().enumerate() {
            if number > 0 {
                out.push(b'\t');
            }
            match column {
                Column::Numbers(numbers) => write!(out, "{}", numbers[*it as usize]).unwrap(),
                Column::Texts(starts, bytes) => {
                    out.push(b'"');
                    out.extend_from_slice(text(starts, bytes, *it as usize));
                    out.push(b'"');
                }
            }
        }
        out.push(b'\n');
    }
}

fn main() {
    let mut stages = Stages { before: processor_time(), all: Vec::new() };
    let mut input = Vec::new();
    std::io::stdin().read_to_end(&mut input).unwrap();
    let mut lines = input
        .split(|it| *it == b'\n')
        .filter(|it| !it.is_empty())
        .map(|bytes| Reader { bytes, at: 0 }.value());
    let create = lines.next().unwrap();
    let Json::Object(write) = lines.next().unwrap() else { panic!("no write") };
    let cols = write.into_iter().find(|it| it.0 == "cols").unwrap().1;
    let is_dense = create.get("kind").is("dense");
    let dims: Vec<Dim> = create.get("dims").list().iter().map(|it| {
        let Json::Numbers(domain) = it.get("domain") else { panic!("no domain") };
        let Json::Number(extent) = it.get("extent") else { panic!("no extent") };
        Dim { name: it.get("name").name().to_string(), low: domain[0], high: domain[1], extent: *extent }
    }).collect();
    let attrs: Vec<String> = create.get("attrs").list().iter().map(|it| it.get("name").name().to_string()).collect();
    let kinds: Vec<bool> = dims.iter().map(|_| false).chain(create.get("attrs").list().iter().map(|it| it.get("type").is("text"))).collect();
    drop(lines);
    stages.end("input");
    let columns = laid(&dims, &attrs, is_dense, cols);
    stages.end("laying");
    let places = ordered(count_of(&columns), |at| place(&dims, &cell(&columns, dims.len(), at)));
    let columns: Vec<Column> = columns.iter().map(|it| gathered(it, &places)).collect();
    stages.end("ordering");
    let objects = encoded(&columns);
    stages.end("encoding");
    let mut store = HashMap::new();
    store.insert("fragment", objects.clone());
    stages.end("storing");
    drop((objects, columns));
    let columns = decoded(&store["fragment"], &kinds);
    stages.end("decoding");
    let places = ordered(count_of(&columns), |at| cell(&columns, dims.len(), at));
    stages.end("merging");
    let mut out = Vec::new();
    writeln!(out, "0.3\tread\tok\t{}\t0", places.len()).unwrap();
    print_rows(&mut out, &columns, &places);
    std::io::stdout().write_all(&out).unwrap();
    stages.end("printing");
    for (name, took) in stages.all {
        eprintln!("{name}\t{took:.2}");
    }
}
