//! Libraries of oracle/scan beside the Rust: T1 and T2 compared, then how many of them each decodes a second.

use crate::library::Library;
use crate::measure::seconds;
use crate::rng::Rng;
use g729::delays::{self, SCANNED, Thirds};
use std::hint::black_box;

/// The rounds that are timed, and the blocks of `SCANNED` delays that each decodes in turn.
const ROUNDS: usize = 201;
const BLOCKS: usize = 16;
/// T1 at the ends of what T2 tells apart, and far beyond.
const ENDS: [i16; 20] = [
    i16::MIN,
    -1,
    0,
    19,
    20,
    24,
    25,
    26,
    60,
    85,
    138,
    139,
    140,
    141,
    143,
    144,
    145,
    148,
    149,
    i16::MAX,
];

type Fields = [u16; SCANNED];
type Words = [i16; SCANNED];

/// The functions of a library, or of the Rust.
struct Functions {
    name: String,
    delay_t1: extern "C" fn(u16) -> Thirds,
    delay_t2: extern "C" fn(u16, i16) -> Thirds,
    scan_t1: extern "C" fn(&Fields, &mut Words, &mut Words),
    scan_t2: extern "C" fn(&Fields, &Words, &mut Words, &mut Words),
}

/// Compares and times the libraries at these paths. Returns how many answers differ.
pub fn run(paths: &[String]) -> Result<usize, String> {
    let rust = Functions {
        name: "Rust".to_string(),
        delay_t1: delays::delay_t1,
        delay_t2: delays::delay_t2,
        scan_t1: delays::scan_t1,
        scan_t2: delays::scan_t2,
    };
    let libraries: Vec<Functions> = paths.iter().map(open).collect::<Result<_, _>>()?;
    let mut differ = 0;
    for library in &libraries {
        let [t1, t2] = [first(library, &rust), second(library, &rust)];
        println!("{}: T1 of every 16-bit P1: {t1}", library.name);
        println!(
            "{}: T2 of every 16-bit P2 with {} T1, and of 32 P2 with every T1: {t2}",
            library.name,
            ENDS.len()
        );
        differ += t1.differ + t2.differ;
    }
    println!();
    time(libraries.iter().chain([&rust]).collect());
    Ok(differ)
}

// ---- the libraries

fn open(path: &String) -> Result<Functions, String> {
    let library = Library::open(path)?;
    // SAFETY: oracle/scan/lib.rt.in declares these functions so.
    unsafe {
        Ok(Functions {
            name: path.rsplit('/').next().unwrap_or(path).to_string(),
            delay_t1: std::mem::transmute(library.function(c"delay_t1")?),
            delay_t2: std::mem::transmute(library.function(c"delay_t2")?),
            scan_t1: std::mem::transmute(library.function(c"scan_t1")?),
            scan_t2: std::mem::transmute(library.function(c"scan_t2")?),
        })
    }
}

// ---- what is compared

/// How many answers were compared, and how many differ.
#[derive(Clone, Copy, Default)]
struct Count {
    compared: usize,
    differ: usize,
}

impl Count {
    fn add(&mut self, same: bool) {
        self.compared += 1;
        self.differ += usize::from(!same);
    }
}

impl std::fmt::Display for Count {
    fn fmt(&self, f: &mut std::fmt::Formatter<'_>) -> std::fmt::Result {
        write!(
            f,
            "{} answers compared, {} differ",
            self.compared, self.differ
        )
    }
}

/// T1, one a call and `SCANNED` a call.
fn first(library: &Functions, rust: &Functions) -> Count {
    let all: Vec<u16> = (0..=u16::MAX).collect();
    let (mut count, mut found, mut due) = (Count::default(), Room::new(), Room::new());
    for p1 in all.as_chunks().0 {
        for p1 in p1 {
            count.add((library.delay_t1)(*p1) == (rust.delay_t1)(*p1));
        }
        found.t1(library, p1);
        due.t1(rust, p1);
        found.compare(&due, &mut count);
    }
    count
}

/// T2 likewise.
fn second(library: &Functions, rust: &Functions) -> Count {
    let every_p2 = ENDS.map(|t1| (0..=u16::MAX).map(move |p2| (p2, t1)));
    let every_t1 = (0..32).flat_map(|p2| (i16::MIN..=i16::MAX).map(move |t1| (p2, t1)));
    let pairs = every_p2.into_iter().flatten().chain(every_t1);
    let (p2, t1): (Vec<u16>, Vec<i16>) = pairs.unzip();
    let (mut count, mut found, mut due) = (Count::default(), Room::new(), Room::new());
    for (p2, t1) in p2.as_chunks().0.iter().zip(t1.as_chunks().0) {
        for (p2, t1) in p2.iter().zip(t1) {
            count.add((library.delay_t2)(*p2, *t1) == (rust.delay_t2)(*p2, *t1));
        }
        found.t2(library, p2, t1);
        due.t2(rust, p2, t1);
        found.compare(&due, &mut count);
    }
    count
}

/// Room for the delays of one call.
struct Room {
    integer: Box<Words>,
    fraction: Box<Words>,
}

impl Room {
    fn new() -> Self {
        let [integer, fraction] = [(); 2].map(|()| Box::new([i16::MIN; SCANNED]));
        Room { integer, fraction }
    }

    fn t1(&mut self, by: &Functions, p1: &Fields) {
        (by.scan_t1)(p1, &mut self.integer, &mut self.fraction);
    }

    fn t2(&mut self, by: &Functions, p2: &Fields, t1: &Words) {
        (by.scan_t2)(p2, t1, &mut self.integer, &mut self.fraction);
    }

    fn compare(&self, due: &Room, count: &mut Count) {
        for n in 0..SCANNED {
            let same = self.integer[n] == due.integer[n] && self.fraction[n] == due.fraction[n];
            count.add(same);
        }
    }
}

// ---- the time

/// Fields of frames, the integer parts of their T1, and room for the answers, the same for all.
struct Block {
    p1: Box<Fields>,
    p2: Box<Fields>,
    t1: Box<Words>,
    room: Room,
}

impl Block {
    fn draw(rng: &mut Rng) -> Self {
        let p1: Box<Fields> = Box::new(std::array::from_fn(|_| rng.below(256) as u16));
        let p2 = Box::new(std::array::from_fn(|_| rng.below(32) as u16));
        let t1 = Box::new(p1.map(|p1| delays::delay_t1(p1).integer));
        let room = Room::new();
        Block { p1, p2, t1, room }
    }
}

/// What is timed: its name, and what one turn does with a block.
type Turn = (&'static str, fn(&Functions, &mut Block));

const TURNS: [Turn; 4] = [
    ("T1, one a call", one_t1),
    ("T2, one a call", one_t2),
    ("T1, 4096 a call", many_t1),
    ("T2, 4096 a call", many_t2),
];

fn one_t1(by: &Functions, block: &mut Block) {
    for p1 in block.p1.iter() {
        black_box((by.delay_t1)(*p1));
    }
}

fn one_t2(by: &Functions, block: &mut Block) {
    for (p2, t1) in block.p2.iter().zip(block.t1.iter()) {
        black_box((by.delay_t2)(*p2, *t1));
    }
}

fn many_t1(by: &Functions, block: &mut Block) {
    block.room.t1(by, &block.p1);
    black_box(&mut block.room);
}

fn many_t2(by: &Functions, block: &mut Block) {
    block.room.t2(by, &block.p2, &block.t1);
    black_box(&mut block.room);
}

/// Prints the delays a second of each, which take turns, by the median of their processor times.
fn time(all: Vec<&Functions>) {
    let mut rng = Rng::new(1);
    let mut blocks: Vec<Block> = (0..BLOCKS).map(|_| Block::draw(&mut rng)).collect();
    let delays = SCANNED * BLOCKS;
    println!(
        "millions of delays a second, median of {ROUNDS} rounds of {delays} random ones, in turn"
    );
    let header: String = all.iter().map(|by| format!("{:>8}", by.name)).collect();
    println!("{:16}{header}", "");
    for (name, turn) in TURNS {
        let mut times = vec![Vec::new(); all.len()];
        for _ in 0..ROUNDS {
            for (by, times) in all.iter().zip(&mut times) {
                let begin = seconds();
                for block in &mut blocks {
                    turn(black_box(by), black_box(block));
                }
                times.push(seconds() - begin);
            }
        }
        let speed = |mut times: Vec<f64>| {
            times.sort_by(f64::total_cmp);
            format!("{:8.0}", delays as f64 / times[ROUNDS / 2] / 1e6)
        };
        let row: String = times.into_iter().map(speed).collect();
        println!("{name:16}{row}");
    }
}
