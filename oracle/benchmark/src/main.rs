//! The proved engine and the original Rust, raced in one process on the same lists and readings.
//!
//! `benchmark [FILE.svg]`: prints the figures, and draws them where a file is named.
//!
//! Ten-bit calls are timed on the engine alone: the Rust does something else there.
//!
//! Samples of the two are taken in turn, and medians are printed. Buffers are not cleared in between. The Rust
//! side is handed the list as accepted, with plain calls for blocking transactions: the time to refuse or accept, and to
//! join operations, is in the engine's figures alone.

mod lists;
mod plot;
mod timing;

use buslist::{refusal, List};
use lists::{hostile, rows, ten_bit_rows, Hostile, Row};
use plot::{draw, Bar};
use timing::{medians, Sample};

fn main() {
    println!("row              calls  accesses  engine ns/access  rust ns/access  ratio");
    let bars: Vec<Bar> = rows().iter().map(race).collect();
    if let Some(file) = std::env::args().nth(1) {
        std::fs::write(&file, draw(&bars)).unwrap_or_else(|error| panic!("{file}: {error}"));
    }
    println!();
    println!("engine alone     calls  accesses  engine ns/access");
    ten_bit_rows().iter().for_each(time);
    println!();
    println!("refused list                 bytes  answer   engine ns  ns/byte");
    for hostile in hostile() {
        refuse(&hostile);
    }
}

/// The two buffers of a run.
struct Buffers {
    rx: Vec<u8>,
    record: Vec<u32>,
}

impl Buffers {
    fn of(row: &Row) -> Buffers {
        Buffers {
            rx: vec![0; row.rx],
            record: vec![0; row.record],
        }
    }
}

fn run_engine(row: &Row, left: &mut Buffers) -> [u64; 5] {
    engine::run(&row.list, &row.readings, &mut left.rx, &mut left.record)
}

fn run_original(row: &Row, left: &mut Buffers) -> u64 {
    let list = List::accepted(&row.plain);
    original::run(&list, &row.readings, &mut left.rx, &mut left.record).made as u64
}

/// The accesses of a row, whose every call ends well: both must make the same. Ten-bit calls are the model's.
fn accesses(row: &Row) -> u64 {
    let (mut left, mut same) = (Buffers::of(row), Buffers::of(row));
    let [answer, _, _, made, _] = run_engine(row, &mut left);
    assert_eq!(answer, 0, "{}: every call ends well", row.name);
    let same_made = run_original(row, &mut same);
    assert_eq!(made, same_made, "{}: equal accesses", row.name);
    let equal = left.rx == same.rx && left.record == same.record;
    assert!(equal, "{}: equal buffers", row.name);
    made
}

fn race(row: &Row) -> Bar {
    let accesses = accesses(row);
    let (mut left, mut same) = (Buffers::of(row), Buffers::of(row));
    let [engine, rust] = medians([
        Sample::new(|| run_engine(row, &mut left)[3]),
        Sample::new(|| run_original(row, &mut same)),
    ]);
    let bar = Bar {
        name: format!("{}, {}", row.name, row.calls),
        engine: engine / accesses as f64,
        rust: rust / accesses as f64,
    };
    println!(
        "{:15} {:6}  {accesses:8}  {:16.2}  {:14.2}  {:5.2}",
        row.name,
        row.calls,
        bar.engine,
        bar.rust,
        bar.ratio(),
    );
    bar
}

/// A row of the engine alone.
fn time(row: &Row) {
    let accesses = accesses(row);
    let mut left = Buffers::of(row);
    let [engine] = medians([Sample::new(|| run_engine(row, &mut left)[3])]);
    println!(
        "{:15} {:6}  {accesses:8}  {:16.2}",
        row.name,
        row.calls,
        engine / accesses as f64,
    );
}

fn refuse(hostile: &Hostile) {
    let Hostile { name, list, .. } = hostile;
    let mut rx = vec![0; hostile.rx];
    let answer = engine::run(list, &[], &mut rx, &mut [])[0];
    let expected = u64::from(refusal(list, hostile.rx));
    assert!(answer >= 20, "{name}: refused");
    assert_eq!(answer, expected, "{name}: for this cause");
    let [nanoseconds] = medians([Sample::new(|| engine::run(list, &[], &mut rx, &mut [])[0])]);
    println!(
        "{name:26} {:7}  {answer:6}  {nanoseconds:10.1}  {:7.3}",
        list.len(),
        nanoseconds / list.len() as f64,
    );
}
