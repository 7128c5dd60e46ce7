//! Prints the usual speeds: for each clock the CCR word of each speed, and what it comes to on the bus. A last column
//! has by how much that differs from what was asked for.
//!
//! `cargo run --offline --example usual_speeds` prints all clocks, `.. usual_speeds 8 36` those of 8 and 36 MHz.

use std::env;
use std::process::ExitCode;

use vandhukril::usual;

/// The clocks that are named, in whole megahertz, or all of them.
fn clocks(named: &[String]) -> Result<Vec<u32>, String> {
    if named.is_empty() {
        return Ok(usual::CLOCKS.collect());
    }
    let clock = |word: &String| {
        let mhz = word.parse().ok().filter(|mhz| usual::CLOCKS.contains(mhz));
        mhz.ok_or(format!(
            "{word:?} is no clock of the table. Name whole megahertz from 2 to 36, or none to see all."
        ))
    };
    named.iter().map(clock).collect()
}

/// The line of a speed, where the table has it.
fn line(mhz: u32, speed: usual::Speed) -> Option<String> {
    let ccr = usual::ccr(mhz, speed)?;
    let on_bus = usual::on_bus(mhz, speed)?;
    let (mode, asked) = (speed.mode.to_string(), speed.frequency.0);
    let more = 100.0 * (on_bus / f64::from(asked) - 1.0);
    let differs = if more == 0.0 {
        String::new()
    } else {
        format!(" {more:>+7.1} %")
    };
    Some(format!(
        "{mode:9} {asked:>8}  {ccr:04x} {on_bus:>8.0}{differs}\n"
    ))
}

/// The page of a clock of the table.
fn page(mhz: u32) -> String {
    let lines = usual::SPEEDS.map(|speed| line(mhz, speed).expect("each clock has all speeds"));
    let lines = lines.concat();
    format!("pclk1 {mhz} MHz\nmode      asked Hz  CCR    bus Hz\n{lines}")
}

fn main() -> ExitCode {
    let named: Vec<String> = env::args().skip(1).collect();
    match clocks(&named) {
        Ok(clocks) => {
            clocks.into_iter().for_each(|mhz| print!("{}", page(mhz)));
            ExitCode::SUCCESS
        }
        Err(message) => {
            eprintln!("{message}");
            ExitCode::FAILURE
        }
    }
}

#[test]
fn prints_a_clock_worked_out_by_hand() {
    // The field is 36,000 kHz divided by 2, 3 or 25 times the frequency, rounded down. The bus has 36,000 kHz divided
    // by 2, 3 or 25 times the field.
    let expected = "\
pclk1 36 MHz
mode      asked Hz  CCR    bus Hz
Standard     10000  0708    10000
Standard     20000  0384    20000
Standard     50000  0168    50000
Standard    100000  00b4   100000
Fast 2:1    125000  8060   125000
Fast 2:1    200000  803c   200000
Fast 2:1    250000  8030   250000
Fast 2:1    400000  801e   400000
Fast 16:9   125000  c00b   130909    +4.7 %
Fast 16:9   200000  c007   205714    +2.9 %
Fast 16:9   250000  c005   288000   +15.2 %
Fast 16:9   400000  c003   480000   +20.0 %
";
    assert_eq!(page(36), expected);
    assert!(include_str!("../README.md").contains(expected));
}

#[test]
fn prints_every_clock() {
    let all = clocks(&[]).expect("none is named");
    let lines: usize = all.iter().map(|&mhz| page(mhz).lines().count()).sum();
    assert_eq!((all.len(), lines), (35, 35 * (2 + 12)));
    for named in ["1", "37", "4.5", "-2", "MHz", ""] {
        let message = clocks(&["2".into(), named.into()]).expect_err(named);
        assert!(message.contains("from 2 to 36"), "{message}");
    }
}
