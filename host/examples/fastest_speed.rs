//! Prints the fastest speed that is not above a module's highest: what it is on the bus, and the settings for it.
//! Beside it stands what the bring-up makes of the highest speed itself as the frequency in the settings.
//!
//! `cargo run --offline --example fastest_speed 36000000 390000`: pclk1 and the module's highest speed, in hertz.

use std::env;
use std::process::ExitCode;

use vandhukril::{Hertz, Mode, speed};

/// What to do where the words are none that it takes.
const USAGE: &str =
    "Name pclk1 and the module's highest speed, both in hertz: fastest_speed 36000000 390000";

/// pclk1 and the ceiling.
fn named(words: &[String]) -> Result<[Hertz; 2], String> {
    let [pclk1, ceiling] = words else {
        let count = words.len();
        return Err(format!(
            "Two numbers are needed, and here are {count}. {USAGE}"
        ));
    };
    Ok([hertz(pclk1)?, hertz(ceiling)?])
}

fn hertz(word: &str) -> Result<Hertz, String> {
    let number = word.parse().map(Hertz);
    number.map_err(|_| format!("{word:?} is no whole number from 0 to 4294967295. {USAGE}"))
}

/// The mode and the frequency for the settings of a list. Where no whole number of hertz comes to the choice, what the
/// next lower one comes to stands beside it.
fn settings(pclk1: Hertz, ceiling: Hertz, fastest: speed::Fastest) -> String {
    let mode = fastest.mode();
    let named = |frequency| format!("mode {} ({mode}), {frequency}", mode.number());
    if let Some(frequency) = fastest.frequency() {
        return named(frequency);
    }
    let lower = Hertz(fastest.on_bus() as u32);
    let written = speed::ccr(pclk1, mode, lower).unwrap_or(0);
    match speed::on_bus(pclk1, written) {
        Some(on_bus) if on_bus <= f64::from(ceiling.0) => format!(
            "{}, which come to {written:04x} and {on_bus:.1} Hz",
            named(lower)
        ),
        _ => "none: in whole hertz the bring-up makes the bus faster. Name a lower ceiling".into(),
    }
}

/// The line of what the bring-up writes in a mode with the ceiling as the frequency of the settings.
fn line(pclk1: Hertz, mode: Mode, ceiling: Hertz) -> Option<String> {
    let ccr = speed::ccr(pclk1, mode, ceiling)?;
    let bus = match speed::on_bus(pclk1, ccr) {
        Some(on_bus) if on_bus == f64::from(ceiling.0) => format!("{on_bus:>10.1}"),
        Some(on_bus) => format!("{on_bus:>10.1} {:>+10.1}", on_bus - f64::from(ceiling.0)),
        None => "no speed: the field is 0".into(),
    };
    let mode = mode.to_string();
    Some(format!("{mode:9}  {ccr:04x} {bus}\n"))
}

/// The page of a clock and a ceiling.
fn page(pclk1: Hertz, ceiling: Hertz) -> Result<String, speed::NoChoice> {
    let fastest = speed::under(pclk1, ceiling)?;
    let (mode, field) = (fastest.mode(), fastest.field());
    let (ccr, on_bus) = (fastest.ccr(), fastest.on_bus());
    let lines =
        Mode::ALL.map(|mode| line(pclk1, mode, ceiling).expect("the ceiling is a frequency"));
    Ok(format!(
        "\
pclk1 {pclk1}, ceiling {ceiling}
mode      {mode}
CCR       {ccr:04x}
field     {field}
bus Hz    {on_bus:.1}
settings  {}

With {ceiling} in the settings the bring-up writes
mode       CCR     bus Hz      above
{}",
        settings(pclk1, ceiling, fastest),
        lines.concat()
    ))
}

fn main() -> ExitCode {
    let words: Vec<String> = env::args().skip(1).collect();
    let page = named(&words)
        .and_then(|[pclk1, ceiling]| page(pclk1, ceiling).map_err(|none| none.to_string()));
    match page {
        Ok(page) => {
            print!("{page}");
            ExitCode::SUCCESS
        }
        Err(message) => {
            eprintln!("{message}");
            ExitCode::FAILURE
        }
    }
}

#[test]
fn prints_a_ceiling_worked_out_by_hand() {
    // 36,000,000 / 390,000 is 92.3, and the next product is 93 = 3 * 31. 36,000,000 / 93 is 387,096.8.
    // The bring-up's fields are 46 of 46.2, 30 of 30.8 and 3 of 3.7. The products are 92, 90 and 75.
    let expected = "\
pclk1 36000000 Hz, ceiling 390000 Hz
mode      Fast 2:1
CCR       801f
field     31
bus Hz    387096.8
settings  mode 1 (Fast 2:1), 387096 Hz

With 390000 Hz in the settings the bring-up writes
mode       CCR     bus Hz      above
Standard   002e   391304.3    +1304.3
Fast 2:1   801e   400000.0   +10000.0
Fast 16:9  c003   480000.0   +90000.0
";
    let page = page(Hertz(36_000_000), Hertz(390_000));
    assert_eq!(page.as_deref(), Ok(expected));
    assert!(include_str!("../README.md").contains(expected));
}

#[test]
fn names_a_lower_frequency_where_none_comes_to_the_choice() {
    // 8,192,000 / 1,000 is 8,192, and the next product is 8,193 = 3 * 2731. 8,192,000 / 8,193 is 999.9. 999 Hz come to
    // a field of 2733, and 8,192,000 / 8,199 is 999.1. 1,000 Hz come to one of 2730. The bring-up's fields are 4096, cut
    // to 0, 2730 and 327.
    let expected = "\
pclk1 8192000 Hz, ceiling 1000 Hz
mode      Fast 2:1
CCR       8aab
field     2731
bus Hz    999.9
settings  mode 1 (Fast 2:1), 999 Hz, which come to 8aad and 999.1 Hz

With 1000 Hz in the settings the bring-up writes
mode       CCR     bus Hz      above
Standard   0000 no speed: the field is 0
Fast 2:1   8aaa     1000.2       +0.2
Fast 16:9  c147     1002.1       +2.1
";
    let page = page(Hertz(8_192_000), Hertz(1000));
    assert_eq!(page.as_deref(), Ok(expected));
}

#[test]
fn names_no_frequency_that_is_faster() {
    // 8,000,000 / 977 is 8,188.3, and the next product is 8,190 = 2 * 4095, which is 976.8 Hz. 976 Hz come to a field of
    // 4098, of which 12 bits hold 2. 13 / 1 is 13, and the next product is 14 = 2 * 7. 1 Hz comes to a field of 6.
    for (pclk1, ceiling) in [(8_000_000, 977), (13, 1)] {
        let page = page(Hertz(pclk1), Hertz(ceiling)).expect("there is a choice");
        assert!(page.contains("settings  none: in whole hertz the bring-up makes the bus faster."));
    }
}

#[test]
fn an_exact_speed_differs_by_nothing() {
    let standard = line(Hertz(36_000_000), Mode::Standard, Hertz(90_000));
    assert_eq!(standard.as_deref(), Some("Standard   00c8    90000.0\n"));
}

#[test]
fn errors_are_in_words() {
    for words in [
        "",
        "36000000",
        "36000000 90000 1",
        "36MHz 90000",
        "36000000 -1",
        "4294967296 1",
    ] {
        let words: Vec<String> = words.split_whitespace().map(String::from).collect();
        let message = named(&words).expect_err("not two numbers of 32 bits");
        assert!(message.ends_with(USAGE), "{message}");
    }
    for (ceiling, number) in [(0, "(22)"), (400_001, "(22)"), (351, "(28)")] {
        let message = page(Hertz(36_000_000), Hertz(ceiling)).map_err(|none| none.to_string());
        assert!(
            message.is_err_and(|message| message.contains(number)),
            "{ceiling}"
        );
    }
}
