//! Builds a bus list, runs it end to end, and prints the run as `busrun` does.
//!
//! It is the first proved example of the scope paper (P1): 36 MHz, Standard, 100,000 Hz, and a
//! polling write of 2A to address 50 hexadecimal.

use std::process::ExitCode;

use vandhukril::{BusList, DoesNotFit, Hertz, Mode, PollingSettings, Report, run};

fn print_run() -> Result<String, DoesNotFit> {
    let mut list = BusList::new(PollingSettings {
        pclk1: Hertz(36_000_000),
        mode: Mode::Standard,
        frequency: Hertz(100_000),
    });
    list.write(0x50, &[0x2a]);

    // What the registers show, in the order in which the engine reads them.
    let readings = [
        0, // CR1 in the bring-up: all off
        1, 1, // CR1: no STOP under way, then before START
        1, 1, // SR1: SB, then once more
        3, // SR2: MSL and BUSY
        2, 7, // SR1: ADDR; SR2
        0x80, 0x84, // SR1: TXE, then TXE and BTF
        1, 1, // CR1: before STOP, then STOP done
    ];
    let mut received = vec![0; list.received_length()];
    let mut record = [0; 64];

    let end = run(&list.to_bytes()?, &readings, &mut received, &mut record);
    let report = Report {
        end: &end,
        received: &received,
        record: &record,
    };
    Ok(report.to_string())
}

fn main() -> ExitCode {
    match print_run() {
        Ok(text) => {
            print!("{text}");
            ExitCode::SUCCESS
        }
        Err(error) => {
            eprintln!("{error}");
            ExitCode::FAILURE
        }
    }
}

#[test]
fn prints_what_the_paper_has() {
    // As it stands in the scope paper, `/` for line ends.
    let paper = "w cr2 0024/w trise 0025/w ccr 00b4/r cr1 0000/w cr1 0001/r cr1 0001/w sr1 0000/\
                 r cr1 0001/w cr1 0101/r sr1 0001/r sr1 0001/r sr2 0003/w dr 00a0/r sr1 0002/\
                 r sr2 0007/r sr1 0080/w dr 002a/r sr1 0084/r cr1 0001/w cr1 0201/r cr1 0001/\
                 end 0 1 12 21 0";
    let expected = paper.replace('/', "\n") + "\n";
    assert_eq!(print_run().expect("the list fits"), expected);
}
