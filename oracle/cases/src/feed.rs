//! The simulated device: it makes each reading as the Rust asks for it, and usually sets the awaited flag.

use buslist::Settings;
use device::{code, ENTRY_WORDS};

use crate::{flag, is_header, Rng, START, STOP};

/// How a simulated device behaves.
#[derive(Debug, Clone, Copy)]
pub struct Style {
    /// Of a hundred polls, those that find the device ready.
    pub ready: usize,
    /// Of a hundred SR1 words, those with an error flag.
    pub errors: usize,
    /// The same, for words between a START and the address after it.
    pub start_errors: usize,
    /// Of a hundred CYC readings, those at a limit or far away.
    pub jumps: usize,
    /// Whether words carry bits that no one asks for, those above 16 among them.
    pub spare_bits: bool,
    /// Whether ADD10 and ADDR are never set together while a ten-bit address may be under way.
    pub apart: bool,
}

impl Style {
    pub fn random(rng: &mut Rng) -> Style {
        Style {
            ready: rng.pick(&[100, 100, 100, 97, 85, 60]),
            errors: rng.pick(&[0, 0, 0, 0, 0, 0, 0, 2]),
            start_errors: rng.pick(&[0, 0, 0, 0, 0, 0, 10, 40]),
            jumps: rng.pick(&[0, 0, 0, 20, 50]),
            spare_bits: rng.percent(50),
            apart: rng.percent(50),
        }
    }
}

pub struct Feed<'a> {
    rng: &'a mut Rng,
    style: Style,
    /// The three limits, in cycles.
    limits: [u32; 3],
    cycles: u32,
    /// CR1 as last written, and whether an address is still to come after its START.
    cr1: u32,
    starting: bool,
    /// Whether a ten-bit header was sent, or a seven-bit address that looks like one, and SR2 was not read since.
    header_sent: bool,
    /// Record words seen so far.
    seen: usize,
}

impl<'a> Feed<'a> {
    pub fn new(rng: &'a mut Rng, style: Style, settings: &Settings) -> Feed<'a> {
        let mhz = settings.sysclk / 1_000_000;
        let cycles = if rng.percent(50) {
            u32::MAX - rng.below(40) as u32
        } else {
            rng.word()
        };
        Feed {
            rng,
            style,
            limits: [
                settings.start_timeout,
                settings.address_timeout,
                settings.data_timeout,
            ]
            .map(|us| us * mhz),
            cycles,
            cr1: 0,
            starting: false,
            header_sent: false,
            seen: 0,
        }
    }

    /// The reading for an access of this code, after the accesses of this record.
    pub fn reading(&mut self, code: u32, record: &[u32]) -> u32 {
        self.look(record);
        let word = match code {
            code::READ_SR1 => self.sr1(),
            code::READ_SR2 => self.sr2(),
            code::READ_CR1 => self.cr1(),
            code::READ_DR => u32::from(self.rng.word() as u8),
            _ => return self.cyc(),
        };
        if self.style.spare_bits {
            word | self.spare(code)
        } else {
            word
        }
    }

    fn look(&mut self, record: &[u32]) {
        for entry in record[self.seen..].chunks_exact(ENTRY_WORDS) {
            match entry[0] {
                code::WRITE_CR1 => {
                    self.cr1 = entry[1];
                    self.starting = entry[1] & START != 0;
                    self.header_sent = false;
                }
                code::WRITE_DR => {
                    let address = std::mem::take(&mut self.starting);
                    self.header_sent |= address && is_header(entry[1]);
                }
                code::READ_SR2 => self.header_sent = false,
                _ => {}
            }
        }
        self.seen = record.len();
    }

    fn sr1(&mut self) -> u32 {
        let word = if self.rng.percent(self.style.ready) {
            flag::READY
        } else {
            self.rng.word() & flag::READY
        };
        let word = if self.style.apart && self.header_sent {
            // Which of the two is awaited cannot be told from a header: by chance each has its turn.
            word & !self.rng.pick(&[flag::ADD10, flag::ADDR])
        } else {
            word
        };
        let errors = if self.starting {
            self.style.start_errors
        } else {
            self.style.errors
        };
        if self.rng.percent(errors) {
            word | flag::any_error(self.rng)
        } else {
            word
        }
    }

    fn sr2(&mut self) -> u32 {
        if self.rng.percent(self.style.ready) {
            self.rng.pick(&[1, 2, 3])
        } else {
            0
        }
    }

    fn cr1(&mut self) -> u32 {
        if self.rng.percent(self.style.ready) {
            self.cr1 & !(START | STOP)
        } else {
            self.cr1 & !START | STOP
        }
    }

    fn cyc(&mut self) -> u32 {
        let step = if self.rng.percent(self.style.jumps) {
            let limit = self.rng.pick(&self.limits);
            match self.rng.below(6) {
                0 | 1 => limit,
                2 | 3 => limit.wrapping_sub(1),
                4 => limit.wrapping_add(1),
                _ => self.rng.word(),
            }
        } else {
            self.rng.below(6) as u32
        };
        self.cycles = self.cycles.wrapping_add(step);
        self.cycles
    }

    /// Bits that no one asks for: above 16, and below them those that are no flag here.
    fn spare(&mut self, code: u32) -> u32 {
        let below = match code {
            code::READ_SR1 => 0xA030,
            code::READ_SR2 => 0xFFFC,
            code::READ_CR1 => 0x70FE,
            _ => 0xFF00,
        };
        self.rng.word() & (0xFFFF_0000 | below)
    }
}
