//! The stand-in device: it takes readings, records accesses, and stops the Rust where either runs out.
//!
//! The sources reach the cycle counter by a function without arguments, so the device of a run is a
//! thread's own, not a value handed along. Every access is two pointer tests and two stores.

use std::cell::{Cell, RefCell};
use std::panic::{catch_unwind, resume_unwind, AssertUnwindSafe};
use std::ptr;

/// The codes of accesses in a record.
pub mod code {
    pub const READ_SR1: u32 = 1;
    pub const READ_SR2: u32 = 2;
    pub const READ_CR1: u32 = 3;
    pub const READ_DR: u32 = 4;
    pub const READ_CYC: u32 = 5;
    pub const WRITE_CR1: u32 = 11;
    pub const WRITE_CR2: u32 = 12;
    pub const WRITE_CCR: u32 = 13;
    pub const WRITE_TRISE: u32 = 14;
    pub const WRITE_SR1: u32 = 15;
    pub const WRITE_DR: u32 = 16;
}

/// What ran out.
#[derive(Debug, Clone, Copy, PartialEq, Eq)]
pub enum Cut {
    /// The next access is a read and every reading is used.
    Readings,
    /// Fewer than two record words remain for the next access.
    Record,
}

/// What a run took and made.
#[derive(Debug, Clone, Copy, PartialEq, Eq, Default)]
pub struct Usage {
    /// Readings taken: the read accesses.
    pub used: usize,
    /// Accesses made.
    pub made: usize,
    /// Bytes received: the DR reads.
    pub received: usize,
}

/// Makes a reading where none is left: given the access code and the record so far.
pub type Feed<'a> = dyn FnMut(u32, &[u32]) -> u32 + 'a;

struct Device {
    readings_start: Cell<*const u32>,
    reading: Cell<*const u32>,
    readings_end: Cell<*const u32>,
    /// Readings that the feed made.
    fed: Cell<usize>,
    record_start: Cell<*const u32>,
    record: Cell<*mut u32>,
    record_end: Cell<*mut u32>,
    received: Cell<usize>,
}

thread_local! {
    static DEVICE: Device = const { Device::idle() };
    static FEED: RefCell<Option<Box<Feed<'static>>>> = const { RefCell::new(None) };
}

/// The words of one access in a record: a code and a value.
pub const ENTRY_WORDS: usize = 2;

const ENTRY_BYTES: usize = ENTRY_WORDS * size_of::<u32>();

impl Device {
    /// Without readings and without a record.
    const fn idle() -> Device {
        Device {
            readings_start: Cell::new(ptr::null()),
            reading: Cell::new(ptr::null()),
            readings_end: Cell::new(ptr::null()),
            fed: Cell::new(0),
            record_start: Cell::new(ptr::null()),
            record: Cell::new(ptr::null_mut()),
            record_end: Cell::new(ptr::null_mut()),
            received: Cell::new(0),
        }
    }

    fn swap(&self, other: &Device) {
        self.readings_start.swap(&other.readings_start);
        self.reading.swap(&other.reading);
        self.readings_end.swap(&other.readings_end);
        self.fed.swap(&other.fed);
        self.record_start.swap(&other.record_start);
        self.record.swap(&other.record);
        self.record_end.swap(&other.record_end);
        self.received.swap(&other.received);
    }

    fn lend(&self, readings: &[u32], record: &mut [u32]) {
        let taken = readings.as_ptr_range();
        self.readings_start.set(taken.start);
        self.reading.set(taken.start);
        self.readings_end.set(taken.end);
        self.fed.set(0);
        let made = record.as_mut_ptr_range();
        self.record_start.set(made.start);
        self.record.set(made.start);
        self.record_end.set(made.end);
        self.received.set(0);
    }

    /// Where the next access goes, or the run stops.
    #[inline(always)]
    fn entry(&self) -> *mut u32 {
        let at = self.record.get();
        if (self.record_end.get() as usize) - (at as usize) < ENTRY_BYTES {
            stop(Cut::Record);
        }
        at
    }

    #[inline(always)]
    fn put(&self, at: *mut u32, code: u32, value: u32) {
        // SAFETY: `entry` gave `at`, with two words left in the record lent to this run.
        unsafe {
            at.write(code);
            at.add(1).write(value);
            self.record.set(at.add(ENTRY_WORDS));
        }
    }

    #[inline(always)]
    fn next_reading(&self, code: u32) -> u32 {
        let at = self.reading.get();
        if at == self.readings_end.get() {
            return self.past_the_readings(code);
        }
        // SAFETY: `at` is before the end of the readings lent to this run.
        unsafe {
            self.reading.set(at.add(1));
            at.read()
        }
    }

    #[cold]
    #[inline(never)]
    fn past_the_readings(&self, code: u32) -> u32 {
        FEED.with_borrow_mut(|feed| match feed {
            Some(feed) => {
                self.fed.set(self.fed.get() + 1);
                feed(code, self.recorded())
            }
            None => stop(Cut::Readings),
        })
    }

    fn recorded(&self) -> &[u32] {
        let start = self.record_start.get();
        let words = (self.record.get() as usize - start as usize) / size_of::<u32>();
        // SAFETY: these words of the lent record have been written, and no access is under way.
        unsafe { std::slice::from_raw_parts(start, words) }
    }

    fn usage(&self) -> Usage {
        let taken = self.reading.get() as usize - self.readings_start.get() as usize;
        Usage {
            used: taken / size_of::<u32>() + self.fed.get(),
            made: self.recorded().len() / ENTRY_WORDS,
            received: self.received.get(),
        }
    }
}

/// Leaves the Rust by unwinding, past the panic hook: nothing is printed.
#[cold]
#[inline(never)]
fn stop(cut: Cut) -> ! {
    resume_unwind(Box::new(cut))
}

/// A register read: the low 16 bits of the next reading.
#[inline(always)]
pub fn read_register(code: u32) -> u16 {
    DEVICE.with(|device| {
        let at = device.entry();
        let value = device.next_reading(code) as u16;
        if code == code::READ_DR {
            device.received.set(device.received.get() + 1);
        }
        device.put(at, code, u32::from(value));
        value
    })
}

/// A read of the cycle counter: all 32 bits of the next reading.
#[inline(always)]
pub fn read_cycles() -> u32 {
    DEVICE.with(|device| {
        let at = device.entry();
        let value = device.next_reading(code::READ_CYC);
        device.put(at, code::READ_CYC, value);
        value
    })
}

#[inline(always)]
pub fn write_register(code: u32, value: u16) {
    DEVICE.with(|device| {
        let at = device.entry();
        device.put(at, code, u32::from(value));
    })
}

/// Runs `body` on these readings and this record, until it returns or is cut short.
pub fn run<T>(
    readings: &[u32],
    record: &mut [u32],
    body: impl FnOnce() -> T,
) -> (Result<T, Cut>, Usage) {
    DEVICE.with(|device| device.lend(readings, record));
    let ended = catch_unwind(AssertUnwindSafe(body));
    let usage = DEVICE.with(|device| {
        let usage = device.usage();
        device.swap(&Device::idle());
        usage
    });
    let ended = ended.map_err(|thrown| match thrown.downcast::<Cut>() {
        Ok(cut) => *cut,
        Err(panic) => resume_unwind(panic),
    });
    (ended, usage)
}

/// Runs `body` on readings that `feed` makes as they are asked for.
pub fn simulate<T>(
    feed: Box<Feed<'_>>,
    record: &mut [u32],
    body: impl FnOnce() -> T,
) -> (Result<T, Cut>, Usage) {
    /// Takes the feed away however the run ends, a panic of the Rust included.
    struct Fed;
    impl Drop for Fed {
        fn drop(&mut self) {
            FEED.set(None);
        }
    }
    // SAFETY: only the lifetime is changed, and `Fed` drops the feed before this function is left.
    let feed: Box<Feed<'static>> = unsafe { std::mem::transmute(feed) };
    let _fed = Fed;
    FEED.set(Some(feed));
    run(&[], record, body)
}

/// Runs `body` on readings and a record of its own, which no one sees, and goes on as before.
pub fn aside<T>(body: impl FnOnce() -> T) -> T {
    let (readings, mut record) = ([0; 32], [0; 32]);
    let unseen = Device::idle();
    unseen.lend(&readings, &mut record);
    DEVICE.with(|device| {
        device.swap(&unseen);
        let value = body();
        device.swap(&unseen);
        value
    })
}

#[cfg(test)]
mod tests {
    use super::*;

    #[test]
    fn record_runs_out_before_readings() {
        let mut record = [7; 3];
        let (ended, usage) = run(&[], &mut record, || {
            write_register(code::WRITE_DR, 0x50);
            read_register(code::READ_SR1)
        });
        assert_eq!(ended, Err(Cut::Record));
        assert_eq!(
            usage,
            Usage {
                used: 0,
                made: 1,
                received: 0
            }
        );
        assert_eq!(record, [code::WRITE_DR, 0x50, 7]);
    }

    #[test]
    fn register_reads_are_cut_and_cycles_are_not() {
        let mut record = [0; 6];
        let (ended, usage) = run(&[0xABCD_1234, 0xABCD_1234], &mut record, || {
            (read_register(code::READ_DR), read_cycles(), read_cycles())
        });
        assert_eq!(ended, Err(Cut::Readings));
        assert_eq!(
            usage,
            Usage {
                used: 2,
                made: 2,
                received: 1
            }
        );
        assert_eq!(
            record,
            [code::READ_DR, 0x1234, code::READ_CYC, 0xABCD_1234, 0, 0]
        );
    }
}
