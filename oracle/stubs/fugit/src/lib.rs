//! The names of fugit that the sources use: rates and durations that hold a raw 32-bit number.

use core::cmp::Ordering;

/// A rate of `raw` times `UNIT` hertz.
#[derive(Debug, Clone, Copy)]
pub struct Rate<const UNIT: u32> {
    raw: u32,
}

pub type HertzU32 = Rate<1>;
pub type KilohertzU32 = Rate<1_000>;
pub type MegahertzU32 = Rate<1_000_000>;

impl<const UNIT: u32> Rate<UNIT> {
    pub const fn from_raw(raw: u32) -> Self {
        Rate { raw }
    }

    pub const fn raw(&self) -> u32 {
        self.raw
    }

    /// Whole megahertz, rounded down.
    #[allow(non_snake_case)]
    pub const fn to_MHz(&self) -> u32 {
        (self.hertz() / 1_000_000) as u32
    }

    /// Wide enough that rates of different units compare as the numbers they are.
    const fn hertz(&self) -> u64 {
        self.raw as u64 * UNIT as u64
    }
}

impl<const A: u32, const B: u32> PartialEq<Rate<B>> for Rate<A> {
    fn eq(&self, other: &Rate<B>) -> bool {
        self.hertz() == other.hertz()
    }
}

impl<const UNIT: u32> Eq for Rate<UNIT> {}

impl<const A: u32, const B: u32> PartialOrd<Rate<B>> for Rate<A> {
    fn partial_cmp(&self, other: &Rate<B>) -> Option<Ordering> {
        Some(self.hertz().cmp(&other.hertz()))
    }
}

/// A duration of `ticks` divided by `PER_SECOND` seconds.
#[derive(Debug, Clone, Copy, PartialEq, Eq)]
pub struct Duration<const PER_SECOND: u32> {
    ticks: u32,
}

pub type MillisDurationU32 = Duration<1_000>;
pub type MicrosDurationU32 = Duration<1_000_000>;

impl<const PER_SECOND: u32> Duration<PER_SECOND> {
    pub const fn from_ticks(ticks: u32) -> Self {
        Duration { ticks }
    }

    pub const fn ticks(&self) -> u32 {
        self.ticks
    }
}
