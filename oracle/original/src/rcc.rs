//! Clocks: the names that the sources use. Clock gating plays no part in a run.

use crate::pac::{I2C1, I2C2};
use crate::time::{Hertz, Hz};

pub struct Clocks {
    pclk1: Hertz,
    sysclk: Hertz,
}

impl Clocks {
    pub const fn sysclk(&self) -> Hertz {
        self.sysclk
    }

    /// The AHB is not divided here.
    pub const fn hclk(&self) -> Hertz {
        self.sysclk
    }
}

pub struct Rcc {
    pub clocks: Clocks,
}

impl Rcc {
    /// With these clocks, in hertz.
    pub fn at(pclk1: u32, sysclk: u32) -> Rcc {
        Rcc {
            clocks: Clocks {
                pclk1: Hz(pclk1),
                sysclk: Hz(sysclk),
            },
        }
    }
}

pub trait Enable {
    fn enable(_rcc: &mut Rcc) {}
}

pub trait Reset {
    fn reset(_rcc: &mut Rcc) {}
}

pub trait BusClock {
    fn clock(clocks: &Clocks) -> Hertz;
}

macro_rules! on_apb1 {
    ($($peripheral:ty),+) => {
        $(
            impl crate::Sealed for $peripheral {}
            impl Enable for $peripheral {}
            impl Reset for $peripheral {}
            impl BusClock for $peripheral {
                fn clock(clocks: &Clocks) -> Hertz {
                    clocks.pclk1
                }
            }
        )+
    };
}

on_apb1!(I2C1, I2C2);
