//! Peripheral access: the registers, fields and methods that the sources use, over the stand-in device.
//!
//! A field write starts from 0, one of SR1 with every write-zero-to-clear bit set, and is cut to the field. A plain
//! write is the word that it is given. `modify` reads, then writes with only the named bits altered.

use core::marker::PhantomData;
use core::ops::Deref;
use device::code;

pub use cortex_m::peripheral::DWT;

pub trait Readable {
    const READ: u32;
}

pub trait Writable {
    const WRITE: u32;
    /// The bits that a written 0 clears. A field write starts with them set.
    const ZERO_TO_MODIFY_FIELDS_BITMAP: u16 = 0;
}

pub struct Reg<S>(PhantomData<S>);

/// A word read from register `S`.
pub struct R<S> {
    bits: u16,
    register: PhantomData<S>,
}

/// A word to be written to register `S`.
pub struct W<S> {
    bits: u16,
    register: PhantomData<S>,
}

impl<S: Readable> Reg<S> {
    #[inline(always)]
    pub fn read(&self) -> R<S> {
        R {
            bits: device::read_register(S::READ),
            register: PhantomData,
        }
    }
}

impl<S: Writable> Reg<S> {
    #[inline(always)]
    pub fn write(&self, fill: impl FnOnce(&mut W<S>) -> &mut W<S>) {
        self.write_from(S::ZERO_TO_MODIFY_FIELDS_BITMAP, fill);
    }

    #[inline(always)]
    pub fn reset(&self) {
        device::write_register(S::WRITE, 0);
    }

    #[inline(always)]
    fn write_from(&self, bits: u16, fill: impl FnOnce(&mut W<S>) -> &mut W<S>) {
        let mut word = W {
            bits,
            register: PhantomData,
        };
        fill(&mut word);
        device::write_register(S::WRITE, word.bits);
    }
}

impl<S: Readable + Writable> Reg<S> {
    #[inline(always)]
    pub fn modify(&self, alter: impl for<'w> FnOnce(&R<S>, &'w mut W<S>) -> &'w mut W<S>) {
        let was = self.read();
        self.write_from(was.bits, |word| alter(&was, word));
    }
}

impl<S> R<S> {
    #[inline(always)]
    pub fn bits(&self) -> u16 {
        self.bits
    }
}

impl<S> W<S> {
    /// # Safety
    ///
    /// Unsafe as in the PAC, since the sources call it so; here any word may be written.
    #[inline(always)]
    pub unsafe fn bits(&mut self, bits: u16) -> &mut Self {
        self.bits = bits;
        self
    }
}

/// A bit of a word read.
pub struct BitReader(bool);

impl BitReader {
    #[inline(always)]
    pub fn bit_is_set(&self) -> bool {
        self.0
    }

    #[inline(always)]
    pub fn bit_is_clear(&self) -> bool {
        !self.0
    }

    #[inline(always)]
    pub fn is_no_stop(&self) -> bool {
        self.bit_is_clear()
    }
}

/// The low byte of a word read.
pub struct ByteReader(u8);

impl ByteReader {
    #[inline(always)]
    pub fn bits(&self) -> u8 {
        self.0
    }
}

/// A bit of a word to be written.
pub struct BitWriter<'a, S> {
    word: &'a mut W<S>,
    bit: u16,
}

impl<'a, S> BitWriter<'a, S> {
    #[inline(always)]
    pub fn set_bit(self) -> &'a mut W<S> {
        self.word.bits |= self.bit;
        self.word
    }

    #[inline(always)]
    pub fn clear_bit(self) -> &'a mut W<S> {
        self.word.bits &= !self.bit;
        self.word
    }
}

/// A field of a word to be written, from bit 0; `T` is the number that the sources hand it.
pub struct FieldWriter<'a, S, T> {
    word: &'a mut W<S>,
    mask: u16,
    number: PhantomData<T>,
}

impl<'a, S, T: Into<u16>> FieldWriter<'a, S, T> {
    #[inline(always)]
    pub fn set(self, value: T) -> &'a mut W<S> {
        self.word.bits = self.word.bits & !self.mask | value.into() & self.mask;
        self.word
    }

    /// # Safety
    ///
    /// Unsafe as in the PAC, since the sources call it so; here the value is cut to the field.
    #[inline(always)]
    pub unsafe fn bits(self, value: T) -> &'a mut W<S> {
        self.set(value)
    }
}

macro_rules! registers {
    ($($module:ident $marker:ident $(read $read:ident)? $(write $write:ident $(from $from:literal)?)? {
        $(reads $($get:ident $get_at:literal),+;)?
        $(writes $($set:ident $set_at:literal),+;)?
    })+) => {
        $(
            pub mod $module {
                use super::*;

                pub struct $marker;
                pub type R = super::R<$marker>;
                pub type W = super::W<$marker>;

                $(impl Readable for $marker {
                    const READ: u32 = code::$read;
                })?
                $(impl Writable for $marker {
                    const WRITE: u32 = code::$write;
                    $(const ZERO_TO_MODIFY_FIELDS_BITMAP: u16 = $from;)?
                })?

                $(impl R {
                    $(#[inline(always)]
                    pub fn $get(&self) -> BitReader {
                        BitReader(self.bits & 1 << $get_at != 0)
                    })+
                })?

                $(impl W {
                    $(#[inline(always)]
                    pub fn $set(&mut self) -> BitWriter<'_, $marker> {
                        BitWriter { word: self, bit: 1 << $set_at }
                    })+
                })?
            }
        )+

        pub struct RegisterBlock;

        impl RegisterBlock {
            $(#[inline(always)]
            pub fn $module(&self) -> &Reg<$module::$marker> {
                &Reg(PhantomData)
            })+
        }
    };
}

pub mod i2c1 {
    use super::*;

    registers! {
        cr1 Cr1 read READ_CR1 write WRITE_CR1 {
            reads stop 9;
            writes pe 0, start 8, stop 9, ack 10, pos 11, swrst 15;
        }
        cr2 Cr2 write WRITE_CR2 {}
        dr Dr read READ_DR write WRITE_DR {}
        sr1 Sr1 read READ_SR1 write WRITE_SR1 from 0xDF00 {
            reads sb 0, addr 1, btf 2, rx_ne 6, tx_e 7, berr 8, arlo 9, af 10, ovr 11, pecerr 12, timeout 14;
            writes berr 8, arlo 9, af 10, ovr 11, pecerr 12, timeout 14;
        }
        sr2 Sr2 read READ_SR2 {
            reads msl 0, busy 1;
        }
        ccr Ccr write WRITE_CCR {
            writes duty 14, f_s 15;
        }
        trise Trise write WRITE_TRISE {}
    }

    impl cr2::W {
        #[inline(always)]
        pub fn freq(&mut self) -> FieldWriter<'_, cr2::Cr2, u8> {
            field(self, 6)
        }
    }

    impl trise::W {
        #[inline(always)]
        pub fn trise(&mut self) -> FieldWriter<'_, trise::Trise, u8> {
            field(self, 6)
        }
    }

    impl ccr::W {
        #[inline(always)]
        pub fn ccr(&mut self) -> FieldWriter<'_, ccr::Ccr, u16> {
            field(self, 12)
        }
    }

    impl dr::W {
        #[inline(always)]
        pub fn dr(&mut self) -> FieldWriter<'_, dr::Dr, u8> {
            field(self, 8)
        }
    }

    impl dr::R {
        #[inline(always)]
        pub fn dr(&self) -> ByteReader {
            ByteReader(self.bits as u8)
        }
    }

    fn field<S, T>(word: &mut W<S>, width: u32) -> FieldWriter<'_, S, T> {
        FieldWriter {
            word,
            mask: (1 << width) - 1,
            number: PhantomData,
        }
    }
}

/// Both peripherals are the one stand-in device.
macro_rules! peripherals {
    ($($name:ident),+) => {
        $(
            pub struct $name;

            impl Deref for $name {
                type Target = i2c1::RegisterBlock;

                #[inline(always)]
                fn deref(&self) -> &Self::Target {
                    &i2c1::RegisterBlock
                }
            }
        )+
    };
}

peripherals!(I2C1, I2C2);
