//! Pins and remapping: the names that the sources use. Pins play no part in a run.

pub struct Rmp<T, const R: u8>(pub(crate) T);

impl<T> From<T> for Rmp<T, 0> {
    fn from(value: T) -> Self {
        Self(value)
    }
}

pub trait RInto<T, const R: u8> {
    fn rinto(self) -> T;
}

impl<T, const R: u8> RInto<T, R> for T {
    fn rinto(self) -> T {
        self
    }
}

pub trait I2cCommon {
    type Scl;
    type Sda;
}

impl I2cCommon for crate::pac::I2C1 {
    type Scl = ();
    type Sda = ();
}

impl I2cCommon for crate::pac::I2C2 {
    type Scl = ();
    type Sda = ();
}
