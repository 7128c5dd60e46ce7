//! The names of embedded-hal 1.0 that the sources use.

pub mod i2c {
    #[derive(Debug, Clone, Copy, PartialEq, Eq)]
    pub enum NoAcknowledgeSource {
        Address,
        Data,
        Unknown,
    }

    #[derive(Debug, Clone, Copy, PartialEq, Eq)]
    #[non_exhaustive]
    pub enum ErrorKind {
        Bus,
        ArbitrationLoss,
        NoAcknowledge(NoAcknowledgeSource),
        Overrun,
        Other,
    }

    pub trait Error: core::fmt::Debug {
        fn kind(&self) -> ErrorKind;
    }

    pub trait ErrorType {
        type Error: Error;
    }

    pub type SevenBitAddress = u8;
    pub type TenBitAddress = u16;

    #[derive(Debug)]
    pub enum Operation<'a> {
        Read(&'a mut [u8]),
        Write(&'a [u8]),
    }

    pub trait I2c<A = SevenBitAddress>: ErrorType {
        fn read(&mut self, addr: A, buffer: &mut [u8]) -> Result<(), Self::Error>;
        fn write(&mut self, addr: A, bytes: &[u8]) -> Result<(), Self::Error>;
        fn write_read(
            &mut self,
            addr: A,
            bytes: &[u8],
            buffer: &mut [u8],
        ) -> Result<(), Self::Error>;
        fn transaction(
            &mut self,
            addr: A,
            operations: &mut [Operation<'_>],
        ) -> Result<(), Self::Error>;
    }
}
