//! The names of embedded-hal 0.2 that the sources use.

pub mod blocking {
    pub mod i2c {
        #[derive(Debug)]
        pub enum Operation<'a> {
            Read(&'a mut [u8]),
            Write(&'a [u8]),
        }

        pub trait Read {
            type Error;
            fn read(&mut self, addr: u8, buffer: &mut [u8]) -> Result<(), Self::Error>;
        }

        pub trait Write {
            type Error;
            fn write(&mut self, addr: u8, bytes: &[u8]) -> Result<(), Self::Error>;
        }

        pub trait WriteRead {
            type Error;
            fn write_read(
                &mut self,
                addr: u8,
                bytes: &[u8],
                buffer: &mut [u8],
            ) -> Result<(), Self::Error>;
        }

        pub trait WriteIter {
            type Error;
            fn write<B>(&mut self, addr: u8, bytes: B) -> Result<(), Self::Error>
            where
                B: IntoIterator<Item = u8>;
        }

        pub trait WriteIterRead {
            type Error;
            fn write_iter_read<B>(
                &mut self,
                addr: u8,
                bytes: B,
                buffer: &mut [u8],
            ) -> Result<(), Self::Error>
            where
                B: IntoIterator<Item = u8>;
        }

        pub trait Transactional {
            type Error;
            fn exec(
                &mut self,
                address: u8,
                operations: &mut [Operation<'_>],
            ) -> Result<(), Self::Error>;
        }
    }
}
