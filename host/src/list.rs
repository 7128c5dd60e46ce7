//! Bus lists: made from calls here; written, read and explained in the modules below.

mod bytes;
mod check;
mod layout;
mod show;
mod warn;

use std::fmt;

use crate::settings::{ListSettings, Settings};

pub use check::{Fault, explain};
pub use show::show;
pub use warn::Warning;

/// What a call does, and which engine does it.
#[derive(Clone, Copy, Debug, PartialEq, Eq, Hash)]
pub enum Kind {
    /// 0: polling, one write.
    Write,
    /// 1: polling, one read.
    Read,
    /// 2: polling, a write then a read.
    WriteRead,
    /// 3: polling, any operations.
    Transaction,
    /// 4: blocking, one write.
    BlockingWrite,
    /// 5: blocking, one read.
    BlockingRead,
    /// 6: blocking, a write then a read.
    BlockingWriteRead,
    /// 7: blocking, any operations.
    BlockingTransaction,
}

impl Kind {
    /// Every kind, in the order of their numbers.
    pub const ALL: [Kind; 8] = [
        Kind::Write,
        Kind::Read,
        Kind::WriteRead,
        Kind::Transaction,
        Kind::BlockingWrite,
        Kind::BlockingRead,
        Kind::BlockingWriteRead,
        Kind::BlockingTransaction,
    ];

    /// The number that stands for the kind in a bus list.
    pub const fn number(self) -> u8 {
        match self {
            Kind::Write => 0,
            Kind::Read => 1,
            Kind::WriteRead => 2,
            Kind::Transaction => 3,
            Kind::BlockingWrite => 4,
            Kind::BlockingRead => 5,
            Kind::BlockingWriteRead => 6,
            Kind::BlockingTransaction => 7,
        }
    }

    /// The kind of a number, if it has one.
    pub fn from_number(number: u8) -> Option<Kind> {
        Kind::ALL.into_iter().find(|kind| kind.number() == number)
    }

    fn is_blocking(self) -> bool {
        match self {
            Kind::Write | Kind::Read | Kind::WriteRead | Kind::Transaction => false,
            Kind::BlockingWrite
            | Kind::BlockingRead
            | Kind::BlockingWriteRead
            | Kind::BlockingTransaction => true,
        }
    }
}

impl fmt::Display for Kind {
    fn fmt(&self, f: &mut fmt::Formatter<'_>) -> fmt::Result {
        f.write_str(match self {
            Kind::Write => "polling write",
            Kind::Read => "polling read",
            Kind::WriteRead => "polling write_read",
            Kind::Transaction => "polling transaction",
            Kind::BlockingWrite => "blocking write",
            Kind::BlockingRead => "blocking read",
            Kind::BlockingWriteRead => "blocking write_read",
            Kind::BlockingTransaction => "blocking transaction",
        })
    }
}

/// The address of a call, before it is shifted to make room for the direction bit.
///
/// A plain `u8` is a seven-bit address. Ten-bit ones are for polling calls:
///
/// ```
/// use vandhukril::{Address, BusList, Hertz, Mode, PollingSettings, explain};
///
/// let mut list = BusList::new(PollingSettings {
///     pclk1: Hertz(36_000_000),
///     mode: Mode::Standard,
///     frequency: Hertz(100_000),
/// });
/// list.write(0x50, &[0x2a]).write_read(Address::Ten(0x123), &[0x10], 4);
///
/// let bytes = list.to_bytes()?;
/// assert_eq!(bytes[72..76], [2, 10, 0x23, 0x01]); // kind, width, address
/// assert!(explain(&bytes, list.received_length()).is_ok());
/// # Ok::<(), Box<dyn std::error::Error>>(())
/// ```
///
/// A list can hold more addresses than the engine accepts: it refuses seven-bit ones above 127, ten-bit
/// ones above 1023, and ten-bit ones in blocking calls.
#[derive(Clone, Copy, Debug, PartialEq, Eq, Hash)]
pub enum Address {
    /// Address width 7.
    Seven(u16),
    /// Address width 10.
    Ten(u16),
}

impl From<u8> for Address {
    /// A seven-bit address.
    fn from(address: u8) -> Address {
        Address::Seven(address.into())
    }
}

impl fmt::Display for Address {
    fn fmt(&self, f: &mut fmt::Formatter<'_>) -> fmt::Result {
        match self {
            Address::Seven(address) => write!(f, "{address:#04x}"),
            Address::Ten(address) => write!(f, "{address:#05x} (ten-bit)"),
        }
    }
}

/// The most bytes that one operation of a list may have. The engine refuses a list with a longer one
/// (cause 21), also when it is a read.
///
/// A longer transfer is given in parts to a transaction of the same engine. It joins neighbours of one
/// direction, so that on the bus the parts are one:
///
/// ```
/// use vandhukril::Operation::Write;
/// use vandhukril::{BusList, LONGEST_OPERATION, accesses, run};
/// # use vandhukril::{Hertz, Micros, Mode, Settings};
/// # let settings = Settings {
/// #     pclk1: Hertz(36_000_000),
/// #     sysclk: Hertz(72_000_000),
/// #     mode: Mode::Standard,
/// #     frequency: Hertz(100_000),
/// #     start_timeout: Micros(1000),
/// #     start_retries: 3,
/// #     address_timeout: Micros(1000),
/// #     data_timeout: Micros(1000),
/// # };
///
/// let data = [0x2a; 600];
/// let parts = data.chunks(LONGEST_OPERATION).map(|part| Write(part.to_vec()));
/// let list = BusList::new(settings).blocking_transaction(0x50, parts).to_bytes()?;
///
/// let mut record = [0; 4000];
/// run(&list, &[0xcf; 2000], &mut [], &mut record)?;
/// // What goes to DR is the address, once, and then all data.
/// let sent: Vec<_> = accesses(&record).filter(|access| access.code == 16).collect();
/// assert_eq!((sent.len(), sent[0].value), (1 + 600, 0xa0));
/// # Ok::<(), Box<dyn std::error::Error>>(())
/// ```
///
/// A read of 300 bytes is `[Operation::Read(258), Operation::Read(42)]`.
pub const LONGEST_OPERATION: usize = 258;

/// One operation of a call. The engine takes at most [`LONGEST_OPERATION`] bytes in one.
#[derive(Clone, Debug, PartialEq, Eq, Hash)]
pub enum Operation {
    /// Writes these bytes.
    Write(Vec<u8>),
    /// Reads so many bytes.
    Read(u16),
}

/// One call of a bus list. Its kind and its operations always agree.
#[derive(Clone, Debug, PartialEq, Eq, Hash)]
pub struct Call {
    kind: Kind,
    address: Address,
    operations: Vec<Operation>,
}

impl Call {
    /// What the call does, and which engine does it.
    pub fn kind(&self) -> Kind {
        self.kind
    }

    /// The address it goes to.
    pub fn address(&self) -> Address {
        self.address
    }

    /// Its operations in order.
    pub fn operations(&self) -> &[Operation] {
        &self.operations
    }
}

/// A bus list: settings, and calls in order.
///
/// It is made call by call and written with [`to_bytes`](BusList::to_bytes), which computes every
/// count and offset. What it writes is always of the form of a bus list (never cause 20). Whether
/// the engine accepts it, with its settings, addresses and lengths, is for the engine to say.
///
/// Which calls a list can have follows from the type of its settings. With [`Settings`] it can have
/// them all:
///
/// ```
/// use vandhukril::{BusList, Hertz, Micros, Mode, Operation, Settings};
///
/// let mut list = BusList::new(Settings {
///     pclk1: Hertz(36_000_000),
///     sysclk: Hertz(72_000_000),
///     mode: Mode::Fast2To1,
///     frequency: Hertz(400_000),
///     start_timeout: Micros(1000),
///     start_retries: 3,
///     address_timeout: Micros(1000),
///     data_timeout: Micros(1000),
/// });
/// list.blocking_write_read(0x50, &[0x00, 0x10], 16)
///     .transaction(0x68, [Operation::Write(vec![1]), Operation::Read(4), Operation::Read(2)]);
///
/// let bytes = list.to_bytes()?;
/// assert_eq!(bytes.len(), 64 + 2 * 8 + 5 * 8 + 3);
/// assert_eq!(BusList::from_bytes(&bytes)?, list);
/// # Ok::<(), Box<dyn std::error::Error>>(())
/// ```
///
/// With [`PollingSettings`](crate::PollingSettings), which have no timeouts and no retries, it can
/// have polling calls only. This does not compile:
///
/// ```compile_fail,E0599
/// use vandhukril::{BusList, Hertz, Mode, PollingSettings};
///
/// let mut list = BusList::new(PollingSettings {
///     pclk1: Hertz(36_000_000),
///     mode: Mode::Standard,
///     frequency: Hertz(100_000),
/// });
/// list.blocking_write(0x50, &[0x2a]);
/// ```
#[derive(Clone, Debug, PartialEq, Eq, Hash)]
pub struct BusList<S = Settings> {
    settings: S,
    calls: Vec<Call>,
}

/// What every list has: polling calls, and what can be asked of it.
impl<S: ListSettings> BusList<S> {
    /// A list with these settings and no calls.
    pub fn new(settings: S) -> Self {
        BusList {
            settings,
            calls: Vec::new(),
        }
    }

    /// The settings.
    pub fn settings(&self) -> &S {
        &self.settings
    }

    /// The calls in order.
    pub fn calls(&self) -> &[Call] {
        &self.calls
    }

    /// Adds a polling write (kind 0).
    pub fn write(&mut self, address: impl Into<Address>, bytes: &[u8]) -> &mut Self {
        self.push(Kind::Write, address, vec![Operation::Write(bytes.to_vec())])
    }

    /// Adds a polling read (kind 1). With length 0 the run answers Overrun there.
    pub fn read(&mut self, address: impl Into<Address>, length: u16) -> &mut Self {
        self.push(Kind::Read, address, vec![Operation::Read(length)])
    }

    /// Adds a polling write then read in one call (kind 2).
    pub fn write_read(
        &mut self,
        address: impl Into<Address>,
        bytes: &[u8],
        length: u16,
    ) -> &mut Self {
        self.push(Kind::WriteRead, address, write_then_read(bytes, length))
    }

    /// Adds a polling call of any operations (kind 3). Neighbours of one direction are joined.
    pub fn transaction(
        &mut self,
        address: impl Into<Address>,
        operations: impl IntoIterator<Item = Operation>,
    ) -> &mut Self {
        self.push(Kind::Transaction, address, operations.into_iter().collect())
    }

    fn push(
        &mut self,
        kind: Kind,
        address: impl Into<Address>,
        operations: Vec<Operation>,
    ) -> &mut Self {
        self.calls.push(Call {
            kind,
            address: address.into(),
            operations,
        });
        self
    }

    fn operations(&self) -> impl Iterator<Item = &Operation> {
        self.calls.iter().flat_map(|call| &call.operations)
    }

    /// The bytes of all reads together. A received buffer of this length is long enough.
    pub fn received_length(&self) -> usize {
        self.operations()
            .map(|operation| match operation {
                Operation::Write(_) => 0,
                Operation::Read(length) => usize::from(*length),
            })
            .sum()
    }
}

/// What only a list with all eight settings has: blocking calls, and calls of any kind. The engine refuses
/// a list with a ten-bit address in a blocking call.
impl BusList<Settings> {
    /// Adds a blocking write (kind 4). The engine refuses a list with an empty one.
    pub fn blocking_write(&mut self, address: impl Into<Address>, bytes: &[u8]) -> &mut Self {
        self.push(
            Kind::BlockingWrite,
            address,
            vec![Operation::Write(bytes.to_vec())],
        )
    }

    /// Adds a blocking read (kind 5). The engine refuses a list with an empty one.
    pub fn blocking_read(&mut self, address: impl Into<Address>, length: u16) -> &mut Self {
        self.push(Kind::BlockingRead, address, vec![Operation::Read(length)])
    }

    /// Adds a blocking write then read in one call (kind 6). An empty half is left out of the run.
    pub fn blocking_write_read(
        &mut self,
        address: impl Into<Address>,
        bytes: &[u8],
        length: u16,
    ) -> &mut Self {
        self.push(
            Kind::BlockingWriteRead,
            address,
            write_then_read(bytes, length),
        )
    }

    /// Adds a blocking call of any operations (kind 7).
    ///
    /// Empty operations are dropped and neighbours of one direction are joined. What remains is done
    /// as a blocking write, read or write_read. With nothing left the call makes no access and ends
    /// well. The engine refuses a list in which a read is then followed by a write.
    ///
    /// ```
    /// use vandhukril::Operation::{Read, Write};
    /// use vandhukril::{BusList, Hertz, Micros, Mode, Refusal, Settings, explain};
    ///
    /// let settings = Settings {
    ///     pclk1: Hertz(36_000_000),
    ///     sysclk: Hertz(72_000_000),
    ///     mode: Mode::Standard,
    ///     frequency: Hertz(100_000),
    ///     start_timeout: Micros(1000),
    ///     start_retries: 3,
    ///     address_timeout: Micros(1000),
    ///     data_timeout: Micros(1000),
    /// };
    /// // One write of two bytes, then one read of three.
    /// let mut list = BusList::new(settings);
    /// list.blocking_transaction(0x50, [Write(vec![0]), Write(vec![0x1f]), Read(1), Read(2)]);
    /// assert!(explain(&list.to_bytes()?, list.received_length()).is_ok());
    ///
    /// let mut list = BusList::new(settings);
    /// list.blocking_transaction(0x50, [Read(1), Write(vec![0])]);
    /// let fault = explain(&list.to_bytes()?, list.received_length()).unwrap_err();
    /// assert_eq!(fault.refusal, Refusal::WriteAfterRead);
    /// # Ok::<(), Box<dyn std::error::Error>>(())
    /// ```
    pub fn blocking_transaction(
        &mut self,
        address: impl Into<Address>,
        operations: impl IntoIterator<Item = Operation>,
    ) -> &mut Self {
        self.push(
            Kind::BlockingTransaction,
            address,
            operations.into_iter().collect(),
        )
    }

    /// Adds a call of another list.
    pub fn add(&mut self, call: Call) -> &mut Self {
        self.calls.push(call);
        self
    }
}

fn write_then_read(bytes: &[u8], length: u16) -> Vec<Operation> {
    vec![Operation::Write(bytes.to_vec()), Operation::Read(length)]
}

/// The settings and the calls, a line each.
impl<S: ListSettings> fmt::Display for BusList<S> {
    fn fmt(&self, f: &mut fmt::Formatter<'_>) -> fmt::Result {
        let s = self.settings.all();
        writeln!(
            f,
            "pclk1 {}, sysclk {}, {} {}",
            s.pclk1, s.sysclk, s.mode, s.frequency
        )?;
        writeln!(
            f,
            "timeouts: start {}, address {}, data {}; start retries {}",
            s.start_timeout, s.address_timeout, s.data_timeout, s.start_retries
        )?;
        for call in &self.calls {
            write!(f, "{} at {}:", call.kind, call.address)?;
            for (place, operation) in call.operations.iter().enumerate() {
                write!(f, "{} {operation}", if place == 0 { "" } else { "," })?;
            }
            writeln!(f)?;
        }
        Ok(())
    }
}

impl fmt::Display for Operation {
    fn fmt(&self, f: &mut fmt::Formatter<'_>) -> fmt::Result {
        match self {
            Operation::Write(bytes) => {
                f.write_str("write")?;
                bytes.iter().try_for_each(|byte| write!(f, " {byte:02x}"))
            }
            Operation::Read(length) => write!(f, "read {length}"),
        }
    }
}

#[cfg(test)]
mod tests {
    use super::*;
    use crate::settings::{Hertz, Micros, Mode, PollingSettings};

    fn settings() -> Settings {
        Settings {
            pclk1: Hertz(36_000_000),
            sysclk: Hertz(72_000_000),
            mode: Mode::Standard,
            frequency: Hertz(100_000),
            start_timeout: Micros(10),
            start_retries: 3,
            address_timeout: Micros(20),
            data_timeout: Micros(30),
        }
    }

    #[test]
    fn kinds_and_numbers_agree() {
        for (number, kind) in (0..).zip(Kind::ALL) {
            assert_eq!(kind.number(), number);
            assert_eq!(Kind::from_number(number), Some(kind));
        }
        assert_eq!(Kind::from_number(8), None);
    }

    #[test]
    fn a_list_is_shown_line_by_line() {
        let mut list = BusList::new(settings());
        list.write_read(0x50, &[0, 0x1f], 4)
            .transaction(Address::Ten(0x123), [])
            .blocking_write(0x68, &[7])
            .blocking_transaction(0x69, [Operation::Write(vec![]), Operation::Read(2)]);
        assert_eq!(
            list.to_string(),
            "pclk1 36000000 Hz, sysclk 72000000 Hz, Standard 100000 Hz\n\
             timeouts: start 10 µs, address 20 µs, data 30 µs; start retries 3\n\
             polling write_read at 0x50: write 00 1f, read 4\n\
             polling transaction at 0x123 (ten-bit):\n\
             blocking write at 0x68: write 07\n\
             blocking transaction at 0x69: write, read 2\n"
        );
    }

    #[test]
    fn a_polling_list_is_shown_with_zeros() {
        let list = BusList::new(PollingSettings {
            pclk1: Hertz(36_000_000),
            mode: Mode::Standard,
            frequency: Hertz(100_000),
        });
        assert_eq!(
            list.to_string(),
            "pclk1 36000000 Hz, sysclk 0 Hz, Standard 100000 Hz\n\
             timeouts: start 0 µs, address 0 µs, data 0 µs; start retries 0\n"
        );
    }

    #[test]
    fn the_received_length_is_the_sum_of_all_reads() {
        let mut list = BusList::new(settings());
        list.write_read(1, &[1, 2, 3], 4)
            .read(1, 65_535)
            .blocking_read(1, 2);
        assert_eq!(list.received_length(), 65_541);
    }
}
