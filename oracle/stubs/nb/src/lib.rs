//! The names of nb that the sources use.

#[derive(Debug, Clone, Copy, PartialEq, Eq)]
pub enum Error<E> {
    Other(E),
    WouldBlock,
}

pub type Result<T, E> = core::result::Result<T, Error<E>>;

impl<E> From<E> for Error<E> {
    fn from(error: E) -> Self {
        Error::Other(error)
    }
}
