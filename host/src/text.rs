//! How counts are written.

use std::fmt::Display;

/// A count with its noun: "1 call", "2 calls", "0 accesses".
pub(crate) fn counted<N>(count: N, noun: &str) -> String
where
    N: Display + PartialEq + From<u8>,
{
    let ending = if count == N::from(1) {
        ""
    } else if noun.ends_with('s') {
        "es"
    } else {
        "s"
    };
    format!("{count} {noun}{ending}")
}

#[cfg(test)]
mod tests {
    use super::*;

    #[test]
    fn only_one_is_singular() {
        assert_eq!(counted(0_usize, "call"), "0 calls");
        assert_eq!(counted(1_u16, "call"), "1 call");
        assert_eq!(counted(1_u64, "access"), "1 access");
        assert_eq!(counted(21_u32, "access"), "21 accesses");
    }
}
