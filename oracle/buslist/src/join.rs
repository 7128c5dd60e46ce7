//! Document 02's blocking transaction (kind 7): empty operations dropped, neighbours of one direction joined.

use crate::PlannedOperation::{self, Read, Write};

/// What a blocking transaction comes to. Its empty operations go first, so that what they parted is joined.
pub fn combined(operations: &[PlannedOperation]) -> Vec<PlannedOperation> {
    let full = operations.iter().filter(|operation| !operation.is_empty());
    joined(full)
}

/// Neighbours of one direction joined: the bytes of writes in order, the lengths of reads summed.
pub fn joined<'a>(
    operations: impl IntoIterator<Item = &'a PlannedOperation>,
) -> Vec<PlannedOperation> {
    let mut joined: Vec<PlannedOperation> = Vec::new();
    for operation in operations {
        match (joined.last_mut(), operation) {
            (Some(Write(bytes)), Write(more)) => bytes.extend_from_slice(more),
            (Some(Read(length)), Read(more)) => *length += more,
            _ => joined.push(operation.clone()),
        }
    }
    joined
}

/// The kind of the blocking write, read or write_read with just these operations.
pub fn plain_kind(operations: &[PlannedOperation]) -> Option<u8> {
    match operations {
        [Write(_)] => Some(4),
        [Read(_)] => Some(5),
        [Write(_), Read(_)] => Some(6),
        _ => None,
    }
}

#[cfg(test)]
mod tests {
    use super::*;
    use crate::PlannedCall;

    fn write(bytes: &[u8]) -> PlannedOperation {
        Write(bytes.to_vec())
    }

    /// The kind and the operations that a blocking transaction is done as.
    fn done_as(operations: &[PlannedOperation]) -> Option<(u8, Vec<PlannedOperation>)> {
        let call = PlannedCall {
            kind: 7,
            width: 7,
            address: 0x50,
            operations: operations.to_vec(),
        };
        let plain = call.plain()?;
        assert_eq!((plain.width, plain.address), (7, 0x50));
        Some((plain.kind, plain.operations))
    }

    /// "Empty ones are dropped."
    #[test]
    fn empty_ones_are_dropped() {
        let parts = [
            write(&[]),
            Read(0),
            write(&[1]),
            Read(0),
            Read(2),
            write(&[]),
        ];
        assert_eq!(combined(&parts), [write(&[1]), Read(2)]);
    }

    /// "Neighbours of one direction are joined": bytes in order, the sum of the lengths.
    #[test]
    fn neighbours_of_one_direction_are_joined() {
        let parts = [write(&[1, 2]), write(&[3]), write(&[4]), Read(1), Read(2)];
        assert_eq!(combined(&parts), [write(&[1, 2, 3, 4]), Read(3)]);
    }

    /// Dropped first, joined then: what an empty one parts is joined too.
    #[test]
    fn dropped_before_joined() {
        assert_eq!(combined(&[Read(1), write(&[]), Read(2)]), [Read(3)]);
        let parts = [write(&[1]), Read(0), write(&[2])];
        assert_eq!(combined(&parts), [write(&[1, 2])]);
    }

    /// Full ones of the other direction part what stays apart.
    #[test]
    fn other_directions_stay_apart() {
        let parts = [Read(1), write(&[7]), Read(2)];
        assert_eq!(combined(&parts), parts);
    }

    /// "What remains is done as blocking write, read or write_read; with nothing left it is idle."
    #[test]
    fn done_as_plain_calls() {
        let one = write(&[1, 2]);
        assert_eq!(
            done_as(&[write(&[1]), write(&[2])]),
            Some((4, vec![one.clone()]))
        );
        assert_eq!(
            done_as(&[Read(0), one.clone()]),
            Some((4, vec![one.clone()]))
        );
        assert_eq!(done_as(&[Read(1), Read(1)]), Some((5, vec![Read(2)])));
        let both = [one.clone(), Read(0), Read(5), write(&[])];
        assert_eq!(done_as(&both), Some((6, vec![one, Read(5)])));
        assert_eq!(done_as(&[]), None);
        assert_eq!(done_as(&[write(&[]), Read(0)]), None);
    }

    /// No length is cut to 16 bits, and none to the 258 bytes that a listed operation may have.
    #[test]
    fn joined_lengths_are_whole() {
        assert_eq!(combined(&vec![Read(258); 255]), [Read(65_790)]);
        let joined = combined(&vec![Write(vec![7; 258]); 2]);
        assert_eq!(joined, [Write(vec![7; 516])]);
    }
}
