//! The reduced call of document 01, and of document 02 for kind 7 and the width of an address.

use buslist::{combined, joined, Plan, PlannedCall, PlannedOperation};

#[derive(Debug, PartialEq, Eq)]
pub struct Reduced {
    blocking: bool,
    width: u8,
    address: u16,
    operations: Vec<PlannedOperation>,
}

/// The reduced calls of a plan, one by one.
pub fn reduced(plan: &Plan) -> Vec<Reduced> {
    plan.calls.iter().map(reduce).collect()
}

/// A call that makes no access.
pub fn idle(call: &PlannedCall) -> bool {
    match call.kind {
        3 => call.operations.is_empty(),
        6 | 7 => call.operations.iter().all(PlannedOperation::is_empty),
        _ => false,
    }
}

pub fn is_blocking(call: &PlannedCall) -> bool {
    call.kind > 3
}

fn reduce(call: &PlannedCall) -> Reduced {
    let blocking = is_blocking(call);
    // The operations of kinds 4 to 6 are never joined: no two are of one direction.
    let operations = if blocking {
        combined(&call.operations)
    } else {
        joined(&call.operations)
    };
    Reduced {
        blocking,
        width: call.width,
        address: call.address,
        operations,
    }
}

#[cfg(test)]
mod tests {
    use super::*;
    use PlannedOperation::{Read, Write};

    fn call(kind: u8, operations: &[PlannedOperation]) -> PlannedCall {
        PlannedCall {
            kind,
            width: 7,
            address: 0x50,
            operations: operations.to_vec(),
        }
    }

    fn write(bytes: &[u8]) -> PlannedOperation {
        Write(bytes.to_vec())
    }

    /// Document 02: the reduced form of a blocking transaction is its joined form.
    #[test]
    fn blocking_transactions_reduce_to_plain_calls() {
        let combined = call(7, &[write(&[1]), Read(0), write(&[2]), Read(1), Read(2)]);
        let plain = call(6, &[write(&[1, 2]), Read(3)]);
        assert_eq!(reduce(&combined), reduce(&plain));
        let combined = call(7, &[Read(1), write(&[]), Read(1)]);
        assert_eq!(reduce(&combined), reduce(&call(5, &[Read(2)])));
        // Bytes in their order, and no polling call is equal.
        let combined = call(7, &[write(&[1]), write(&[2])]);
        assert_eq!(reduce(&combined), reduce(&call(4, &[write(&[1, 2])])));
        assert_ne!(reduce(&combined), reduce(&call(4, &[write(&[2, 1])])));
        assert_ne!(reduce(&combined), reduce(&call(0, &[write(&[1, 2])])));
    }

    /// Document 02: the reduced address carries its width.
    #[test]
    fn widths_are_told_apart() {
        let seven_bit = call(0, &[write(&[1])]);
        let mut ten_bit = seven_bit.clone();
        ten_bit.width = 10;
        assert_ne!(reduce(&seven_bit), reduce(&ten_bit));
    }

    /// Document 02: with nothing left a blocking transaction is idle. A polling one has to list nothing.
    #[test]
    fn idle_calls() {
        for operations in [vec![], vec![write(&[])], vec![Read(0), write(&[])]] {
            assert!(idle(&call(7, &operations)));
            assert_eq!(idle(&call(3, &operations)), operations.is_empty());
        }
        assert!(!idle(&call(7, &[Read(0), Read(1)])));
    }
}
