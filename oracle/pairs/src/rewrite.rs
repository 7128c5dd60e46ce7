//! Another list with equal reduced calls.

use buslist::{combined, limit, plain_kind, Plan, PlannedCall, PlannedOperation};
use cases::{scatter, Rng};

use crate::reduce::is_blocking;

/// Whether the first call was written as the second in this way.
type Way = fn(&PlannedCall, &PlannedCall) -> bool;

/// The ways in which a call is written anew, for the counts.
pub const WAYS: [(&str, Way); 11] = [
    ("a plain polling call as a transaction", |call, again| {
        !call.is_ten_bit() && as_transaction(call, again)
    }),
    ("a transaction as a plain polling call", |call, again| {
        !call.is_ten_bit() && as_transaction(again, call)
    }),
    ("a transaction with other operations", |call, again| {
        !call.is_ten_bit() && another_transaction(call, again)
    }),
    ("a plain ten-bit call as a transaction", |call, again| {
        call.is_ten_bit() && as_transaction(call, again)
    }),
    ("a ten-bit transaction as a plain call", |call, again| {
        call.is_ten_bit() && as_transaction(again, call)
    }),
    (
        "a ten-bit transaction with other operations",
        |call, again| call.is_ten_bit() && another_transaction(call, again),
    ),
    ("a blocking write or read as a write_read", |call, again| {
        matches!(call.kind, 4 | 5) && again.kind == 6
    }),
    ("a write_read as a blocking write or read", |call, again| {
        call.kind == 6 && matches!(again.kind, 4 | 5)
    }),
    (
        "a plain blocking call as a blocking transaction",
        |call, again| (4..=6).contains(&call.kind) && again.kind == 7,
    ),
    (
        "a blocking transaction as a plain blocking call",
        |call, again| call.kind == 7 && (4..=6).contains(&again.kind),
    ),
    (
        "a blocking transaction with other operations",
        |call, again| call.kind == 7 && again.kind == 7 && call.operations != again.operations,
    ),
];

fn as_transaction(call: &PlannedCall, again: &PlannedCall) -> bool {
    call.kind < 3 && again.kind == 3
}

fn another_transaction(call: &PlannedCall, again: &PlannedCall) -> bool {
    call.kind == 3 && again.kind == 3 && call.operations != again.operations
}

/// A plan with the same reduced calls; often other kinds and operations.
pub fn alike(rng: &mut Rng, plan: &Plan) -> Plan {
    let mut other = plan.clone();
    for call in &mut other.calls {
        // Two in ten stay as they are.
        if rng.percent(80) {
            *call = if is_blocking(call) {
                blocking(rng, call)
            } else {
                polling(rng, call)
            };
        }
    }
    if other.operations().count() <= limit::OPERATIONS && other.bytes().len() <= limit::LIST_BYTES {
        other
    } else {
        plan.clone()
    }
}

/// A transaction with its operations split and joined anew, or the plain call that it comes to.
fn polling(rng: &mut Rng, call: &PlannedCall) -> PlannedCall {
    let mut operations = Vec::new();
    for operation in &call.operations {
        push(rng, &mut operations, operation);
    }
    let kind = match operations[..] {
        [PlannedOperation::Write(_)] => 0,
        [PlannedOperation::Read(_)] => 1,
        [PlannedOperation::Write(_), PlannedOperation::Read(_)] => 2,
        _ => 3,
    };
    PlannedCall {
        kind: if rng.percent(50) { kind } else { 3 },
        operations,
        ..call.clone()
    }
}

/// Puts an operation after others: joined to the last where one may be so long, in two parts, beside an empty one, or
/// as it is.
fn push(rng: &mut Rng, operations: &mut Vec<PlannedOperation>, operation: &PlannedOperation) {
    use PlannedOperation::{Read, Write};
    let together = operations.last().map_or(0, PlannedOperation::len) + operation.len();
    let join = together <= limit::OPERATION_BYTES && rng.percent(50);
    let at = rng.below(operation.len() + 1);
    match (operations.last_mut(), operation) {
        (Some(Write(bytes)), Write(more)) if join => bytes.extend_from_slice(more),
        (Some(Read(length)), Read(more)) if join => *length += more,
        // The last part may not be an empty read: it would be the call's last operation.
        (_, Read(length)) if at < *length && rng.percent(50) => {
            operations.extend([Read(at), Read(length - at)])
        }
        (_, Write(bytes)) if rng.percent(50) => {
            operations.extend([Write(bytes[..at].to_vec()), Write(bytes[at..].to_vec())])
        }
        _ => operations.push(operation.clone()),
    }
}

/// A blocking transaction with its operations split anew, the plain call that it comes to, or a write_read with an
/// empty half.
fn blocking(rng: &mut Rng, call: &PlannedCall) -> PlannedCall {
    use PlannedOperation::{Read, Write};
    let whole = combined(&call.operations);
    let fits = whole
        .iter()
        .all(|operation| operation.len() <= limit::OPERATION_BYTES);
    let (kind, operations) = match (rng.below(3), &whole[..]) {
        (0, [write @ Write(_)]) if fits => (6, vec![write.clone(), Read(0)]),
        (0, [read @ Read(_)]) if fits => (6, vec![Write(vec![]), read.clone()]),
        (0 | 1, _) if fits => (plain_kind(&whole).expect("an accepted call"), whole),
        _ => (7, scatter(rng, &whole)),
    };
    PlannedCall {
        kind,
        operations,
        ..call.clone()
    }
}
