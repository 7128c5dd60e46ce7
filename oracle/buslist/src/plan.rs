//! A list as it is planned, and its bytes.

use crate::{combined, plain_kind, Call, List, Operation, Settings, ENTRY, HEADER};

#[derive(Debug, Clone, PartialEq, Eq)]
pub enum PlannedOperation {
    Write(Vec<u8>),
    Read(usize),
}

#[derive(Debug, Clone, PartialEq, Eq)]
pub struct PlannedCall {
    pub kind: u8,
    pub width: u8,
    pub address: u16,
    pub operations: Vec<PlannedOperation>,
}

#[derive(Debug, Clone, PartialEq, Eq)]
pub struct Plan {
    pub settings: Settings,
    pub calls: Vec<PlannedCall>,
}

impl PlannedOperation {
    pub fn len(&self) -> usize {
        match self {
            PlannedOperation::Write(bytes) => bytes.len(),
            PlannedOperation::Read(length) => *length,
        }
    }

    pub fn is_empty(&self) -> bool {
        self.len() == 0
    }

    /// The first bytes of an operation, taken off it.
    pub fn take(&mut self, bytes: usize) -> PlannedOperation {
        match self {
            PlannedOperation::Write(all) => PlannedOperation::Write(all.drain(..bytes).collect()),
            PlannedOperation::Read(length) => {
                *length -= bytes;
                PlannedOperation::Read(bytes)
            }
        }
    }

    /// As it is read from a list.
    pub fn listed(&self) -> Operation<'_> {
        match self {
            PlannedOperation::Write(bytes) => Operation::Write(bytes),
            PlannedOperation::Read(length) => Operation::Read(*length),
        }
    }
}

impl PlannedCall {
    /// A ten-bit call: its address is sent as a header and a low byte.
    pub fn is_ten_bit(&self) -> bool {
        self.width == 10
    }

    /// A call of a list of the form.
    pub fn of(list: &List, call: &Call) -> PlannedCall {
        PlannedCall {
            kind: call.kind,
            width: call.width,
            address: call.address,
            operations: list.operations(call).map(planned).collect(),
        }
    }

    /// The blocking write, read or write_read that an accepted blocking transaction is done as; none where it is
    /// idle.
    pub fn plain(&self) -> Option<PlannedCall> {
        let operations = combined(&self.operations);
        if operations.is_empty() {
            return None;
        }
        Some(PlannedCall {
            kind: plain_kind(&operations).expect("no write after a read"),
            operations,
            ..self.clone()
        })
    }
}

impl Plan {
    /// The plan of a list of the form.
    pub fn of(list: &List) -> Plan {
        Plan {
            settings: list.settings(),
            calls: list
                .calls()
                .map(|call| PlannedCall::of(list, &call))
                .collect(),
        }
    }

    /// The operations of all calls, one after the other.
    pub fn operations(&self) -> impl Iterator<Item = &PlannedOperation> {
        self.calls.iter().flat_map(|call| &call.operations)
    }

    /// The bytes that all reads receive together.
    pub fn read_together(&self) -> usize {
        let received = |operation: &PlannedOperation| match operation {
            PlannedOperation::Write(_) => 0,
            PlannedOperation::Read(length) => *length,
        };
        self.operations().map(received).sum()
    }

    /// A list of the form, where the numbers fit it. Lengths past 16 bits are cut, and so refused.
    pub fn bytes(&self) -> Vec<u8> {
        let mut calls = Vec::new();
        let mut operations = Vec::new();
        let mut data = Vec::new();
        for call in &self.calls {
            let first = operations.len() / ENTRY;
            calls.extend([call.kind, call.width]);
            calls.extend(call.address.to_le_bytes());
            calls.extend((first as u16).to_le_bytes());
            calls.extend((call.operations.len() as u16).to_le_bytes());
            for operation in &call.operations {
                let (direction, offset, bytes): (u8, usize, &[u8]) = match operation {
                    PlannedOperation::Write(bytes) => (0, data.len(), bytes),
                    PlannedOperation::Read(_) => (1, 0, &[]),
                };
                operations.extend([direction, 0]);
                operations.extend((operation.len() as u16).to_le_bytes());
                operations.extend((offset as u32).to_le_bytes());
                data.extend_from_slice(bytes);
            }
        }
        let settings = &self.settings;
        let header = [
            self.calls.len() as u32,
            HEADER as u32,
            (operations.len() / ENTRY) as u32,
            (HEADER + calls.len()) as u32,
            data.len() as u32,
            (HEADER + calls.len() + operations.len()) as u32,
            settings.pclk1,
            settings.sysclk,
            settings.mode as u32,
            settings.frequency,
            settings.start_timeout,
            u32::from(settings.start_retries),
            settings.address_timeout,
            settings.data_timeout,
            0,
            0,
        ];
        let header = header.iter().flat_map(|word| word.to_le_bytes());
        header.chain(calls).chain(operations).chain(data).collect()
    }
}

fn planned(operation: Operation) -> PlannedOperation {
    match operation {
        Operation::Write(bytes) => PlannedOperation::Write(bytes.to_vec()),
        Operation::Read(length) => PlannedOperation::Read(length),
    }
}

#[cfg(test)]
mod tests {
    use super::*;

    /// What is planned is what is read, the widths of addresses included.
    #[test]
    fn a_list_read_is_the_plan() {
        let call = |width, address, operations: &[PlannedOperation]| PlannedCall {
            kind: 3,
            width,
            address,
            operations: operations.to_vec(),
        };
        let plan = Plan {
            settings: Settings::example(),
            calls: vec![
                call(7, 0x78, &[PlannedOperation::Write(vec![5])]),
                call(10, 0x350, &[PlannedOperation::Read(1)]),
            ],
        };
        let list = plan.bytes();
        assert_eq!(Plan::of(&List::accepted(&list)), plan);
    }
}
