//! Damage: to the readings of a run, to its buffers, and to lists.

use buslist::{highest, limit, Plan, PlannedCall, PlannedOperation, ENTRY};
use device::{code, ENTRY_WORDS};

use crate::limits::{call_with_operation_of, writes_filling};
use crate::plans::{empty, insert, scatter};
use crate::{flag, is_header, Rng, START};

/// A reading that every wait takes as what it waits for, to go on after damage.
const WELL: u32 = flag::READY;

/// The readings of a run that were SR1 words, by their place.
#[derive(Default)]
struct Status {
    all: Vec<usize>,
    /// The first after each address byte, a ten-bit low byte among them.
    after_address: Vec<usize>,
    /// The first after each byte of data.
    after_data: Vec<usize>,
}

/// What the last byte written to DR was, as far as a record tells.
enum Sent {
    /// Nothing since the last SR1 read.
    Nothing,
    Address,
    Data,
}

impl Status {
    fn of(record: &[u32]) -> Status {
        let mut status = Status::default();
        let mut taken = 0;
        let mut starting = false;
        // A header without an SR2 read after it: the next byte is the low one.
        let mut half = false;
        let mut sent = Sent::Nothing;
        for entry in record.chunks_exact(ENTRY_WORDS) {
            match entry[0] {
                code::WRITE_CR1 => starting |= entry[1] & START != 0,
                code::WRITE_DR => {
                    let first = std::mem::take(&mut starting);
                    let low_byte = std::mem::replace(&mut half, first && is_header(entry[1]));
                    sent = if first || low_byte {
                        Sent::Address
                    } else {
                        Sent::Data
                    };
                }
                code::READ_SR2 => half = false,
                code::READ_SR1 => {
                    status.push(taken, std::mem::replace(&mut sent, Sent::Nothing));
                }
                _ => {}
            }
            if entry[0] <= code::READ_CYC {
                taken += 1;
            }
        }
        status
    }

    fn push(&mut self, place: usize, after: Sent) {
        self.all.push(place);
        match after {
            Sent::Nothing => {}
            Sent::Address => self.after_address.push(place),
            Sent::Data => self.after_data.push(place),
        }
    }
}

/// Damages the readings of a run with this record.
pub fn damage_readings(rng: &mut Rng, readings: &mut Vec<u32>, record: &[u32]) {
    let status = Status::of(record);
    for _ in 0..rng.pick(&[1, 1, 1, 2]) {
        if readings.is_empty() {
            return;
        }
        let any = rng.below(readings.len());
        match rng.below(14) {
            0..=4 => add_error_flags(rng, readings, &status.all),
            5..=7 => add_error_flags(rng, readings, &status.after_address),
            8 => add_error_flags(rng, readings, &status.after_data),
            9 => readings[any] = rng.word(),
            10 => drop(readings.remove(any)),
            11 => readings.insert(any, readings[any]),
            12 => readings[any] = 0,
            _ => readings[any] ^= 1 << rng.below(32),
        }
    }
    // What comes after damage may take other readings than before: without these, most runs would only run out.
    let more = rng.pick(&[0, 4, 40]);
    readings.extend((0..more).map(|_| WELL));
}

/// One error flag or two, in one of the words at these places.
fn add_error_flags(rng: &mut Rng, readings: &mut [u32], places: &[usize]) {
    if places.is_empty() {
        return;
    }
    let Some(word) = readings.get_mut(rng.pick(places)) else {
        return;
    };
    for _ in 0..rng.range(1, 2) {
        *word |= flag::any_error(rng);
    }
}

/// Brings a plan over a limit: cause 21. Mostly over that of an operation, by one byte or two.
pub fn exceed(rng: &mut Rng, plan: &mut Plan) {
    let transaction = |operations| PlannedCall {
        kind: 3,
        width: 7,
        address: 0x50,
        operations,
    };
    let read = PlannedOperation::Read;
    match rng.below(20) {
        0 => {
            let over = rng.pick(&[1, limit::CALLS]);
            let idle = limit::CALLS + over - plan.calls.len();
            plan.calls.extend(vec![transaction(vec![]); idle]);
        }
        1 => {
            let over = rng.pick(&[1, limit::OPERATIONS]);
            let empty = (limit::OPERATIONS + over).saturating_sub(plan.operations().count());
            plan.calls.push(transaction(vec![read(0); empty]));
        }
        2 => {
            let bytes = (limit::LIST_BYTES + 1).saturating_sub(plan.bytes().len() + ENTRY);
            let writes = writes_filling(rng, bytes);
            plan.calls.push(transaction(writes));
        }
        3 => {
            // Far over it, yet within the bytes of a list.
            let bytes = rng.range(limit::OPERATION_BYTES + 3, 5_000);
            let operation = match rng.below(3) {
                0 => PlannedOperation::Write(rng.bytes(bytes)),
                1 => read(bytes),
                _ => read(65_535),
            };
            plan.calls.push(transaction(vec![operation]));
        }
        _ => {
            let bytes = limit::OPERATION_BYTES + rng.range(1, 2);
            let call = call_with_operation_of(rng, bytes);
            insert(rng, plan, call);
        }
    }
}

/// Gives a plan one of the causes 22 to 25 and 27.
pub fn forbid(rng: &mut Rng, plan: &mut Plan) {
    match rng.below(7) {
        0 => plan.settings.frequency = rng.pick(&[0, 400_001, u32::MAX, 800_000]),
        1 => {
            let mhz = rng.range(1, 4_294) as u32;
            plan.settings.sysclk = (mhz * 1_000_000).saturating_add(rng.below(1_000_000) as u32);
            let over = (u64::from(u32::MAX) / u64::from(mhz) + 1).min(u64::from(u32::MAX)) as u32;
            let timeout = match rng.below(3) {
                0 => &mut plan.settings.start_timeout,
                1 => &mut plan.settings.address_timeout,
                _ => &mut plan.settings.data_timeout,
            };
            *timeout = over.saturating_add(rng.pick(&[0, 1, 77]));
        }
        2 | 3 => write_after_read(rng, plan),
        4 | 5 if !plan.calls.is_empty() => {
            let any = rng.below(plan.calls.len());
            forbid_address(rng, &mut plan.calls[any]);
        }
        _ => plan.calls.push(PlannedCall {
            width: 7,
            address: 0x50,
            ..rng.percent(50).then(empty_write).unwrap_or_else(empty_read)
        }),
    }
}

/// Gives a call an address that is out, cause 24: over the highest of seven bits or of ten, or ten bits in a blocking
/// call, idle ones among them.
fn forbid_address(rng: &mut Rng, call: &mut PlannedCall) {
    let over = [1, 2, 128, 0x400, 0x8000];
    match rng.below(4) {
        0 => {
            call.width = 7;
            call.address = highest::SEVEN_BIT + rng.pick(&over);
        }
        1 => {
            // The polling call of its operations: no blocking one may have ten bits at all.
            call.kind &= 3;
            call.width = 10;
            call.address = highest::TEN_BIT + rng.pick(&over);
        }
        2 => {
            call.kind |= 4;
            call.width = 10;
        }
        _ => {
            let idle = [empty(rng), empty(rng)];
            *call = PlannedCall {
                kind: 7,
                width: 10,
                operations: idle[..rng.below(3)].to_vec(),
                ..call.clone()
            };
        }
    }
}

/// Gives a plan a blocking transaction with a write after a read, cause 27, in any place among its calls.
fn write_after_read(rng: &mut Rng, plan: &mut Plan) {
    let read = PlannedOperation::Read(rng.range(1, 4));
    let length = rng.range(1, 4);
    let write = PlannedOperation::Write(rng.bytes(length));
    let whole = match rng.below(4) {
        0 => vec![write.clone(), read, write],
        1 => vec![read.clone(), write, read],
        _ => vec![read, write],
    };
    let call = PlannedCall {
        kind: 7,
        width: 7,
        address: 0x50,
        operations: scatter(rng, &whole),
    };
    insert(rng, plan, call);
}

fn empty_write() -> PlannedCall {
    PlannedCall {
        kind: 4,
        width: 7,
        address: 0,
        operations: vec![PlannedOperation::Write(vec![])],
    }
}

fn empty_read() -> PlannedCall {
    PlannedCall {
        kind: 5,
        operations: vec![PlannedOperation::Read(0)],
        ..empty_write()
    }
}

/// Damages the bytes of a list.
pub fn damage_list(rng: &mut Rng, list: &mut Vec<u8>) {
    for _ in 0..rng.pick(&[1, 1, 2]) {
        match rng.below(6) {
            0 => {
                let at = rng.below(list.len().max(1));
                list.truncate(at);
            }
            1 => {
                let more = rng.range(1, 9);
                list.extend(rng.bytes(more));
            }
            2 => alter_word(rng, list),
            3 => alter_entry(rng, list),
            4 => {
                if let Some(byte) = any_byte(rng, list) {
                    *byte ^= 1 << rng.below(8);
                }
            }
            _ => {
                let value = rng.draw() as u8;
                if let Some(byte) = any_byte(rng, list) {
                    *byte = value;
                }
            }
        }
    }
}

fn any_byte<'a>(rng: &mut Rng, list: &'a mut [u8]) -> Option<&'a mut u8> {
    let at = rng.below(list.len().max(1));
    list.get_mut(at)
}

/// A header word: a little more or less, or an edge.
fn alter_word(rng: &mut Rng, list: &mut [u8]) {
    let at = 4 * rng.below(16);
    let Some(bytes) = list.get_mut(at..at + 4) else {
        return;
    };
    let word = u32::from_le_bytes((&*bytes).try_into().unwrap());
    let altered = match rng.below(5) {
        0 => word.wrapping_add(1),
        1 => word.wrapping_sub(1),
        2 => word.wrapping_add(8),
        // Eight times this wraps to a multiple of 2^32: an offset would be right only modulo 2^32.
        3 => word ^ 0x2000_0000,
        _ => rng.pick(&[0, 1, 3, 255, 256, u32::MAX, 0x8000_0000]),
    };
    bytes.copy_from_slice(&altered.to_le_bytes());
}

/// A byte of a call or an operation: a small other number, as kinds, widths, directions and counts are.
fn alter_entry(rng: &mut Rng, list: &mut [u8]) {
    if list.len() > buslist::HEADER {
        let entries = (list.len() - buslist::HEADER).min(256);
        let at = buslist::HEADER + rng.below(entries);
        list[at] = rng.pick(&[0, 1, 2, 3, 4, 5, 6, 7, 8, 10]);
    }
}

#[cfg(test)]
mod tests {
    use super::*;
    use crate::plan;

    /// Each limit is exceeded by one, with all others kept: 257 calls, 1,025 operations, a list of 32,769 bytes, an
    /// operation of 259.
    #[test]
    fn each_limit_is_exceeded_by_one() {
        let limits = [
            limit::CALLS,
            limit::OPERATIONS,
            limit::LIST_BYTES,
            limit::OPERATION_BYTES,
        ];
        let mut exceeded = [false; 4];
        for case in 0..20_000 {
            let rng = &mut Rng::of(6, case);
            let mut plan = plan(rng);
            exceed(rng, &mut plan);
            let list = plan.bytes();
            let refused = buslist::refusal(&list, plan.read_together());
            assert_eq!(refused, 21, "case {case}");
            let longest = plan.operations().map(PlannedOperation::len).max();
            let sizes = [
                plan.calls.len(),
                plan.operations().count(),
                list.len(),
                longest.unwrap_or(0),
            ];
            let over: Vec<usize> = (0..4).filter(|&at| sizes[at] > limits[at]).collect();
            if let [at] = over[..] {
                exceeded[at] |= sizes[at] == limits[at] + 1;
            }
        }
        assert_eq!(exceeded, [true; 4]);
    }
}
