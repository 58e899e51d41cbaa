//! The library's calls on operator records, which the crate exports itself.

use saqwillo_tests::lent::{Element, Lent};
use saqwillo_tests::operator_records::Changed;
use saqwillo_tests::task::OPERATOR_ROW;

/// An operator's row as a record.
#[repr(C)]
#[derive(Clone, Copy, Debug, PartialEq, Eq)]
pub struct Record {
    pub precondition: u16,
    pub effect: u16,
    pub cost: u16,
    pub percent: u16,
}

impl Element for Record {
    const GUARD: Record = Record {
        precondition: 0xa55a,
        effect: 0xa55a,
        cost: 0xa55a,
        percent: 0xa55a,
    };
    fn from_number(number: u64) -> Record {
        let [precondition, effect, cost, percent] = [0, 16, 32, 48].map(|at| (number >> at) as u16);
        Record {
            precondition,
            effect,
            cost,
            percent,
        }
    }
}

mod library {
    use super::Record;

    #[link(name = "operator_records", kind = "static")]
    extern "C" {
        pub fn set_percent(records: *mut Record, len: usize, number: u16, percent: u16) -> u16;
        pub fn record_of(operators: *const u16, len: usize, number: usize) -> Record;
        pub fn store_record(operators: *mut u16, len: usize, number: usize, row: Record);
    }
}

/// The record of a table's row.
pub fn record_of(operators: &[u16], number: usize) -> Record {
    // Pointer and length come from one slice.
    unsafe { library::record_of(operators.as_ptr(), operators.len(), number) }
}

/// Stores a record as a table's row.
fn store(operators: &mut [u16], number: usize, row: Record) {
    // Pointer and length come from one slice.
    unsafe { library::store_record(operators.as_mut_ptr(), operators.len(), number, row) };
}

/// The table with a record stored as a row.
pub fn store_record(operators: &[u16], number: usize, row: Record) -> Vec<u16> {
    let mut table = Lent::of(operators);
    store(table.slice(), number, row);
    table.taken()
}

/// The library's change: from the table's rows to records, there, and back to the rows.
pub fn set_percent(operators: &[u16], number: u16, percent: u16) -> Changed {
    let count = operators.len() / OPERATOR_ROW;
    let records: Vec<Record> = (0..count).map(|row| record_of(operators, row)).collect();
    let mut lent = Lent::of(&records);
    let list = lent.slice();
    // Pointer and length come from one slice.
    let number = unsafe { library::set_percent(list.as_mut_ptr(), list.len(), number, percent) };
    let mut table = Lent::of(operators);
    for (row, record) in lent.taken().into_iter().enumerate() {
        store(table.slice(), row, record);
    }
    Changed {
        number,
        operators: table.taken(),
    }
}
