//! The library's functions, as the C side declares them. A slice crosses as
//! pointer and length; the pointer of an empty slice dangles but is aligned.

#[cfg(feature = "compiling")]
pub mod compiling;
#[cfg(feature = "operator_records")]
pub mod operator_records;
#[cfg(feature = "planning")]
pub mod planning;
#[cfg(feature = "reading")]
pub mod reading;
#[cfg(feature = "running")]
pub mod running;

use saqwillo_tests::task::{Head, Tables};

/// Declares functions whose first arguments are a head and five tables.
macro_rules! on_tables {
    ($($visible:vis fn $name:ident($($rest:ident: $kind:ty),*) -> $answer:ty;)*) => {
        #[link(name = "test_calls", kind = "static")]
        extern "C" {
            $($visible fn $name(
                variables: u16,
                twin_count: u16,
                formula_count: u16,
                effect_count: u16,
                operator_count: u16,
                goal: u16,
                initial: *const u8,
                initial_len: usize,
                twins: *const u16,
                twins_len: usize,
                formulas: *const u16,
                formulas_len: usize,
                effects: *const u16,
                effects_len: usize,
                operators: *const u16,
                operators_len: usize,
                $($rest: $kind),*
            ) -> $answer;)*
        }
    };
}

/// Calls such a function. Each pointer and length come from one slice that
/// outlives the call, and no mutable one overlaps another.
macro_rules! call_on_tables {
    ($name:ident, $head:expr, $tables:expr $(, $rest:expr)*) => {{
        let (head, tables): (&Head, &Tables) = ($head, $tables);
        unsafe {
            $name(
                head.variables,
                head.twin_count,
                head.formula_count,
                head.effect_count,
                head.operator_count,
                head.goal,
                tables.initial.as_ptr(),
                tables.initial.len(),
                tables.twins.as_ptr(),
                tables.twins.len(),
                tables.formulas.as_ptr(),
                tables.formulas.len(),
                tables.effects.as_ptr(),
                tables.effects.len(),
                tables.operators.as_ptr(),
                tables.operators.len(),
                $($rest),*
            )
        }
    }};
}

#[allow(unused_imports)]
pub(crate) use {call_on_tables, on_tables};

on_tables! {
    fn test_check() -> u16;
}

#[link(name = "test_calls", kind = "static")]
extern "C" {
    fn test_row_length(table: *const u16, table_len: usize, number: usize) -> usize;
    fn test_row_word(table: *const u16, table_len: usize, number: usize, at: usize) -> u16;
}

/// The library's check: 0 or the number of the refusal.
pub fn check(head: &Head, tables: &Tables) -> u16 {
    call_on_tables!(test_check, head, tables)
}

/// The length of the part that the library hands back as a row.
pub fn row_length(table: &[u16], number: usize) -> usize {
    // Pointer and length come from one slice.
    unsafe { test_row_length(table.as_ptr(), table.len(), number) }
}

/// A word of that part, 0 outside it.
pub fn row_word(table: &[u16], number: usize, at: usize) -> u16 {
    // Pointer and length come from one slice.
    unsafe { test_row_word(table.as_ptr(), table.len(), number, at) }
}

#[link(name = "test_calls", kind = "static")]
extern "C" {
    fn test_operator_row_length(table: *const u16, table_len: usize, number: usize) -> usize;
    fn test_operator_row_word(table: *const u16, table_len: usize, number: usize, at: usize)
        -> u16;
}

/// The length of the part that the library hands back as an operator row.
pub fn operator_row_length(table: &[u16], number: usize) -> usize {
    // Pointer and length come from one slice.
    unsafe { test_operator_row_length(table.as_ptr(), table.len(), number) }
}

/// A word of that part, 0 outside it.
pub fn operator_row_word(table: &[u16], number: usize, at: usize) -> u16 {
    // Pointer and length come from one slice.
    unsafe { test_operator_row_word(table.as_ptr(), table.len(), number, at) }
}
