//! The library's four C entries. Buffers stand between guards, which must
//! be whole afterwards; `Err` says which was not.

use crate::entries::{Given, Read, Run};

/// A file, what it gives, and a result.
type Giving = unsafe extern "C" fn(
    file: *const u8,
    file_len: usize,
    out: *mut u8,
    out_len: usize,
    result: *mut u8,
    result_len: usize,
) -> u32;

#[link(name = "entries", kind = "static")]
extern "C" {
    fn pnf_read(file: *const u8, file_len: usize, tables: *mut u8, tables_len: usize) -> u32;
    fn pnf_compile(
        file: *const u8,
        file_len: usize,
        out: *mut u8,
        out_len: usize,
        result: *mut u8,
        result_len: usize,
    ) -> u32;
    fn pnf_run(
        file: *const u8,
        file_len: usize,
        state: *mut u8,
        state_len: usize,
        sequence: *const u8,
        sequence_len: usize,
        result: *mut u8,
        result_len: usize,
    ) -> u32;
    fn pnf_plan(
        file: *const u8,
        file_len: usize,
        out: *mut u8,
        out_len: usize,
        result: *mut u8,
        result_len: usize,
    ) -> u32;
}

const GUARD: usize = 32;
const GUARD_BYTE: u8 = 0x5a;

/// Bytes between two guards.
struct Guarded {
    all: Vec<u8>,
    length: usize,
}

impl Guarded {
    fn new(bytes: &[u8]) -> Guarded {
        let guard = [GUARD_BYTE; GUARD];
        Guarded {
            all: [&guard, bytes, &guard].concat(),
            length: bytes.len(),
        }
    }

    /// A buffer that holds `fill` before.
    fn filled(length: usize, fill: u8) -> Guarded {
        Guarded::new(&vec![fill; length])
    }

    fn pointer(&mut self) -> *mut u8 {
        self.all[GUARD..].as_mut_ptr()
    }

    fn bytes(self, name: &str) -> Result<Vec<u8>, String> {
        let (before, rest) = self.all.split_at(GUARD);
        let (bytes, behind) = rest.split_at(self.length);
        let whole = [before, behind].concat();
        if whole.iter().any(|&byte| byte != GUARD_BYTE) {
            return Err(format!("  the library wrote outside {name}"));
        }
        Ok(bytes.to_vec())
    }

    /// The same for a buffer that is only read.
    fn unchanged(self, bytes: &[u8], name: &str) -> Result<(), String> {
        if self.bytes(name)? != bytes {
            return Err(format!("  the library wrote into {name}"));
        }
        Ok(())
    }
}

pub fn read(bytes: &[u8], tables_length: usize, fill: u8) -> Result<Read, String> {
    let mut file = Guarded::new(bytes);
    let mut tables = Guarded::filled(tables_length, fill);
    // Each pointer and length belong to one guarded buffer.
    let number = unsafe { pnf_read(file.pointer(), bytes.len(), tables.pointer(), tables_length) };
    file.unchanged(bytes, "file")?;
    Ok(Read {
        number,
        tables: tables.bytes("tables")?,
    })
}

pub fn compile(file: &[u8], out: usize, result: usize, fill: u8) -> Result<Given, String> {
    given(pnf_compile, file, out, result, fill)
}

pub fn plan(file: &[u8], out: usize, result: usize, fill: u8) -> Result<Given, String> {
    given(pnf_plan, file, out, result, fill)
}

fn given(
    call: Giving,
    bytes: &[u8],
    out_length: usize,
    result_length: usize,
    fill: u8,
) -> Result<Given, String> {
    let mut file = Guarded::new(bytes);
    let mut out = Guarded::filled(out_length, fill);
    let mut result = Guarded::filled(result_length, fill);
    // Each pointer and length belong to one guarded buffer.
    let number = unsafe {
        call(
            file.pointer(),
            bytes.len(),
            out.pointer(),
            out_length,
            result.pointer(),
            result_length,
        )
    };
    file.unchanged(bytes, "file")?;
    Ok(Given {
        number,
        out: out.bytes("out")?,
        result: result.bytes("result")?,
    })
}

pub fn run(
    bytes: &[u8],
    state: &[u8],
    numbers: &[u8],
    result_length: usize,
    fill: u8,
) -> Result<Run, String> {
    let mut file = Guarded::new(bytes);
    let mut after = Guarded::new(state);
    let mut sequence = Guarded::new(numbers);
    let mut result = Guarded::filled(result_length, fill);
    // Each pointer and length belong to one guarded buffer.
    let number = unsafe {
        pnf_run(
            file.pointer(),
            bytes.len(),
            after.pointer(),
            state.len(),
            sequence.pointer(),
            numbers.len(),
            result.pointer(),
            result_length,
        )
    };
    file.unchanged(bytes, "file")?;
    sequence.unchanged(numbers, "sequence")?;
    Ok(Run {
        number,
        state: after.bytes("state")?,
        result: result.bytes("result")?,
    })
}
