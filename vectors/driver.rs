// Answers the cases of crates/vectors with the Rust's own functions: the expected output of that program, but for the comparisons that vectors/make
// tells apart.
#[path = "SPACYDO/errors.rs"]
mod errors;
#[path = "SPACYDO/memory.rs"]
mod memory;
#[path = "SPACYDO/values.rs"]
mod values;
use errors::VMError;
pub(crate) use values::*;
use std::io::{Read, Write};

fn refused(e: VMError) -> String {
    match e {
        VMError::InvalidType => "refused 5".into(),
        VMError::TypeMismatch => "refused 6".into(),
        VMError::MultiplicationOverflowed => "refused 7".into(),
        VMError::MSliceParamOverflow => "refused 13".into(),
        VMError::MSliceOutOfBounds { index, size } => format!("refused 14 {index} {size}"),
        other => panic!("no number for {other:?}"),
    }
}

fn value(r: Result<u64, VMError>) -> String {
    match r {
        Ok(v) => format!("value {v:016x}"),
        Err(e) => refused(e),
    }
}

fn num(case: &[u8], at: usize, width: usize) -> u64 {
    (0..width).map(|k| (case[at + k] as u64) << (8 * k)).sum()
}

// Memory with so many bytes EE in use.
fn in_use(mut used: usize) -> memory::LinearMemory {
    let mut m = memory::LinearMemory::new();
    while used > 0 {
        let size = used.min(65535);
        m.alloc(size as u16, 4, &vec![0xEE; size]).unwrap();
        used -= size;
    }
    m
}

fn hex(bytes: &[u8]) -> String {
    bytes.iter().map(|b| format!("{b:02x}")).collect()
}

fn answer(case: &[u8]) -> String {
    match case[0] {
        b'u' => format!("{}\n", std::str::from_utf8(&case[1..]).is_ok()),
        b'b' => {
            let a = num(case, 2, 4) as u32;
            let size = num(case, 6, 2) as u16;
            value(match case[1] {
                0 => Ok(to_u32_val(a)),
                1 => Ok(to_calldata_val(a)),
                2 => Ok(to_bool_val(a == 1)),
                3 => to_string_vec_val(a, size),
                _ => to_u32_vec_val(a, size),
            }) + "\n"
        }
        b'w' => {
            let v = num(case, 1, 8);
            let tag = tag(v).map(|t| t.to_string()).unwrap_or_else(refused);
            let pointer = to_fat_pointer(v).map(|(o, s)| format!("{o} {s}")).unwrap_or_else(refused);
            let kind = match get_value_type(v) {
                Ok(ValueType::U32) => "U32".into(),
                Ok(ValueType::String) => "String".into(),
                Ok(ValueType::CallData) => "CallData".into(),
                Ok(ValueType::Bool) => "Bool".into(),
                Ok(ValueType::VecU32) => "VecU32".into(),
                Ok(ValueType::Null) => "Null".into(),
                Err(e) => refused(e),
            };
            format!("number {}\ntag {tag}\npointer {pointer}\ntype {kind}\n", to_u32(v))
        }
        b'c' => {
            let (a, b) = (num(case, 1, 8), num(case, 9, 8));
            format!(
                "mul {}\nmuli {}\neq {}\nneq {}\nlt {}\ngt {}\n",
                value(mul_checked(a, b)),
                value(mul_checked_i(a, to_u32(b))),
                value(value_eq(a, b)),
                value(value_neq(a, b)),
                value(value_cmp(a, b, true)),
                value(value_cmp(a, b, false))
            )
        }
        b'p' => value(in_use(num(case, 2, 4) as usize).alloc(num(case, 6, 2) as u16, case[1], &[])) + "\n",
        b'a' => {
            let used = case[2] as usize;
            let mut m = in_use(used);
            let said = m.alloc(num(case, 3, 2) as u16, case[1], &case[5..]);
            let end = m.len() as usize;
            let mut bytes = [0xEE; 32];
            match said {
                // the lent memory of 32 bytes is a limit that the port adds: 23 (docs/REFERENCE.md, 'Refusals')
                Ok(_) if end > 32 => format!("refused 23\n{}\n", hex(&bytes)),
                Ok(v) => {
                    bytes[..end].copy_from_slice(m.get_slice_bytes(0, end as u16));
                    format!("used {end} value {v:016x}\n{}\n", hex(&bytes))
                }
                // a refused instruction leaves nothing behind: docs/REFERENCE.md, 'Control flow and fuel'
                Err(e) => format!("{}\n{}\n", refused(e), hex(&bytes)),
            }
        }
        b'm' => {
            let mut m = in_use(16);
            let (offset, size) = (case[2] as u32, num(case, 3, 2) as u16);
            let said = m.mut_vec(offset, size, num(case, 5, 4) as u32, num(case, 9, 4) as u32, case[1] as u64);
            let line = said.map(|_| "changed".to_string()).unwrap_or_else(refused);
            format!("{line}\n{}\n", hex(m.get_slice_bytes(0, 16)))
        }
        other => panic!("no such case {other}"),
    }
}

fn main() {
    let mut input = Vec::new();
    std::io::stdin().read_to_end(&mut input).unwrap();
    let mut at = 0;
    let mut out = String::new();
    while at < input.len() {
        let size = input[at] as usize;
        out += &answer(&input[at + 1..at + 1 + size]);
        at += 1 + size;
    }
    std::io::stdout().write_all(out.as_bytes()).unwrap();
}
