// The Rust's pool, whose entries count the turns of the Rust's loop and can stop it before a turn.
//
// vm.rs asks its code for its length at each turn, `while pc < instructions.len()`, and then for the byte at its place. Entries are handed
// out as `Code`, which answers both as the slice does and notes the turn in between. No text of the Rust is changed, and nothing else of it
// can tell a `Code` from the slice.
use crate::errors::VMResult;
use std::cell::Cell;
use std::ops::{Deref, Index, Range};

thread_local! {
    // Whether a turn begins at the next byte that is read.
    static AT_TURN: Cell<bool> = const { Cell::new(false) };
    // The turns begun in this run, and how many may begin.
    static TURNS: Cell<u64> = const { Cell::new(0) };
    static LIMIT: Cell<u64> = const { Cell::new(0) };
    // The turns of this run that were reported by an earlier call: what they saved is forgotten before the next one.
    static REPORTED: Cell<u64> = const { Cell::new(0) };
    // The place of the turn that began last, or that the limit stopped.
    static PLACE: Cell<usize> = const { Cell::new(0) };
}

pub(crate) const COUNTED: bool = true;

// What the limit throws.
pub(crate) struct OutOfFuel;

pub(crate) fn set(limit: u64, reported: u64) {
    AT_TURN.set(false);
    TURNS.set(0);
    LIMIT.set(limit);
    REPORTED.set(reported);
}

pub(crate) fn turns() -> u64 {
    TURNS.get()
}

pub(crate) fn place() -> usize {
    PLACE.get()
}

fn begin(place: usize) {
    PLACE.set(place);
    if TURNS.get() == REPORTED.get() {
        crate::forget_file();
    }
    if TURNS.get() == LIMIT.get() {
        std::panic::panic_any(OutOfFuel);
    }
    TURNS.set(TURNS.get() + 1);
}

#[repr(transparent)]
pub(crate) struct Code([u8]);

impl Code {
    pub(crate) fn len(&self) -> usize {
        AT_TURN.set(true);
        self.0.len()
    }
}

impl Deref for Code {
    type Target = [u8];
    fn deref(&self) -> &[u8] {
        &self.0
    }
}

impl Index<usize> for Code {
    type Output = u8;
    fn index(&self, place: usize) -> &u8 {
        if AT_TURN.take() {
            begin(place);
        }
        &self.0[place]
    }
}

impl Index<Range<usize>> for Code {
    type Output = [u8];
    fn index(&self, part: Range<usize>) -> &[u8] {
        &self.0[part]
    }
}

#[derive(Debug, Default)]
pub struct InstructionsPool(crate::rust_pools::InstructionsPool);

impl InstructionsPool {
    pub(crate) fn intern_instructions(&mut self, calldata: Vec<u8>) -> u32 {
        self.0.intern_instructions(calldata)
    }

    pub(crate) fn get(&self, index: usize) -> VMResult<&Code> {
        // a Code is the slice under another name
        self.0.get(index).map(|bytes| unsafe { &*(bytes as *const [u8] as *const Code) })
    }
}
