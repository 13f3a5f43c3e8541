// Runs the same programs on the Rust and on this machine, in one process, one after the other, and prints the best time of each.
//
// Each line: what the program does, its finished instructions, the Rust's best time and this machine's in milliseconds. Both begin with a fresh
// machine at each run. Lines of the second part are this machine's alone: what grows, its size, and the best time in milliseconds.
#![allow(dead_code)]
#[path = "../oracle/src/bytecode/mod.rs"]
mod bytecode;
#[path = "../oracle/src/errors.rs"]
mod errors;
#[path = "../oracle/src/inlinevec.rs"]
mod inlinevec;
#[path = "../oracle/src/memory.rs"]
mod memory;
#[path = "../oracle/src/pools/mod.rs"]
mod pools;
#[path = "../oracle/src/storage/mod.rs"]
mod storage;
#[path = "../oracle/src/values.rs"]
mod values;
#[path = "../oracle/src/vm.rs"]
mod vm;

use std::hint::black_box;
use std::time::Instant;
pub(crate) use values::*;

const TURNS: usize = 15;

unsafe extern "C" {
    fn rafenuma_run(
        memory: *mut u8, memory_length: usize, image: *const u8, image_length: usize, program: *const u8, program_length: usize,
        new_image: *mut u8, new_image_length: usize, listing: *mut u8, listing_length: usize, answer: *mut u64, fuel: u64,
    ) -> u64;
    fn rafenuma_admit(program: *const u8, program_length: usize, kinds: *mut u8) -> u64;
}

// ---- instructions

fn number(n: u32) -> Vec<u8> {
    [&[0x01], &n.to_be_bytes()[..]].concat()
}

fn muli(n: u32) -> Vec<u8> {
    [&[0x1e], &n.to_be_bytes()[..]].concat()
}

fn text(bytes: &[u8]) -> Vec<u8> {
    [&[0x1b], &(bytes.len() as u16).to_be_bytes()[..], &[4, 1], bytes].concat()
}

fn calldata(code: &[u8]) -> Vec<u8> {
    [&[0x04], &(code.len() as u16).to_be_bytes()[..], code].concat()
}

fn jump_if_false(to: usize) -> Vec<u8> {
    [&[0x1a], &(to as u32).to_be_bytes()[..]].concat()
}

// from an index to a limit, a body
fn looped(from: u32, limit: u32, body: &[u8]) -> Vec<u8> {
    [&number(limit)[..], &number(from), &[0x0e], body, &[0x0f]].concat()
}

const DO_BYTES: usize = 11;
const DROP: [u8; 1] = [0x13];
const DUP: [u8; 1] = [0x14];
const CALL: [u8; 1] = [0x11];
const END_CALL: [u8; 1] = [0x12];
const S_LEN: [u8; 1] = [0x0d];
const LOOP_INDEX: [u8; 1] = [0x10];
const EQ: [u8; 1] = [0x16];
const GT: [u8; 1] = [0x19];
const CREATE: [u8; 1] = [0x07];
const DELETE: [u8; 1] = [0x0a];
const GET_STATE: [u8; 3] = [0x05, 1, 0x08];
const SET_STATE: [u8; 3] = [0x05, 1, 0x09];
const STATE_1: [u8; 2] = [0x03, 1];
const STATES_3: [u8; 2] = [0x06, 3];

// ---- programs

fn products() -> Vec<u8> {
    let body = [number(7), muli(3), DROP.to_vec()].concat();
    looped(0, 4000, &looped(0, 2500, &body))
}

fn choices() -> Vec<u8> {
    let start = 2 * DO_BYTES;
    let before = [LOOP_INDEX.to_vec(), DUP.to_vec(), number(500), GT.to_vec()].concat();
    let inside = [DUP, DROP].concat();
    let after = start + before.len() + 5 + inside.len();
    let body = [before, jump_if_false(after), inside, DROP.to_vec()].concat();
    looped(0, 4000, &looped(0, 1000, &body))
}

fn texts() -> Vec<u8> {
    let body = [text(b"closing"), text(b"closings"), EQ.to_vec(), DROP.to_vec(), text(b"balance"), text(b"balancf"), EQ.to_vec(), DROP.to_vec()].concat();
    looped(0, 1000, &looped(0, 1000, &body))
}

fn tasks() -> Vec<u8> {
    let create = [text(b"Close"), STATES_3.to_vec(), calldata(&END_CALL), CREATE.to_vec()].concat();
    let set = [STATE_1.to_vec(), number(0), SET_STATE.to_vec()].concat();
    let get = [number(0), GET_STATE.to_vec(), DROP.to_vec()].concat();
    let inner = looped(0, 5000, &[set, get].concat());
    let outer = [create.clone(), inner, LOOP_INDEX.to_vec(), DELETE.to_vec()].concat();
    [create, looped(1, 201, &outer)].concat()
}

fn many_tasks() -> Vec<u8> {
    let create = [text(b"Close"), STATES_3.to_vec(), calldata(&END_CALL), CREATE.to_vec()].concat();
    let change = [STATE_1.to_vec(), LOOP_INDEX.to_vec(), SET_STATE.to_vec(), LOOP_INDEX.to_vec(), GET_STATE.to_vec(), DROP.to_vec()].concat();
    looped(0, 250, &[create, change, LOOP_INDEX.to_vec(), DELETE.to_vec()].concat())
}

fn calls() -> Vec<u8> {
    let code = [number(1), DROP.to_vec(), END_CALL.to_vec()].concat();
    let create = [text(b"Close"), STATES_3.to_vec(), calldata(&code), CREATE.to_vec()].concat();
    let body = [number(0), CALL.to_vec()].concat();
    [create, looped(0, 2000, &looped(0, 1000, &body))].concat()
}

// so many bytes: two stacks of 998 kinds that were made apart, and from the second one jumps back to the first
fn apart(size: usize) -> Vec<u8> {
    let mut code = [&S_LEN[..], &S_LEN, &GT, &DUP.repeat(997)].concat();
    let first = code.len();
    code.extend([DROP.repeat(997), DUP.repeat(997)].concat());
    while code.len() + 6 <= size {
        code.extend([&DUP[..], &jump_if_false(first)].concat());
    }
    code.resize(size, 0);
    code
}

// so many bytes: instructions of one byte on numbers, in an order that no processor foresees
fn mixed(size: usize) -> Vec<u8> {
    let choices = [(0x0d, 0, 1), (0x14, 1, 2), (0x13, 1, 0), (0x15, 2, 2), (0x15, 2, 2), (0x1f, 2, 1), (0x0a, 1, 0), (0x00, 0, 0), (0x0b, 0, 0), (0x0c, 0, 0), (0x12, 0, 0)];
    let (mut code, mut height, mut seed) = (vec![], 0, 1u32);
    while code.len() < size {
        seed = seed.wrapping_mul(1664525).wrapping_add(1013904223);
        let (opcode, takes, gives) = choices[(seed >> 16) as usize % choices.len()];
        if takes <= height && height - takes + gives <= 1000 {
            code.push(opcode);
            height = height - takes + gives;
        }
    }
    code
}

// an image of so many tasks, each with this title and code
fn image(count: u32, title: &[u8], code: &[u8]) -> Vec<u8> {
    let record = |kind: u16, body: &[u8]| [&(body.len() as u32).to_le_bytes(), &kind.to_le_bytes()[..], body].concat();
    let mut image = record(1, &[count.to_le_bytes(), count.to_le_bytes()].concat());
    for id in 0..count {
        image.extend(record(2, &[&id.to_le_bytes()[..], &[3, 1], &(title.len() as u16).to_le_bytes(), title, code].concat()));
    }
    image
}

// ---- measuring

struct Lent {
    memory: Vec<u8>,
    new_image: Vec<u8>,
    listing: Vec<u8>,
    answer: [u64; 8],
}

fn lent() -> Lent {
    Lent { memory: vec![0; 32 << 20], new_image: vec![0; 1 << 20], listing: vec![0; 1 << 20], answer: [0; 8] }
}

fn ours(l: &mut Lent, image: &[u8], program: &[u8]) -> u64 {
    unsafe {
        rafenuma_run(
            l.memory.as_mut_ptr(), l.memory.len(), image.as_ptr(), image.len(), program.as_ptr(), program.len(),
            l.new_image.as_mut_ptr(), l.new_image.len(), l.listing.as_mut_ptr(), l.listing.len(), l.answer.as_mut_ptr(), u64::MAX,
        )
    }
}

fn rust(program: &[u8]) -> bool {
    let mut machine = vm::VM::init(program.to_vec()).ok().unwrap();
    black_box(machine.run()).is_ok()
}

fn milliseconds(run: impl FnOnce()) -> f64 {
    let begin = Instant::now();
    run();
    begin.elapsed().as_secs_f64() * 1000.0
}

fn beside(name: &str, program: Vec<u8>, times: usize) {
    let mut l = lent();
    let (mut best_rust, mut best_ours) = (f64::MAX, f64::MAX);
    assert!(rust(&program), "{name}: the Rust refuses");
    assert!(ours(&mut l, &[], &program) == 0, "{name}: this machine refuses: {:?}", l.answer);
    for _ in 0..TURNS {
        best_rust = best_rust.min(milliseconds(|| (0..times).for_each(|_| assert!(rust(&program)))));
        best_ours = best_ours.min(milliseconds(|| (0..times).for_each(|_| assert!(ours(&mut l, &[], &program) == 0))));
    }
    println!("{name}\t{}\t{best_rust:.2}\t{best_ours:.2}", l.answer[1] * times as u64);
}

// the best time of many runs, each of which creates, runs, saves and lists
fn listed(name: &str, size: usize, image: &[u8], program: &[u8]) {
    let mut l = lent();
    let best = (0..TURNS * 20).map(|_| milliseconds(|| assert!(ours(&mut l, image, program) == 0, "{name}"))).fold(f64::MAX, f64::min);
    assert!(image.is_empty() || l.new_image[..image.len()] == *image);
    println!("{name}\t{size}\t{best:.3}");
}

// each kind of line whose length grows, at its longest but for some bytes
fn lines() {
    let umlauts = ["Abschlüsse".repeat(5957).as_bytes(), b"abc"].concat();
    let (letters, control) = ([b'a'; 128], [b'\n'; 128]);
    listed("a text of letters listed", 65530, &[], &text(&[b'a'; 65530]));
    listed("a text of letters with umlauts listed", umlauts.len(), &[], &text(&umlauts));
    listed("a text of control bytes listed", 65535, &[], &[0x1b, 0xff, 0xff, 4, 0]);
    listed("tasks with titles of 128 letters listed", 256, &image(256, &letters, &[]), &[0]);
    listed("tasks with titles of 128 control bytes listed", 256, &image(256, &control, &[]), &[0]);
    listed("numbers listed, each 0", 16383, &[], &[0x1b, 0xff, 0xfc, 6, 0]);
    listed("numbers of ten digits listed", 16382, &[], &[&[0x1b, 0xff, 0xf8, 6, 1], &[0xff; 65528][..]].concat());
    listed("calldata listed", 60000, &image(1, b"Close", &[0x12; 60000]), &[0x03, 0, 0x05, 2, 0x08]);
}

fn admitted(name: &str, program: impl Fn(usize) -> Vec<u8>, sizes: &[usize]) {
    for &size in sizes {
        let code = program(size);
        let mut kinds = [0u8; 1000];
        let mut admit = || unsafe { rafenuma_admit(code.as_ptr(), size, kinds.as_mut_ptr()) };
        assert!(admit() % 256 == 0, "{name}: refused");
        let best = (0..TURNS).map(|_| milliseconds(|| { black_box(admit()); })).fold(f64::MAX, f64::min);
        println!("{name}\t{size}\t{best:.3}");
    }
}

fn main() {
    beside("a nested loop with MULI and DROP", products(), 1);
    beside("eight opcodes with a comparison and a jump", choices(), 1);
    beside("texts made and compared", texts(), 1);
    beside("states of tasks set and read, 200 tasks created and deleted", tasks(), 1);
    beside("tasks created, set, read and deleted, 100 fresh machines", many_tasks(), 100);
    beside("calls of a task", calls(), 1);
    for count in [32, 64, 128, 256] {
        listed("tasks loaded, listed and saved", count as usize, &image(count, &[b'a'; 100], &[0x12; 200]), &[0]);
    }
    lines();
    admitted("bytes without an opcode admitted", |size| vec![0; size], &[1023, 16383, 32767, 65535]);
    admitted("instructions of one byte admitted, in no order", mixed, &[1023, 16383, 32767, 65535]);
    admitted("two stacks made apart admitted, a jump every 6 bytes", apart, &[16383, 32767, 65535]);
}
