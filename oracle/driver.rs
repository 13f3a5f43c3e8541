// Runs the cases of a batch, as the program `replay` does, on the Rust of src/, and prints the same lines.
//
// The Rust has no fuel: turns of its loop are counted, and stopped before one, in counted.rs. A stopped run cannot go on there, so `continue`
// makes the machine anew and runs it up to the sum; and since a refused instruction of the Rust leaves popped values behind, a machine that
// refused is made anew and run up to the instruction before. Images are handed to the Rust, and taken from it, as the file tasks.bin of its
// own form, in a folder of this process's own. Where the Rust panics the first line of the call is `panic`, and the case ends there.
// A `rerun` is the Rust's run. Before a `start` the driver sets the Rust's frames to main alone, at place 0, and its control stack to none.
// Images are taken to be sound, and the limits that this port adds are not tested: those answers are not the Rust's.
//
// The build `plain` has the Rust's own pool in place of counted.rs. It takes no fuel and counts nothing (`done 0`), and of a refusal it tells
// the tasks and no more, and the case ends there.
#![allow(dead_code)]
#[path = "src/bytecode/mod.rs"]
mod bytecode;
#[path = "src/errors.rs"]
mod errors;
#[path = "src/inlinevec.rs"]
mod inlinevec;
#[path = "src/memory.rs"]
mod memory;
#[cfg_attr(plain, path = "plain.rs")]
#[cfg_attr(not(plain), path = "counted.rs")]
mod pools;
#[path = "src/pools/mod.rs"]
mod rust_pools;
#[path = "src/storage/mod.rs"]
mod storage;
#[path = "src/values.rs"]
mod values;

// The Rust's machine, and beside it what the driver reads of its private fields, and sets of them before a start.
mod vm {
    include!("src/vm.rs");

    impl VM {
        pub(crate) fn height(&self) -> usize {
            self.stack.len()
        }

        pub(crate) fn loops(&self) -> &[(u64, u64, u64)] {
            self.control_stack.as_slice()
        }

        pub(crate) fn frames(&self) -> Vec<(u32, usize)> {
            self.call_stack.as_slice().iter().map(|f| (f.instructions_ref, f.pc)).collect()
        }

        pub(crate) fn pool(&self) -> &InstructionsPool {
            &self.instructions_pool
        }

        pub(crate) fn storage(&self) -> &Storage {
            &self.storage
        }

        pub(crate) fn memory_in_use(&self) -> Vec<u8> {
            let size = self.memory.len();
            let parts = (0..size).step_by(65535);
            parts.flat_map(|at| self.memory.get_slice_bytes(at, (size - at).min(65535) as u16)).copied().collect()
        }

        // Where a start begins: one frame, that of the program at place 0, and no open loop.
        pub(crate) fn at_main(&mut self) -> VMResult<()> {
            self.control_stack = ControlStack::default();
            self.call_stack = CallStack::default();
            self.call_stack.push(InstructionsFrame { instructions_ref: 0, pc: 0 })
        }

        pub(crate) fn save(&mut self) -> VMResult<()> {
            self.storage.save(&self.instructions_pool)
        }
    }
}

use errors::{VMError, VMResult};
use inlinevec::InlineVec;
use std::io::{Read, Write};
use std::panic::{AssertUnwindSafe, catch_unwind};
use std::sync::atomic::{AtomicBool, Ordering::Relaxed};
use storage::bincodec::{Decode, Encode};
use storage::task_types::{StorageData, Task, TaskState};
pub(crate) use values::*;
use vm::VM;

const FILE: &str = "tasks.bin";

// Whether the Rust runs: its panics are answers, and only those of the driver itself are printed.
static RUNS: AtomicBool = AtomicBool::new(false);

pub(crate) fn forget_file() {
    let _ = std::fs::remove_file(FILE);
}

// The numbers and details that the Rust's errors have here (docs/REFERENCE.md, 'Refusals').
fn refused(error: VMError) -> String {
    match error {
        VMError::EmptyInstructions => "1".into(),
        VMError::StackUnderflow => "3".into(),
        VMError::StackOverflow => "4".into(),
        VMError::InvalidType => "5".into(),
        VMError::TypeMismatch => "6".into(),
        VMError::MultiplicationOverflowed => "7".into(),
        VMError::MaxStatesError => "8".into(),
        VMError::TaskNotFound(id) => format!("9 {id}"),
        VMError::InvalidTaskField(field) => format!("10 {field}"),
        VMError::InvalidStatus(state) => format!("11 {state}"),
        VMError::InvalidInstructionsIndex(index) => format!("12 {index}"),
        VMError::MSliceParamOverflow => "13".into(),
        VMError::MSliceOutOfBounds { index, size } => format!("14 {index} {size}"),
        VMError::BytesToStringConversionError => "15".into(),
        VMError::AlignmentMismatch => "16".into(),
        VMError::SliceSizeMismatch => "17".into(),
        other => format!("without a number: {other:?}"),
    }
}

fn hex(bytes: &[u8]) -> Vec<u8> {
    const DIGITS: &[u8; 16] = b"0123456789abcdef";
    bytes.iter().flat_map(|b| [DIGITS[(b >> 4) as usize], DIGITS[(b & 15) as usize]]).collect()
}

// A text or a title as its line shows it (docs/REFERENCE.md, 'The listing'): control characters and the backslash stand as a backslash and two hex
// digits. What is not UTF-8 is shown in ASCII alone.
fn escaped(bytes: &[u8]) -> Vec<u8> {
    let utf8 = std::str::from_utf8(bytes).is_ok();
    let mut shown = Vec::with_capacity(bytes.len());
    for &byte in bytes {
        if byte.is_ascii_control() || byte == b'\\' || !byte.is_ascii() && !utf8 {
            shown.extend(format!("\\{byte:02X}").bytes());
        } else {
            shown.push(byte);
        }
    }
    shown
}

// Little-endian numbers and parts of a batch or an image, one after the other.
struct Reader<'a>(&'a [u8]);

impl<'a> Reader<'a> {
    fn part(&mut self, size: usize) -> &'a [u8] {
        let (part, rest) = self.0.split_at(size);
        self.0 = rest;
        part
    }

    fn number(&mut self, width: usize) -> u64 {
        self.part(width).iter().rev().fold(0, |n, b| n << 8 | *b as u64)
    }

    fn sized(&mut self) -> &'a [u8] {
        let size = self.number(4) as usize;
        self.part(size)
    }
}

// The tasks of an image (docs/REFERENCE.md, 'The task image').
fn read_image(image: &[u8]) -> StorageData {
    let mut records = Reader(image);
    let mut data = StorageData { tasks: Vec::new(), next_id: 0 };
    while !records.0.is_empty() {
        let size = records.number(4) as usize;
        let kind = records.number(2);
        let mut body = Reader(records.part(size));
        if kind == 1 {
            data.next_id = body.number(4) as u32;
            continue;
        }
        let id = body.number(4) as u32;
        let state = TaskState { len: body.number(1) as u8, state: body.number(1) as u8 };
        let size = body.number(2) as usize;
        let title = String::from_utf8(body.part(size).to_vec()).unwrap();
        data.tasks.push(Task { id, title, state, instructions: body.0.to_vec() });
    }
    data
}

fn record(kind: u16, body: &[u8]) -> Vec<u8> {
    [&(body.len() as u32).to_le_bytes(), &kind.to_le_bytes()[..], body].concat()
}

// The image of these tasks (docs/REFERENCE.md, 'The task image').
fn write_image(data: &StorageData) -> Vec<u8> {
    let mut image = record(1, &[data.next_id.to_le_bytes(), (data.tasks.len() as u32).to_le_bytes()].concat());
    for task in &data.tasks {
        let states = [task.state.len, task.state.state];
        let size = (task.title.len() as u16).to_le_bytes();
        image.extend(record(2, &[&task.id.to_le_bytes()[..], &states, &size, task.title.as_bytes(), &task.instructions].concat()));
    }
    image
}

// The Rust looks at an empty program before its file, so that an image beside one need not be sound.
fn create(image: &[u8], program: &[u8]) -> VMResult<VM> {
    forget_file();
    if !image.is_empty() && !program.is_empty() {
        read_image(image).encode(&mut std::fs::File::create(FILE).unwrap())?;
    }
    let vm = VM::init(program.to_vec());
    forget_file();
    vm
}

enum Outcome {
    Done(InlineVec<Value, 1000>),
    Refused(VMError),
    Panicked,
    Paused,
}

#[derive(PartialEq)]
enum Phase {
    New,
    Paused,
    Done,
    Stopped,
}

struct Case<'a> {
    image: &'a [u8],
    program: &'a [u8],
    vm: VM,
    phase: Phase,
    // of each run whether it was started, and not rerun; the runs that are done, and the finished instructions of the one that is not
    started: Vec<bool>,
    runs: usize,
    finished: u64,
    result: InlineVec<Value, 1000>,
    saved: Vec<u8>,
}

impl Case<'_> {
    // A run of the Rust up to so many turns.
    fn run(&mut self, limit: u64, reported: u64) -> Outcome {
        pools::set(limit, reported);
        RUNS.store(true, Relaxed);
        let outcome = catch_unwind(AssertUnwindSafe(|| self.vm.run()));
        RUNS.store(false, Relaxed);
        match outcome {
            Ok(Ok(stack)) => Outcome::Done(stack),
            Ok(Err(error)) => Outcome::Refused(error),
            Err(thrown) if thrown.is::<pools::OutOfFuel>() => Outcome::Paused,
            Err(_) => Outcome::Panicked,
        }
    }

    // A start begins at main; a rerun where the run before ended, as the Rust does.
    fn begin(&mut self, run: usize) {
        if self.started[run] {
            self.vm.at_main().unwrap_or_else(|_| panic!("an empty call stack has room"));
        }
    }

    // The machine made anew, at the beginning of the run that is not done.
    fn again(&mut self) {
        self.vm = create(self.image, self.program).unwrap_or_else(|_| panic!("created before"));
        for run in 0..self.runs {
            self.begin(run);
            assert!(matches!(self.run(u64::MAX, 0), Outcome::Done(_)));
        }
        self.begin(self.runs);
        forget_file();
    }

    // What the Rust has saved since the file was forgotten, as an image.
    fn take_file(&mut self) {
        if let Ok(bytes) = std::fs::read(FILE) {
            self.saved = write_image(&StorageData::decode(&mut &bytes[..]).unwrap_or_else(|_| panic!("the Rust wrote it")));
            forget_file();
        }
    }

    // Start, rerun or continue: the first line. The run has `reported` turns behind it.
    fn go(&mut self, fuel: u64, reported: u64) -> String {
        let outcome = self.run(reported.saturating_add(fuel), reported);
        let turns = pools::turns();
        let said = match outcome {
            Outcome::Done(stack) => {
                self.phase = Phase::Done;
                self.result = stack;
                self.runs += 1;
                self.finished = 0;
                self.take_file();
                return format!("done {}", turns - reported);
            }
            Outcome::Paused => {
                self.phase = Phase::Paused;
                self.finished = turns;
                self.take_file();
                return format!("paused {}", turns - reported);
            }
            Outcome::Refused(error) => format!("refused {}", refused(error)),
            Outcome::Panicked => "panic".into(),
        };
        self.phase = Phase::Stopped;
        if pools::COUNTED {
            self.again();
            assert!(matches!(self.run(turns - 1, reported), Outcome::Paused));
            self.take_file();
        }
        said
    }

    fn call(&mut self, verb: u64, fuel: u64) -> String {
        match verb {
            0 | 3 if self.phase == Phase::New || self.phase == Phase::Done => {
                self.started.push(verb == 0);
                self.begin(self.runs);
                self.go(fuel, 0)
            }
            1 if self.phase == Phase::Paused => {
                self.again();
                self.go(fuel, self.finished)
            }
            0 | 1 | 3 => "refused 26".into(),
            _ => match self.vm.save() {
                Ok(()) => {
                    self.take_file();
                    format!("saved {}", self.saved.len())
                }
                Err(error) => {
                    forget_file();
                    format!("refused {}", refused(error))
                }
            },
        }
    }

    fn print_values(&self, out: &mut Vec<u8>) {
        for value in self.vm.unbox(&self.result) {
            match value {
                Ok(Return::U32(n)) => out.extend(format!("u32 {n}").bytes()),
                Ok(Return::Bool(b)) => out.extend(format!("bool {b}").bytes()),
                Ok(Return::String(text)) => out.extend([b"text ", &escaped(text.as_bytes())[..]].concat()),
                Ok(Return::CallData(bytes)) => out.extend([b"calldata ", &hex(bytes)[..]].concat()),
                Ok(Return::VecU32(numbers)) => {
                    let numbers: Vec<String> = numbers.iter().map(u32::to_string).collect();
                    out.extend(format!("vec {}", numbers.join(" ")).bytes());
                }
                Ok(Return::Null) => out.extend(b"null"),
                Err(error) => out.extend(format!("bad {}", refused(error).split(' ').next().unwrap()).bytes()),
            }
            out.push(b'\n');
        }
    }

    fn print_tasks(&self, out: &mut Vec<u8>) {
        let storage = self.vm.storage();
        let tasks: Vec<_> = (0..storage.len() as u32).filter_map(|id| storage.get(id)).collect();
        out.extend(format!("tasks {}\n", tasks.len()).bytes());
        for task in tasks {
            out.extend(format!("task {} {} ", task.id, task.state.get_state()).bytes());
            out.extend([&escaped(&task.title)[..], b"\n"].concat());
        }
    }

    fn print_machine(&self, out: &mut Vec<u8>) {
        let done = self.phase == Phase::Done;
        let height = if done { self.result.len() } else { self.vm.height() };
        let memory = self.vm.memory_in_use();
        let entries: Vec<usize> = (0..).map_while(|i| self.vm.pool().get(i).ok()).map(|code| code.iter().len()).collect();
        let (bytes, count) = (entries.iter().sum::<usize>(), entries.len());
        let (next, len, saved) = (self.vm.storage().next_id, self.vm.storage().len(), self.saved.len());
        let size = memory.len();
        out.extend(format!("machine height {height} memory {size} pool {bytes} entries {count} next {next} count {len} saved {saved}\n").bytes());
        for (place, index, limit) in self.vm.loops() {
            out.extend(format!("loop {place} {index} {limit}\n").bytes());
        }
        let mut frames = self.vm.frames();
        if self.phase == Phase::Paused || self.phase == Phase::Stopped {
            frames.last_mut().unwrap().1 = pools::place();
        }
        for (entry, place) in frames {
            out.extend(format!("frame {entry} {place}\n").bytes());
        }
        out.extend([b"memory ", &hex(&memory)[..], b"\n"].concat());
        if saved != 0 {
            out.extend([b"image ", &hex(&self.saved)[..], b"\n"].concat());
        }
    }
}

fn case(batch: &mut Reader, out: &mut Vec<u8>) {
    let (image, program) = (batch.sized(), batch.sized());
    let calls: Vec<(u64, u64)> = (0..batch.number(4)).map(|_| (batch.number(1), batch.number(8))).collect();
    let vm = match create(image, program) {
        Ok(vm) => vm,
        Err(error) => {
            out.extend(format!("refused {}\nvalues 0\ntasks 0\n", refused(error)).bytes());
            return;
        }
    };
    let (result, saved) = (InlineVec::default(), Vec::new());
    let mut case = Case { image, program, vm, phase: Phase::New, started: Vec::new(), runs: 0, finished: 0, result, saved };
    for (verb, fuel) in calls {
        let name = [format!("start {fuel}"), format!("continue {fuel}"), "save".into(), format!("rerun {fuel}")][verb as usize].clone();
        let said = case.call(verb, fuel);
        out.extend(format!("{name}\n{said}\n").bytes());
        let height = if said.starts_with("done") { case.result.len() } else { 0 };
        out.extend(format!("values {height}\n").bytes());
        if said.starts_with("done") {
            case.print_values(out);
        }
        case.print_tasks(out);
        if case.phase == Phase::Stopped && !pools::COUNTED {
            return;
        }
        case.print_machine(out);
        if said == "panic" {
            return;
        }
    }
}

fn main() {
    let mut input = Vec::new();
    std::io::stdin().read_to_end(&mut input).unwrap();
    let folder = std::env::temp_dir().join(format!("oracle-{}", std::process::id()));
    std::fs::create_dir(&folder).unwrap();
    std::env::set_current_dir(&folder).unwrap();
    let print = std::panic::take_hook();
    std::panic::set_hook(Box::new(move |said| {
        if !RUNS.load(Relaxed) {
            print(said)
        }
    }));
    let mut batch = Reader(&input);
    let mut out = Vec::new();
    for k in 0.. {
        if batch.0.is_empty() {
            break;
        }
        out.extend(format!("case {k}\n").bytes());
        case(&mut batch, &mut out);
        if out.len() > 1 << 20 {
            std::io::stdout().write_all(&out).unwrap();
            out.clear();
        }
    }
    std::io::stdout().write_all(&out).unwrap();
    std::env::set_current_dir("/").unwrap();
    std::fs::remove_dir_all(&folder).unwrap();
}
