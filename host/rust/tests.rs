//! Calls the library on good, damaged and huge inputs, alone and from several threads with 2 MB stacks.

use rafenuma::{Outcome, Refusal, Run, admit, run, test_image};

const C1: &[u8] = &[0x01, 0, 0, 0, 0, 0x01, 0, 0, 0, 5, 0x0e, 0x01, 0, 0, 0, 0x63, 0x0f];
const I1: &[u8] = &[
    8, 0, 0, 0, 1, 0, 1, 0, 0, 0, 1, 0, 0, 0, 10, 0, 0, 0, 2, 0, 0, 0, 0, 0, 3, 0, 2, 0, 0x41, 0x62,
];
const NO_TASKS: &[u8] = &[8, 0, 0, 0, 1, 0, 0, 0, 0, 0, 0, 0, 0, 0];

/// What a run left, in buffers that held 0xAA before.
struct After {
    run: Run,
    memory: Vec<u8>,
    new_image: Vec<u8>,
    listing: Vec<u8>,
}

impl After {
    /// The listing, which is UTF-8 whatever it shows.
    fn text(&self) -> &str {
        std::str::from_utf8(&self.listing[..self.run.listing.unwrap()]).unwrap()
    }
    fn image(&self) -> &[u8] {
        &self.new_image[..self.run.new_image]
    }
}

/// Runs, and sees that the image and the program stay and that nothing is written past what was said to be written.
fn go_with(image: &[u8], program: &[u8], fuel: u64, memory: usize, new_image: usize, listing: usize) -> After {
    let (tasks, code) = (image.to_vec(), program.to_vec());
    let mut after = After {
        run: Run { outcome: Outcome::Done, finished: 0, refusal: None, listing: Ok(0), new_image: 0 },
        memory: vec![0xAA; memory],
        new_image: vec![0xAA; new_image],
        listing: vec![0xAA; listing],
    };
    after.run = run(&mut after.memory, &tasks, &code, &mut after.new_image, &mut after.listing, fuel);
    assert_eq!(tasks, image, "the image stays");
    assert_eq!(code, program, "the program stays");
    let written = after.run.listing.unwrap_or(0);
    assert!(after.listing[written..].iter().all(|&byte| byte == 0xAA), "the listing's other bytes stay");
    after
}

fn go(image: &[u8], program: &[u8]) -> After {
    go_with(image, program, 1_000_000, 65_536, 1_048_576, 1 << 20)
}

fn refused(number: u8, first: u64, second: u64) -> Option<Refusal> {
    Some(Refusal { number, details: [first, second] })
}

/// A task record of the image, with 3 states and in state 1.
fn record(id: u32, title: &[u8], instructions: &[u8]) -> Vec<u8> {
    record_in(id, [3, 1], title, instructions)
}

/// A task record of the image, with a state count and a state.
fn record_in(id: u32, states: [u8; 2], title: &[u8], instructions: &[u8]) -> Vec<u8> {
    let mut bytes = (8 + title.len() as u32 + instructions.len() as u32).to_le_bytes().to_vec();
    bytes.extend([2, 0]);
    bytes.extend(id.to_le_bytes());
    bytes.extend(states);
    bytes.extend((title.len() as u16).to_le_bytes());
    bytes.extend(title);
    bytes.extend(instructions);
    bytes
}

fn image_of(next_id: u32, records: &[Vec<u8>]) -> Vec<u8> {
    let mut bytes = vec![8, 0, 0, 0, 1, 0];
    bytes.extend(next_id.to_le_bytes());
    bytes.extend((records.len() as u32).to_le_bytes());
    records.iter().for_each(|record| bytes.extend(record));
    bytes
}

/// M_STI: a text with its payload.
fn text_of(bytes: &[u8]) -> Vec<u8> {
    [&[0x1b][..], &(bytes.len() as u16).to_be_bytes(), &[4, 1], bytes].concat()
}

/// T_CREATE: a task with this title, one state, and the program itself as its instructions.
fn create(title: &[u8]) -> Vec<u8> {
    [&text_of(title)[..], &[0x06, 1, 0x01, 0, 0, 0, 0, 0x07]].concat()
}

/// The bytes that a text or a title of a listing stands for. It has no byte that must be escaped, and no escape of a byte that need not be.
fn read_back(shown: &str, utf8: bool) -> Vec<u8> {
    let mut bytes = Vec::new();
    let mut left = shown.as_bytes();
    while let [first, rest @ ..] = left {
        let mut byte = *first;
        left = rest;
        let escape = byte == b'\\';
        if escape {
            let digits = &shown[shown.len() - left.len()..][..2];
            assert!(digits.bytes().all(|digit| matches!(digit, b'0'..=b'9' | b'A'..=b'F')), "{shown}");
            byte = u8::from_str_radix(digits, 16).unwrap();
            left = &left[2..];
        }
        assert_eq!(escape, matches!(byte, 0..=31 | 92 | 127) || byte > 127 && !utf8, "{byte} in {shown}");
        bytes.push(byte);
    }
    bytes
}

/// The lines of values and of tasks. There are as many as their counts say, and none behind them.
fn lines_of(listing: &str) -> (Vec<&str>, Vec<&str>) {
    assert!(listing.ends_with('\n'));
    let mut lines = listing.strip_suffix('\n').unwrap().split('\n').skip(1);
    let mut counted = |word: &str| {
        let count = lines.next().unwrap().strip_prefix(word).unwrap().parse().unwrap();
        (0..count).map(|_| lines.next().unwrap()).collect::<Vec<_>>()
    };
    let (values, tasks) = (counted("values "), counted("tasks "));
    assert_eq!(lines.next(), None);
    (values, tasks)
}

/// Numbers that look random and are the same each time.
struct Dice(u64);

impl Dice {
    fn roll(&mut self, below: u64) -> u64 {
        self.0 = self.0.wrapping_mul(6364136223846793005).wrapping_add(1442695040888963407);
        (self.0 >> 33) % below
    }
}

#[test]
fn case_c1() {
    let after = go(&[], C1);
    assert_eq!(after.text(), "done 5\nvalues 1\nu32 99\ntasks 0\n");
    assert_eq!((after.run.outcome, after.run.finished, after.run.refusal), (Outcome::Done, 5, None));
    assert_eq!(after.image(), NO_TASKS, "a zero-length image is saved as a lone header of zeros");
}

#[test]
fn case_i1() {
    let after = go(I1, &[0x0d]);
    assert_eq!(after.text(), "done 1\nvalues 1\nu32 1\ntasks 1\ntask 0 0 Ab\n");
    assert_eq!(after.image(), I1, "saving after loading gives the same bytes");
    assert_eq!(test_image(after.image()), Ok(()));
}

#[test]
fn the_image_and_the_program_may_be_the_same_bytes() {
    let (mut memory, mut new_image, mut listing) = (vec![0xAA; 65_536], vec![0xAA; 1_048_576], vec![0xAA; 1 << 20]);
    let once = run(&mut memory, I1, I1, &mut new_image, &mut listing, 1_000_000);
    let apart = go(I1, I1);
    assert_eq!((once, memory, new_image, listing), (apart.run, apart.memory, apart.new_image, apart.listing));
}

#[test]
fn a_task_is_created_and_found_again() {
    let create = [
        0x1b, 0, 3, 4, 1, b'S', b'u', b'm', 0x01, 0, 0, 0, 2, 0x04, 0, 1, 0x0d, 0x07,
    ];
    let first = go(I1, &create);
    assert_eq!(first.text(), "done 4\nvalues 0\ntasks 2\ntask 0 0 Ab\ntask 1 0 Sum\n");
    let again = go(first.image(), &[0x01, 0, 0, 0, 1, 0x11]);
    assert_eq!(again.text(), "done 3\nvalues 1\nu32 2\ntasks 2\ntask 0 0 Ab\ntask 1 0 Sum\n", "its instructions ran");
}

#[test]
fn a_refused_creation_leaves_all() {
    let long = vec![0; 65_536];
    for (image, program, line, refusal) in [
        (I1, &[][..], "refused 1", refused(1, 0, 0)),
        (I1, &long[..], "refused 28", refused(28, 0, 0)),
        (&I1[..29], C1, "refused 25 14", refused(25, 14, 0)),
    ] {
        let after = go(image, program);
        assert_eq!(after.text(), format!("{line}\nvalues 0\ntasks 0\n"));
        assert_eq!((after.run.outcome, after.run.finished, after.run.refusal), (Outcome::Refused, 0, refusal));
        assert_eq!(after.run.new_image, 0);
        assert!(after.memory.iter().chain(&after.new_image).all(|&byte| byte == 0xAA));
    }
}

#[test]
fn a_refused_run_keeps_its_finished_save() {
    let after = go(I1, &[0x0b, 0x14]);
    assert_eq!(after.text(), "refused 3\nvalues 0\ntasks 1\ntask 0 0 Ab\n");
    assert_eq!((after.run.outcome, after.run.finished, after.run.refusal), (Outcome::Refused, 1, refused(3, 0, 0)));
    assert_eq!(after.image(), I1, "S_SAVE wrote it");
    let none = go(I1, &[0x14]);
    assert_eq!(none.run.new_image, 0, "a refused run is not saved by the host");
    assert!(none.new_image.iter().all(|&byte| byte == 0xAA));
}

#[test]
fn details_are_told() {
    let after = go(&[], &[0x1b, 0, 6, 6, 0, 0x01, 0, 0, 0, 1, 0x01, 0, 0, 0, 9, 0x1d]);
    assert_eq!(after.run.refusal, refused(14, 4, 6));
    assert_eq!(after.text(), "refused 14 4 6\nvalues 0\ntasks 0\n");
}

#[test]
fn a_paused_run_is_saved() {
    for fuel in 0..5 {
        let after = go_with(I1, C1, fuel, 65_536, 1_048_576, 4_096);
        assert_eq!((after.run.outcome, after.run.finished), (Outcome::Paused, fuel));
        assert_eq!(after.text(), format!("paused {fuel}\nvalues 0\ntasks 1\ntask 0 0 Ab\n"));
        assert_eq!(after.image(), I1);
    }
}

/// Creates the task "Ab" with 3 states and no instructions, then pushes a number.
const CREATES: &[u8] = &[0x1b, 0, 2, 4, 1, 0x41, 0x62, 0x06, 3, 0x04, 0, 0, 0x07, 0x03, 9];

#[test]
fn an_image_of_a_paused_run_creates_twice() {
    let paused = go_with(&[], CREATES, 4, 65_536, 1_048_576, 4_096);
    assert_eq!(paused.text(), "paused 4\nvalues 0\ntasks 1\ntask 0 0 Ab\n");
    let twice = go(paused.image(), CREATES);
    assert_eq!(twice.text(), "done 5\nvalues 1\nu32 9\ntasks 2\ntask 0 0 Ab\ntask 1 0 Ab\n", "what docs/HOST.md warns of");
    let once = go(&[], CREATES);
    assert_eq!(once.text(), "done 5\nvalues 1\nu32 9\ntasks 1\ntask 0 0 Ab\n", "the first image and the whole fuel");
}

#[test]
fn a_done_run_may_list_a_value_that_cannot_be_read() {
    let after = go(&[], &[0x1b, 0, 1, 4, 1, 0xff]);
    assert_eq!((after.run.outcome, after.run.refusal), (Outcome::Done, None));
    assert_eq!(after.text(), "done 1\nvalues 1\nbad 15\ntasks 0\n");
}

#[test]
fn a_listing_without_room_is_measured() {
    let listed = go(I1, C1);
    let whole = listed.text();
    for length in 0..whole.len() {
        let after = go_with(I1, C1, 1_000_000, 65_536, 1_048_576, length);
        assert_eq!(after.run.listing, Err(whole.len()));
        assert_eq!((after.run.outcome, after.run.refusal), (Outcome::Done, None), "the run is done all the same");
        assert_eq!(after.image(), I1, "and saved");
    }
    assert_eq!(go_with(I1, C1, 1_000_000, 65_536, 1_048_576, whole.len()).text(), whole);
}

#[test]
fn a_save_without_room_is_refused() {
    for length in 0..I1.len() {
        let after = go_with(I1, C1, 1_000_000, 65_536, length, 4_096);
        assert_eq!((after.run.outcome, after.run.refusal, after.run.new_image), (Outcome::Done, refused(24, 0, 0), 0));
        assert!(after.new_image.iter().all(|&byte| byte == 0xAA));
        assert_eq!(after.text(), "done 5\nvalues 1\nu32 99\ntasks 1\ntask 0 0 Ab\n");
    }
}

#[test]
fn memory_without_room_is_refused() {
    let after = go_with(&[], &[0x1b, 0, 9, 4, 0], 10, 8, 64, 64);
    assert_eq!(after.run.refusal, refused(23, 0, 0));
    assert!(after.memory.iter().all(|&byte| byte == 0xAA));
}

#[test]
fn damaged_images() {
    let good = image_of(9, &[record(0, b"Ab", &[0x0d]), record(4, "Grüße".as_bytes(), &[]), record(8, b"", &[1, 2, 3])]);
    assert_eq!(test_image(&good), Ok(()));
    assert_eq!(go(&good, &[0x0c]).image(), good);
    let mut damaged = 0;
    let mut try_one = |image: &[u8]| {
        let after = go(image, &[0x0c]);
        match test_image(image) {
            Ok(()) if image.is_empty() => assert_eq!(after.image(), NO_TASKS),
            Ok(()) => assert_eq!(after.image(), image),
            Err(place) => {
                assert_eq!(after.run.refusal, refused(25, place, 0));
                assert!(after.new_image.iter().all(|&byte| byte == 0xAA));
                damaged += 1;
            }
        }
    };
    (0..good.len()).for_each(|length| try_one(&good[..length]));
    for place in 0..good.len() {
        for change in [1, 0x80, 0xFF] {
            let mut image = good.clone();
            image[place] ^= change;
            try_one(&image);
        }
    }
    assert!(damaged > good.len(), "most of them are damaged");
}

#[test]
fn the_largest_table() {
    let records: Vec<Vec<u8>> = (0..256).map(|id| record(id, &[b'x'; 128], &[0; 200])).collect();
    let image = image_of(256, &records);
    let after = go(&image, &[0x0d]);
    assert_eq!(after.image(), image);
    assert_eq!(after.text().lines().count(), 4 + 256);
    let full = go(&image, &[0x1b, 0, 0, 4, 0, 0x01, 0, 0, 0, 1, 0x04, 0, 0, 0x07]);
    assert_eq!(full.run.refusal, refused(20, 0, 0));
}

#[test]
fn a_huge_listing() {
    let mut program = vec![0x1b, 0xff, 0xff, 4, 0];
    program.extend([0x14; 999]);
    let after = go_with(&[], &program, 10_000, 1 << 26, 1 << 24, 1 << 28);
    assert_eq!(after.run.listing, Ok("done 1000\nvalues 1000\n".len() + 1000 * 196_611 + "tasks 0\n".len()));
    let short = go_with(&[], &program, 10_000, 65_536, 64, 1 << 20);
    assert_eq!(short.run.listing, Err(after.run.listing.unwrap()));
    let mut numbers = vec![0x1b, 0xff, 0xf0, 6, 1];
    numbers.extend([0xff; 65_520]);
    let vector = go_with(&[], &numbers, 10, 65_536, 64, 1 << 20);
    assert_eq!(vector.text(), format!("done 1\nvalues 1\nvec{}\ntasks 0\n", " 4294967295".repeat(16_380)));
    numbers[2] = 0xf4;
    let cut = go_with(&[], &numbers, 10, 65_536, 64, 1 << 20);
    assert_eq!(cut.run.refusal, refused(2, 0, 0), "the payload runs past the code");
}

/// A title that goes on with a line of the listing, in an image and in a program.
const REPORT: &[u8] = b"Ab\nu32 5";

#[test]
fn a_title_with_a_line_feed_is_one_line() {
    let image = image_of(1, &[record(0, REPORT, &[])]);
    let loaded = go(&image, &[0x0c]);
    assert_eq!(loaded.text(), "done 1\nvalues 0\ntasks 1\ntask 0 1 Ab\\0Au32 5\n");
    assert_eq!(loaded.image(), image, "the title itself stays");
    let created = go(&[], &create(REPORT));
    assert_eq!(created.text(), "done 4\nvalues 0\ntasks 1\ntask 0 0 Ab\\0Au32 5\n");
    let read = go(created.image(), &[0x03, 0, 0x05, 0, 0x08]);
    assert_eq!(read.text(), "done 3\nvalues 1\ntext Ab\\0Au32 5\ntasks 1\ntask 0 0 Ab\\0Au32 5\n");
    let paused = go_with(&image, &[0x0c], 0, 0, 1_024, 1_024);
    assert_eq!(paused.text(), "paused 0\nvalues 0\ntasks 1\ntask 0 1 Ab\\0Au32 5\n");
    let refused = go(&image, &[0x13]);
    assert_eq!(refused.text(), "refused 3\nvalues 0\ntasks 1\ntask 0 1 Ab\\0Au32 5\n");
}

/// The bytes 0 to 127 as they are listed.
const LOWER: &str = concat!(
    r"\00\01\02\03\04\05\06\07\08\09\0A\0B\0C\0D\0E\0F\10\11\12\13\14\15\16\17\18\19\1A\1B\1C\1D\1E\1F",
    r##" !"#$%&'()*+,-./0123456789:;<=>?@ABCDEFGHIJKLMNOPQRSTUVWXYZ[\5C]^_`abcdefghijklmnopqrstuvwxyz{|}~\7F"##
);

/// The bytes 128 to 255 as they are listed in a title, which is not UTF-8 with them.
const UPPER: &str = concat!(
    r"\80\81\82\83\84\85\86\87\88\89\8A\8B\8C\8D\8E\8F\90\91\92\93\94\95\96\97\98\99\9A\9B\9C\9D\9E\9F",
    r"\A0\A1\A2\A3\A4\A5\A6\A7\A8\A9\AA\AB\AC\AD\AE\AF\B0\B1\B2\B3\B4\B5\B6\B7\B8\B9\BA\BB\BC\BD\BE\BF",
    r"\C0\C1\C2\C3\C4\C5\C6\C7\C8\C9\CA\CB\CC\CD\CE\CF\D0\D1\D2\D3\D4\D5\D6\D7\D8\D9\DA\DB\DC\DD\DE\DF",
    r"\E0\E1\E2\E3\E4\E5\E6\E7\E8\E9\EA\EB\EC\ED\EE\EF\F0\F1\F2\F3\F4\F5\F6\F7\F8\F9\FA\FB\FC\FD\FE\FF",
);

#[test]
fn every_byte_in_a_text() {
    let lower: Vec<u8> = (0..128).collect();
    let codes = (0x80..0x800).step_by(61).chain((0x800..0x11_0000).step_by(997)).chain([0x85, 0x2028]);
    let longer: String = codes.filter_map(char::from_u32).collect();
    assert!((0x80..0xc0).chain(0xc2..0xf5).all(|byte| longer.as_bytes().contains(&byte)), "every byte from 128 up that UTF-8 has");
    for (bytes, line) in [(&lower[..], format!("text {LOWER}")), (longer.as_bytes(), format!("text {longer}"))] {
        assert_eq!(go(&[], &text_of(bytes)).text(), format!("done 1\nvalues 1\n{line}\ntasks 0\n"));
    }
    let alone: Vec<u8> = (0..=255).flat_map(|byte| text_of(&[byte])).collect();
    let after = go(&[], &alone);
    let (values, _) = lines_of(after.text());
    for (byte, line) in (0..=255).zip(values) {
        match line.strip_prefix("text ") {
            Some(shown) => assert_eq!(read_back(shown, true), [byte]),
            None => assert!(byte > 127 && line == "bad 15", "{byte}: {line}"),
        }
    }
}

#[test]
fn every_byte_in_a_title() {
    let bytes: Vec<u8> = (0..=255).collect();
    let after = go(&[], &[create(&bytes[..128]), create(&bytes[128..]), create("é\n".as_bytes()), create(b"\xc3\xa9\n\xff")].concat());
    assert_eq!((after.run.outcome, after.run.refusal), (Outcome::Done, refused(15, 0, 0)), "a title that is not UTF-8 is listed, and not saved");
    let tasks = format!("task 0 0 {LOWER}\ntask 1 0 {UPPER}\ntask 2 0 é\\0A\ntask 3 0 \\C3\\A9\\0A\\FF\n");
    assert_eq!(after.text(), format!("done 16\nvalues 0\ntasks 4\n{tasks}"));
    let alone: Vec<u8> = bytes.iter().flat_map(|&byte| create(&[byte])).collect();
    let after = go(&[], &alone);
    let (_, tasks) = lines_of(after.text());
    assert_eq!(tasks.len(), 256);
    for (byte, line) in bytes.iter().zip(tasks) {
        let shown = line.strip_prefix(&format!("task {byte} 0 ")).unwrap();
        assert_eq!(read_back(shown, *byte < 128), [*byte]);
    }
}

/// Lists a run into a buffer of exactly its length, and into one that is a byte shorter.
fn listed_just_so(image: &[u8], program: &[u8], listing: &str) {
    let just = go_with(image, program, 10, 65_536, 65_536, listing.len());
    assert!(just.text() == listing);
    let short = go_with(image, program, 10, 65_536, 65_536, listing.len() - 1);
    assert_eq!(short.run.listing, Err(listing.len()), "not a byte is written");
}

#[test]
fn the_longest_line_of_a_value() {
    let line = format!("text {}\n", "\\00".repeat(65_535));
    assert_eq!(line.len(), 196_611);
    listed_just_so(&[], &[0x1b, 0xff, 0xff, 4, 0], &format!("done 1\nvalues 1\n{line}tasks 0\n"));
}

#[test]
fn the_longest_lines_of_tasks() {
    let records: Vec<Vec<u8>> = (0..256).map(|id| record_in(id, [255, 254], &[id as u8 % 32; 128], &[])).collect();
    let lines: Vec<String> = (0..256).map(|id| format!("task {id} 254 {}\n", format!("\\{:02X}", id % 32).repeat(128))).collect();
    assert_eq!(lines[255].len(), "task 255 254 ".len() + 3 * 128 + 1);
    listed_just_so(&image_of(256, &records), &[0x0c], &format!("done 1\nvalues 0\ntasks 256\n{}", lines.concat()));
}

/// Up to six letters, bytes that are escaped, longer characters, and bytes that are not UTF-8.
fn some_bytes(dice: &mut Dice) -> Vec<u8> {
    let parts = [b"a", b"\n", b"\\", b"\x7f", "é".as_bytes(), "\u{2028}".as_bytes(), b"\\0A", b"\xc3", b"\xff"];
    (0..dice.roll(7)).flat_map(|_| if dice.roll(3) == 0 { vec![dice.roll(128) as u8] } else { parts[dice.roll(9) as usize].to_vec() }).collect()
}

#[test]
fn every_text_and_title_is_one_line() {
    let mut dice = Dice(5);
    for _ in 0..2_000 {
        let texts: Vec<Vec<u8>> = (0..dice.roll(5)).map(|_| some_bytes(&mut dice)).collect();
        let titles: Vec<Vec<u8>> = (0..dice.roll(5)).map(|_| some_bytes(&mut dice)).collect();
        let mut program = vec![0x0c];
        titles.iter().for_each(|title| program.extend(create(title)));
        texts.iter().for_each(|text| program.extend(text_of(text)));
        let after = go_with(&[], &program, 1_000, 4_096, 4_096, 4_096);
        let (values, tasks) = lines_of(after.text());
        assert_eq!((values.len(), tasks.len()), (texts.len(), titles.len()));
        for (text, line) in texts.iter().zip(values) {
            match std::str::from_utf8(text) {
                Ok(_) => assert_eq!(&read_back(line.strip_prefix("text ").unwrap(), true), text),
                Err(_) => assert_eq!(line, "bad 15"),
            }
        }
        for (id, (title, line)) in titles.iter().zip(tasks).enumerate() {
            let shown = line.strip_prefix(&format!("task {id} 0 ")).unwrap();
            assert_eq!(&read_back(shown, std::str::from_utf8(title).is_ok()), title);
        }
    }
}

#[test]
fn the_longest_program() {
    let program = vec![0x0c; 65_535];
    let after = go(&[], &program);
    assert_eq!(after.text(), "done 65535\nvalues 0\ntasks 0\n");
    assert_eq!(admit(&program), Ok(vec![]));
}

#[test]
fn admission() {
    assert_eq!(admit(C1), Err((27, 16)));
    assert_eq!(admit(&[]), Err((1, 0)));
    assert_eq!(admit(&vec![0; 65_536]), Err((28, 0)));
    assert_eq!(admit(&[0x01, 0, 0, 0, 1, 0x1b, 0, 1, 4, 1, b'a', 0x04, 0, 0]), Ok(b"NSC".to_vec()));
    let most: Vec<u8> = [0x0d].repeat(1000);
    assert_eq!(admit(&most), Ok(vec![b'N'; 1000]));
    assert_eq!(admit(&[0x0d].repeat(1001)), Err((27, 1000)));
}

/// A program of real opcodes and of any bytes.
fn some_program(dice: &mut Dice) -> Vec<u8> {
    let mut program = Vec::new();
    for _ in 0..dice.roll(40) + 1 {
        match dice.roll(12) {
            0..=3 => program.extend([0x01, 0, 0, 0, dice.roll(6) as u8]),
            4 => program.extend([0x1b, 0, 4, [4, 6][dice.roll(2) as usize], 1, b'a', dice.roll(128) as u8, b'c', b'd']),
            5 => program.extend([0x04, 0, 2, 0x0d, 0x12]),
            6 => program.extend([0x1b, 0, 2, 4, 1, b'H', dice.roll(256) as u8, 0x01, 0, 0, 0, 3, 0x04, 0, 1, 0x0d, 0x07]),
            _ => program.push(dice.roll(0x20) as u8),
        }
    }
    program
}

#[test]
fn as_runone_lists() {
    let runone = std::env::var("RUNONE").expect("RUNONE names the program runone");
    let mut dice = Dice(1);
    for _ in 0..400 {
        let program = some_program(&mut dice);
        let mut child = std::process::Command::new(&runone)
            .stdin(std::process::Stdio::piped())
            .stdout(std::process::Stdio::piped())
            .spawn()
            .unwrap();
        std::io::Write::write_all(&mut child.stdin.take().unwrap(), &program).unwrap();
        let said = child.wait_with_output().unwrap().stdout;
        let after = go(&[], &program);
        assert_eq!(&after.listing[..after.run.listing.unwrap()], said, "{program:02x?}");
    }
}

#[test]
fn admitted_programs_keep_their_promise() {
    let mut dice = Dice(7);
    let mut seen = 0;
    for _ in 0..20_000 {
        let program = some_program(&mut dice);
        if admit(&program).is_ok() {
            seen += 1;
            let after = go_with(I1, &program, 1_000, 4_096, 4_096, 8_192);
            let number = after.run.refusal.map_or(0, |refusal| refusal.number);
            assert!(!matches!(number, 2..=6 | 10), "{number} on {program:02x?}");
        }
    }
    assert!(seen > 100, "{seen} were admitted");
}

#[test]
fn any_bytes() {
    let mut dice = Dice(3);
    for _ in 0..20_000 {
        let program: Vec<u8> = (0..dice.roll(60)).map(|_| dice.roll(256) as u8).collect();
        let image: Vec<u8> = (0..dice.roll(40)).map(|_| dice.roll(4) as u8).collect();
        let after = go_with(&image, &program, dice.roll(200), dice.roll(64) as usize, dice.roll(64) as usize, dice.roll(256) as usize);
        assert!(after.run.finished <= 200);
        let _ = admit(&program);
    }
}

#[test]
fn several_threads_with_2_mb_stacks() {
    let threads: Vec<_> = (0..8)
        .map(|number| {
            std::thread::Builder::new()
                .stack_size(2 << 20)
                .spawn(move || {
                    let records: Vec<Vec<u8>> = (0..=number).map(|id| record(id, b"task", &[0x0d])).collect();
                    let image = image_of(number + 1, &records);
                    let mut dice = Dice(number as u64);
                    for _ in 0..50 {
                        let after = go_with(&image, C1, 1_000_000, 65_536, 65_536, 65_536);
                        assert_eq!(after.image(), image);
                        assert!(after.text().starts_with(&format!("done 5\nvalues 1\nu32 99\ntasks {}\n", number + 1)));
                        assert_eq!(admit(C1), Err((27, 16)));
                        assert_eq!(test_image(&image), Ok(()));
                        let program = some_program(&mut dice);
                        let one = go_with(&image, &program, 1_000, 4_096, 65_536, 65_536);
                        let two = go_with(&image, &program, 1_000, 4_096, 65_536, 65_536);
                        assert_eq!((one.run, one.memory, one.new_image, one.listing), (two.run, two.memory, two.new_image, two.listing));
                    }
                })
                .unwrap()
        })
        .collect();
    threads.into_iter().for_each(|thread| thread.join().unwrap());
}
