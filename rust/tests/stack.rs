//! How much of the processor's stack the recogniser takes, whose routines call each other: measured
//! on a stack that is painted before a call and looked at after it.
//!
//! Named sheets are those that go deepest by their making; random ones are made from the deepest
//! found so far. What the recogniser answers is held against the reference. To search longer by
//! hand:
//!
//!     export VINZAGEW_SEED=7 VINZAGEW_CASES=100000
//!     cargo test --offline --release --test stack -- --nocapture

#![cfg(target_os = "linux")]

mod common;

use common::numbers::fewest_twin;
use common::random::{for_case, seed_and_cases, Random};
use common::recognised::recognised;
use common::{generate, hexadecimal, image_of, Engine, LIBRARY, REFERENCE};
use std::cmp::Reverse;
use std::ffi::c_void;
use std::ptr;
use vinzagew::{RECOGNISER_STACK_BYTES, RECOGNISER_TEXT_LIMIT, WORK_BYTES};
use vinzagew_reference::image::{Image, Row};

/// The C library's threads and memory, as far as they are needed here.
mod c {
    use std::ffi::c_void;

    /// At least as large as the attributes of a thread are.
    #[repr(C, align(16))]
    pub struct Attributes(pub [u8; 128]);

    pub type Start = extern "C" fn(*mut c_void) -> *mut c_void;

    extern "C" {
        pub fn pthread_attr_init(attributes: *mut Attributes) -> i32;
        pub fn pthread_attr_setstack(
            attributes: *mut Attributes,
            stack: *mut c_void,
            bytes: usize,
        ) -> i32;
        pub fn pthread_attr_destroy(attributes: *mut Attributes) -> i32;
        pub fn pthread_create(
            thread: *mut usize,
            attributes: *const Attributes,
            start: Start,
            argument: *mut c_void,
        ) -> i32;
        pub fn pthread_join(thread: usize, result: *mut *mut c_void) -> i32;
        pub fn mmap(
            address: *mut c_void,
            bytes: usize,
            protection: i32,
            flags: i32,
            file: i32,
            offset: i64,
        ) -> *mut c_void;
        pub fn mprotect(address: *mut c_void, bytes: usize, protection: i32) -> i32;
        pub fn munmap(address: *mut c_void, bytes: usize) -> i32;
    }
}

/// A call of the recogniser with all its buffers, and where the stack stood when it was made.
struct Call<'a> {
    engine: Engine,
    sheet: &'a [u8],
    text: &'a [u8],
    work: &'a mut [u8],
    list: &'a mut [u8],
    out: [u64; 3],
    top: usize,
}

/// Makes the call, in a thread of its own.
extern "C" fn make(call: *mut c_void) -> *mut c_void {
    let local = 0u8;
    // SAFETY: the pointer is that of a call which nobody else uses until the thread has ended.
    let call = unsafe { &mut *call.cast::<Call>() };
    call.top = &local as *const u8 as usize;
    (call.engine.recognise)(call.sheet, call.text, call.work, call.list, &mut call.out);
    ptr::null_mut()
}

/// Memory for a thread's stack, painted. Below it is a page that may not be touched.
struct Stack {
    memory: *mut u8,
    bytes: usize,
    paint: u8,
    /// From here on the last call may have left something.
    touched: usize,
}

const PAGE: usize = 4_096;

impl Stack {
    /// So many pages, all of this paint.
    fn new(pages: usize, paint: u8) -> Stack {
        const READ_AND_WRITE: i32 = 3;
        const PRIVATE_AND_ANONYMOUS: i32 = 0x22;
        let (none, bytes) = (ptr::null_mut(), pages * PAGE);
        let kinds = (READ_AND_WRITE, PRIVATE_AND_ANONYMOUS);
        // SAFETY: memory is asked for that nobody has yet, and its first page is shut.
        let memory = unsafe {
            let memory = c::mmap(none, bytes + PAGE, kinds.0, kinds.1, -1, 0);
            assert_ne!(memory as isize, -1, "no memory for a stack");
            assert_eq!(c::mprotect(memory, PAGE, 0), 0);
            memory.cast::<u8>().add(PAGE)
        };
        Stack {
            memory,
            bytes,
            paint,
            touched: 0,
        }
    }

    /// The bytes of the stack, while no thread runs on it.
    fn bytes(&mut self) -> &mut [u8] {
        // SAFETY: the memory is that of this stack alone and so long. No thread outlives `run`.
        unsafe { std::slice::from_raw_parts_mut(self.memory, self.bytes) }
    }

    /// Makes a call on this stack.
    fn run(&mut self, call: &mut Call) {
        let mut attributes = c::Attributes([0; 128]);
        let mut thread = 0;
        // SAFETY: the stack is there until the thread has ended, and so is the call.
        unsafe {
            assert_eq!(c::pthread_attr_init(&mut attributes), 0);
            let stack = self.memory.cast();
            let set = c::pthread_attr_setstack(&mut attributes, stack, self.bytes);
            assert_eq!(set, 0);
            let call: *mut Call = call;
            let made = c::pthread_create(&mut thread, &attributes, make, call.cast());
            assert_eq!(made, 0);
            assert_eq!(c::pthread_join(thread, ptr::null_mut()), 0);
            assert_eq!(c::pthread_attr_destroy(&mut attributes), 0);
        }
    }

    /// How many bytes below its caller a call touches.
    fn taken(&mut self, call: &mut Call) -> usize {
        let (paint, touched) = (self.paint, self.touched);
        self.bytes()[touched..].fill(paint);
        self.run(call);
        let clean = [paint; PAGE];
        let mut pages = self.bytes().chunks(PAGE);
        let page = pages.position(|page| page != clean).expect("a thread");
        let mut bytes = self.bytes()[page * PAGE..].iter();
        let within = bytes.position(|&byte| byte != paint).expect("a byte");
        self.touched = page * PAGE + within;
        call.top - self.memory as usize - self.touched
    }
}

impl Drop for Stack {
    fn drop(&mut self) {
        // SAFETY: the memory came from `mmap`, with the page below it, and no thread runs on it.
        unsafe {
            c::munmap(self.memory.sub(PAGE).cast(), self.bytes + PAGE);
        }
    }
}

/// Two stacks. What a byte held before may be what is written to it, so they differ in all bytes.
struct Measure([Stack; 2]);

impl Measure {
    fn new(bytes: usize) -> Measure {
        Measure([0xa5, 0x5a].map(|paint| Stack::new(bytes / PAGE, paint)))
    }

    /// How many bytes below its caller a call touches, with number, place and count.
    fn call(&mut self, engine: Engine, sheet: &[u8], text: &[u8]) -> (usize, [u64; 3]) {
        let (mut work, mut list) = (vec![0; WORK_BYTES], vec![0; text.len()]);
        let mut taken = 0;
        let mut out = [0; 3];
        for stack in &mut self.0 {
            let mut call = Call {
                engine,
                sheet,
                text,
                work: &mut work,
                list: &mut list,
                out,
                top: 0,
            };
            taken = taken.max(stack.taken(&mut call));
            out = call.out;
        }
        (taken, out)
    }
}

/// A stack on which a call that takes far more than it may is still measured.
const ROOMY: usize = 16 << 20;

/// The rules of the named sheets: `a` and `b`, each a token.
const RULES: [u8; 11] = [1, 2, 2, 1, 1, 97, 97, 2, 1, 98, 98];

/// A sheet with a name, texts, and what it gives for each: number and place; the count is that of
/// the text's bytes.
struct Named {
    name: &'static str,
    sheet: Vec<u8>,
    texts: Vec<(Vec<u8>, [u64; 2])>,
}

/// So many `a`, then so many `b`.
fn letters(a: usize, b: usize) -> Vec<u8> {
    [vec![b'a'; a], vec![b'b'; b]].concat()
}

fn named_sheet(name: &'static str, parts: &[&[u8]], texts: &[(Vec<u8>, [u64; 2])]) -> Named {
    Named {
        name,
        sheet: [&RULES[..], &parts.concat()].concat(),
        texts: texts.to_vec(),
    }
}

/// Sheets that go deep, each in another way.
fn named_sheets() -> [Named; 6] {
    let whole = letters(2_048, 0);
    let unended = (whole.clone(), [16, 2_048]);
    let ended = [(whole, [0, 2_048])];
    let (threes, tail) = ([3; 30], [2, 1].repeat(29));
    let of_30 = [unended.clone(), (letters(68, 1_972), [0, 2_040])];
    let halves = [unended, (letters(1_024, 1_024), [0, 2_048])];
    let nine_fixed_points = [&[5; 9][..], &[0]].concat().repeat(5);
    [
        // A repetition in a fixed point, around 30 sequences.
        named_sheet("A", &[&[5, 7], &threes, &[2, 0, 6, 0], &tail], &of_30),
        named_sheet("B", &[&[5], &threes, &[2, 0, 4, 0, 6, 0], &tail], &of_30),
        // 57 fixed points between two tokens.
        named_sheet("C", &[&[5; 57], &[3, 2, 0, 4, 0, 6, 56]], &ended),
        // As many `b` as `a`.
        named_sheet("D", &[&[5, 3, 3, 2, 0, 4, 0, 6, 0, 2, 1]], &halves),
        named_sheet("E", &[&[7], &[5; 62], &[2, 0]], &ended),
        named_sheet(
            "F",
            &[&[5], &[3; 6], &[2, 0, 4, 0, 6, 0], &nine_fixed_points],
            &ended,
        ),
    ]
}

/// The reference gives for the named sheets what is written down, so that they are what they are
/// said to be.
#[test]
fn the_named_sheets_are_read() {
    for named in named_sheets() {
        for (text, [number, place]) in &named.texts {
            let expected = [*number, *place, text.len() as u64];
            let (found, _) = recognised(REFERENCE, &named.sheet, text);
            assert_eq!(found, expected, "{}", named.name);
        }
    }
}

/// What the C library and the Rust library keep on a thread's stack themselves.
const FOR_THE_THREAD: usize = 32 << 10;

/// The named sheets stay within the promised bytes, and are read on a thread that has no more but what a thread itself needs.
#[test]
#[cfg_attr(not(vinzagew_library), ignore = "the static library was not found")]
fn the_named_sheets_stay_within_the_promise() {
    let mut measure = Measure::new(ROOMY);
    let mut worst = 0;
    for named in &named_sheets() {
        for (text, [number, place]) in &named.texts {
            let (taken, out) = measure.call(LIBRARY, &named.sheet, text);
            let count = text.len() as u64;
            assert_eq!(out, [*number, *place, count], "{}", named.name);
            println!("sheet {}, {number}: {taken} bytes", named.name);
            worst = worst.max(taken);
        }
    }
    println!("worst: {worst} bytes of {RECOGNISER_STACK_BYTES}");
    assert!(worst <= RECOGNISER_STACK_BYTES, "{worst}");

    let mut measure = Measure::new(RECOGNISER_STACK_BYTES + FOR_THE_THREAD);
    for named in &named_sheets() {
        for (text, [number, place]) in &named.texts {
            let (_, out) = measure.call(LIBRARY, &named.sheet, text);
            assert_eq!(out[..2], [*number, *place], "{}", named.name);
        }
    }
}

/// The measure sees what is taken: the reference's check of a sheet takes more for a deeper one,
/// and no call takes nothing.
#[test]
fn the_measure_sees_a_deeper_call() {
    let mut measure = Measure::new(ROOMY);
    let sheet = |depth| [&RULES[..], &vec![5; depth], &[2, 0]].concat();
    let mut taken = |depth| measure.call(REFERENCE, &sheet(depth), b"a").0;
    let (shallow, deep) = (taken(1), taken(62));
    println!("a shallow sheet: {shallow} bytes, a deep one: {deep} bytes");
    assert!(shallow > 0 && deep > shallow + 61 * 8);
}

/// A text of 2,048 tokens, or as many as there can be, that leaves much to be read: of what may
/// come next, most often that which leaves the most.
fn deep_text(random: &mut Random, image: &Image) -> Vec<u8> {
    let mut text = Vec::new();
    // The first pending nonterminal comes last.
    let mut pending = vec![0];
    while text.len() < RECOGNISER_TEXT_LIMIT {
        // How many stay, the rule, and the tail.
        let mut choices = Vec::new();
        for (stay, &nonterminal) in pending.iter().enumerate().rev() {
            let row: &Row = &image.rows[nonterminal];
            let productions = row.productions.iter();
            choices.extend(productions.map(|(rule, tail)| (stay, *rule, tail)));
            if !row.nullable {
                break;
            }
        }
        let most = choices.iter().map(|(stay, _, tail)| stay + tail.len());
        match most.max() {
            None => break,
            Some(most) if !random.once_in(20) => {
                choices.retain(|(stay, _, tail)| stay + tail.len() == most);
            }
            Some(_) => {}
        }
        let (stay, rule, tail) = *random.pick(&choices);
        pending.truncate(stay);
        pending.extend(tail.iter().rev());
        let position = image.positions.iter().find(|own| own.rule == rule);
        text.push(position.expect("a letter").low);
    }
    text
}

/// A sheet that passes: a new one, or one of the deepest so far with some numbers changed.
fn candidate(random: &mut Random, deepest: &[(usize, Vec<u8>)]) -> Vec<u8> {
    for _ in 0..20 {
        if deepest.is_empty() || random.once_in(10) {
            break;
        }
        let (_, chosen) = random.pick(deepest).clone();
        // Padding takes nothing of the stack, and would be in the way of reading what was found.
        let changed = fewest_twin(&generate::damage(random, &chosen));
        if image_of(&changed).map_or(false, |image| only_letters(&image)) {
            return changed;
        }
    }
    generate::letter_sheet(random).to_bytes()
}

/// Whether each rule of an image has one letter, and none skips.
fn only_letters(image: &Image) -> bool {
    let one = image
        .positions
        .iter()
        .all(|own| own.last && own.follow == 0);
    one && !image.skips.contains(&true)
}

/// Random sheets stay within the promised bytes too. Of all that were tried, the eight deepest are
/// kept to make others from.
#[test]
#[cfg_attr(not(vinzagew_library), ignore = "the static library was not found")]
fn random_sheets_stay_within_the_promise() {
    let (seed, cases) = seed_and_cases(400);
    let mut measure = Measure::new(ROOMY);
    let mut deepest: Vec<(usize, Vec<u8>)> = Vec::new();
    for case in 0..cases {
        let random = &mut for_case(seed, case);
        let sheet = candidate(random, &deepest);
        let text = deep_text(random, &image_of(&sheet).expect("it passes"));
        let (taken, out) = measure.call(LIBRARY, &sheet, &text);
        let context = format!("seed {seed}, case {case}, {}", hexadecimal(&sheet));
        assert_eq!(out, recognised(REFERENCE, &sheet, &text).0, "{context}");
        assert!(taken <= RECOGNISER_STACK_BYTES, "{taken}: {context}");
        // Of equally deep ones the newest come first, so that the search goes on.
        deepest.insert(0, (taken, sheet));
        deepest.sort_by_key(|(taken, _)| Reverse(*taken));
        deepest.truncate(8);
    }
    let (worst, sheet) = &deepest[0];
    println!("seed {seed}, {cases} sheets, worst: {worst} bytes, {sheet:?}");
}
