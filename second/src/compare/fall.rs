//! If the library falls (a panic that aborts, a bad address) the whole process
//! falls with it. This prints the case that it fell on, then ends with 1.

use super::bank_case::BankCase;
use super::binary64_case::Binary64Case;
use super::block_sum_case::BlockSumCase;
use super::case::Case;
use super::reading_case::ReadingCase;
use std::cell::Cell;
use std::sync::atomic::{AtomicUsize, Ordering};

/// The operation, its operands if they are words, a bank, a reading's, a block to
/// add or a sample, and the bytes of its text or file if it has one; an address is
/// good for as long as the call lasts.
#[derive(Clone, Copy)]
struct Call {
    name: &'static str,
    case: Option<Case>,
    bank: *const BankCase,
    reading: *const ReadingCase<'static>,
    block: *const BlockSumCase<'static>,
    sample: Option<Binary64Case>,
    bytes: *const u8,
    length: usize,
}

const NO_CALL: Call = Call {
    name: "no call",
    case: None,
    bank: std::ptr::null(),
    reading: std::ptr::null(),
    block: std::ptr::null(),
    sample: None,
    bytes: std::ptr::null(),
    length: 0,
};

/// More bytes of a file than this are not printed.
const PRINTED_BYTES: usize = 200;

thread_local! {
    static LAST: Cell<Call> = const { Cell::new(NO_CALL) };
}

/// Parts that ended before the fall, so that the last line can be printed.
pub static PASSED: AtomicUsize = AtomicUsize::new(0);
pub static FAILED: AtomicUsize = AtomicUsize::new(0);

extern "C" {
    fn signal(number: i32, action: extern "C" fn(i32)) -> usize;
    fn _exit(status: i32) -> !;
}

const ILLEGAL: i32 = 4;
const ABORT: i32 = 6;
const BUS: i32 = 7;
const ARITHMETIC: i32 = 8;
const ADDRESS: i32 = 11;

pub fn watch() {
    for number in [ILLEGAL, ABORT, BUS, ARITHMETIC, ADDRESS] {
        unsafe { signal(number, fell) };
    }
}

pub fn about_to_call(name: &'static str, case: Option<&Case>, bytes: &[u8]) {
    let call = Call {
        name,
        case: case.copied(),
        bytes: bytes.as_ptr(),
        length: bytes.len(),
        ..NO_CALL
    };
    LAST.with(|last| last.set(call));
}

/// A bank is too large to be copied at each call.
pub fn about_to_call_bank(name: &'static str, bank: &BankCase) {
    let call = Call {
        name,
        bank,
        ..NO_CALL
    };
    LAST.with(|last| last.set(call));
}

/// The records are lent, and so only good for the call as well.
pub fn about_to_call_reading(name: &'static str, reading: &ReadingCase) {
    let reading: *const ReadingCase = reading;
    let call = Call {
        name,
        reading: reading.cast(),
        ..NO_CALL
    };
    LAST.with(|last| last.set(call));
}

/// So are a block's.
pub fn about_to_call_block_sum(name: &'static str, block: &BlockSumCase) {
    let block: *const BlockSumCase = block;
    let call = Call {
        name,
        block: block.cast(),
        ..NO_CALL
    };
    LAST.with(|last| last.set(call));
}

pub fn about_to_call_import(name: &'static str, sample: &Binary64Case) {
    let call = Call {
        name,
        sample: Some(*sample),
        ..NO_CALL
    };
    LAST.with(|last| last.set(call));
}

/// Outside a library call the bytes may be gone.
pub fn back() {
    LAST.with(|last| last.set(NO_CALL));
}

/// An emulator may hand over the stack 8 bytes off, and the first aligned store
/// would fall again. For a local that asks for more than the stack's own
/// alignment the compiler sets the stack right first.
#[repr(align(64))]
struct Aligned(i32);

/// Runs in the thread that fell. The process is lost by now, so it may print.
extern "C" fn fell(number: i32) {
    let number = Aligned(number);
    // Without this read the local would not stand on the stack.
    let number = unsafe { std::ptr::read_volatile(&number.0) };
    let call = LAST.with(|last| last.get());
    println!(
        "DIFFERENCE in {}: it fell with signal {}",
        call.name, number
    );
    if let Some(case) = call.case {
        println!("  case:    {:?}", case);
    }
    if !call.bank.is_null() {
        println!("  case:    {}", unsafe { &*call.bank }.describe());
    }
    if !call.reading.is_null() {
        println!("  case:    {}", unsafe { &*call.reading }.describe());
    }
    if !call.block.is_null() {
        println!("  case:    {}", unsafe { &*call.block }.describe());
    }
    if let Some(sample) = call.sample {
        println!("  case:    {}", sample.describe());
    }
    if !call.bytes.is_null() && call.length > 0 {
        let printed = call.length.min(PRINTED_BYTES);
        let bytes = unsafe { std::slice::from_raw_parts(call.bytes, printed) };
        println!("  case:    {} bytes, {:02X?}", call.length, bytes);
    }
    let passed = PASSED.load(Ordering::SeqCst);
    let failed = FAILED.load(Ordering::SeqCst) + 1;
    println!("{} passed, {} failed", passed, failed);
    unsafe { _exit(1) }
}
