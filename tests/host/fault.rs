//! Says which call was under way when the program faults or a call does not end.

use std::ffi::{c_int, c_uint, c_void};
use std::sync::atomic::{AtomicU64, AtomicUsize, Ordering};

extern "C" {
    fn signal(number: c_int, handler: extern "C" fn(c_int)) -> *mut c_void;
    fn alarm(seconds: c_uint) -> c_uint;
    fn write(file: c_int, bytes: *const u8, len: usize) -> isize;
    fn _exit(status: c_int) -> !;
}

const FAULTS: [c_int; 4] = [4, 7, 8, 11]; // illegal instruction, bus, arithmetic, segment
const ALARM: c_int = 14;
/// No call takes a thousandth of this.
const SECONDS: c_uint = 20;

static CALL: AtomicUsize = AtomicUsize::new(0);
static NUMBER: AtomicU64 = AtomicU64::new(0);
static NAMES: &[&str] = crate::CALLS;

fn say(text: &[u8]) {
    unsafe { write(1, text.as_ptr(), text.len()) };
}

/// By hand: nothing may be allocated here.
fn say_number(mut number: u64) {
    let mut digits = [b'0'; 20];
    for digit in digits.iter_mut().rev() {
        *digit += (number % 10) as u8;
        number /= 10;
    }
    let first = digits.iter().position(|&digit| digit != b'0').unwrap_or(19);
    say(&digits[first..]);
}

extern "C" fn report(number: c_int) {
    say(b"FAILED adversary: ");
    say(NAMES[CALL.load(Ordering::Relaxed)].as_bytes());
    say(if number == ALARM { b": does not end" } else { b": touches what it was not lent, or traps" });
    say(b" (call number ");
    say_number(NUMBER.load(Ordering::Relaxed));
    say(b")\n");
    unsafe { _exit(1) }
}

pub fn watch() {
    for number in FAULTS.into_iter().chain([ALARM]) {
        unsafe { signal(number, report) };
    }
}

/// To be said before each call.
pub fn about_to(call: usize, number: u64) {
    CALL.store(call, Ordering::Relaxed);
    NUMBER.store(number, Ordering::Relaxed);
    if number % 256 == 0 {
        unsafe { alarm(SECONDS) };
    }
}
