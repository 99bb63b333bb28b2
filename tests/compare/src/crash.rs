//! If the library crashes or does not come back, the inputs of that call would be lost. The call
//! under way is therefore noted here, and a signal prints it before the program ends.

use std::sync::Mutex;

/// A part lent to the call: its name, address and length.
pub type Lent = (&'static str, usize, usize);

/// The call under way.
#[derive(Clone, Copy)]
struct Call {
    name: &'static str,
    numbers: [u32; 3],
    parts: [Lent; 4],
}

static CURRENT: Mutex<Option<Call>> = Mutex::new(None);

/// How long nothing may be reported before the program gives up, in seconds.
const PATIENCE: u32 = 300;

extern "C" {
    fn signal(number: i32, handler: usize) -> usize;
    fn alarm(seconds: u32) -> u32;
    fn _exit(code: i32) -> !;
}

/// Notes the call that is about to be made. The parts must live until `leave`.
pub fn enter(name: &'static str, numbers: [u32; 3], parts: [Lent; 4]) {
    *CURRENT.lock().unwrap() = Some(Call {
        name,
        numbers,
        parts,
    });
}

/// The call came back.
pub fn leave() {
    *CURRENT.lock().unwrap() = None;
}

/// A part as `enter` takes it.
pub fn lent(name: &'static str, part: &[u8]) -> Lent {
    (name, part.as_ptr() as usize, part.len())
}

/// Bytes as hexadecimal digits.
pub fn hex(bytes: &[u8]) -> String {
    bytes.iter().map(|byte| format!("{byte:02X}")).collect()
}

/// Prints the call under way. (Printing in a signal handler is not clean, but the program is
/// about to end in any case.)
extern "C" fn report(number: i32) {
    let why = match number {
        4 => "illegal instruction",
        6 => "abort",
        7 => "bus error",
        8 => "arithmetic fault",
        11 => "segment fault",
        14 => "no answer in time",
        _ => "signal",
    };
    eprintln!("CRASH: {why} (signal {number})");
    match CURRENT.try_lock().map(|current| *current) {
        Ok(Some(call)) => {
            eprintln!("call {} with numbers {:?}", call.name, call.numbers);
            for (name, address, length) in call.parts {
                if !name.is_empty() {
                    // SAFETY: `enter` was given a part that lives until `leave`.
                    let part = unsafe { std::slice::from_raw_parts(address as *const u8, length) };
                    eprintln!("{name} {length} bytes: {}", hex(part));
                }
            }
        }
        _ => eprintln!("no library call was under way"),
    }
    println!("0 passed, 1 failed");
    // SAFETY: ends the process.
    unsafe { _exit(3) }
}

/// Sets the handlers.
pub fn install() {
    let handler = report as extern "C" fn(i32) as *const () as usize;
    for number in [4, 6, 7, 8, 11, 14] {
        // SAFETY: a handler that only prints and ends the process.
        unsafe { signal(number, handler) };
    }
    still_alive();
}

/// Restarts the time in which something has to be reported.
pub fn still_alive() {
    // SAFETY: sets a timer.
    unsafe { alarm(PATIENCE) };
}
