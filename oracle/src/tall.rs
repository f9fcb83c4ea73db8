//! A13: which commands the test copy's sizing counts as tall. It goes by the field of the call that is judged.

use super::sizing::ALL_TALL;
use std::cell::Cell;

thread_local! {
    static FIELD: Cell<u32> = const { Cell::new(ALL_TALL) };
}

/// What a call of the test copy gives under a field.
pub fn under<T>(field: u32, call: impl FnOnce() -> T) -> T {
    FIELD.set(field);
    call()
}

/// Whether the command's bit is 1.
pub fn counts(command: &str) -> bool {
    let bit = match command {
        "\\frac" => 16,
        "\\sqrt" => 8,
        "\\binom" => 4,
        "\\sum" => 2,
        "\\int" => 1,
        other => panic!("no bit for {other}"),
    };
    FIELD.get() & bit != 0
}
