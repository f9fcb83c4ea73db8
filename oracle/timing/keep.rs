//! Regular expressions kept between calls, for the variant of `math_conv.rs` that oracle/speed makes.

use regex::Regex;
use std::cell::RefCell;
use std::collections::HashMap;
use std::rc::Rc;
use std::sync::OnceLock;

const PLACES: usize = 3;
const ROWS: usize = 64;

/// The expression of a row in one of the tables.
pub fn of_row(place: usize, row: usize, pattern: impl FnOnce() -> String) -> Option<&'static Regex> {
    static KEPT: [[OnceLock<Option<Regex>>; ROWS]; PLACES] = [const { [const { OnceLock::new() }; ROWS] }; PLACES];
    KEPT[place][row].get_or_init(|| Regex::new(&pattern()).ok()).as_ref()
}

/// The expression of a defined name.
pub fn of_name(name: &str, pattern: impl FnOnce() -> String) -> Option<Rc<Regex>> {
    thread_local! {
        static KEPT: RefCell<HashMap<String, Rc<Regex>>> = RefCell::default();
    }
    KEPT.with_borrow_mut(|kept| {
        if let Some(re) = kept.get(name) {
            return Some(re.clone());
        }
        let re = Rc::new(Regex::new(&pattern()).ok()?);
        kept.insert(name.to_string(), re.clone());
        Some(re)
    })
}
