//! The call rewritings of the test copy (A8), held against the unchanged functions and against the searches made another way:
//! without veils, by a walk that goes from a quote straight behind the next one.

use super::judge::CALLS;
use super::veil::{veiled, watched};
use crate::changed;

/// What the call stages of a formula did: how many of them passed over a parenthesis, how many of these gave another text than the
/// unchanged function, and the first disagreement in words.
#[derive(Default)]
pub struct Passing {
    pub passing: usize,
    pub other_text: usize,
    pub disagreement: Option<String>,
}

pub fn call_stages(formula: &str) -> Passing {
    let mut found = Passing::default();
    let mut text = formula.replace("\\/", crate::LITERAL_SOLIDUS);
    for call in CALLS {
        let (next, passed_over) = watched(|| (call.copy)(&text));
        let other_text = next != (call.unchanged)(&text);
        found.passing += usize::from(passed_over);
        found.other_text += usize::from(other_text);
        let head = call.stage.trim_end_matches('(').to_string() + "(";
        let wrong = if other_text && !passed_over {
            Some("nothing is passed over, but the text is another one")
        } else if call.stage == "cases" && next != cases_by_walk(&text) {
            Some("another text than by the walk")
        } else {
            text.match_indices(&head).find_map(|(at, _)| wrong_search(&text[at + head.len()..]))
        };
        if let Some(wrong) = wrong {
            found.disagreement.get_or_insert_with(|| format!("{}: {wrong}", call.stage));
        }
        text = next;
    }
    found
}

/// The searches behind a call's opening parenthesis: the test copy's must be those of the walk.
fn wrong_search(rest: &str) -> Option<&'static str> {
    let (end, passed) = closer(rest);
    if watched(|| changed::find_matching_paren(rest)) != (end, !passed.is_empty()) {
        return Some("another closing search than the walk");
    }
    let inner = &rest[..end?];
    let commas = commas(inner, &passed);
    if changed::find_comma_in_args(inner) != commas.first().copied() {
        return Some("another comma than by the walk");
    }
    let widths: Vec<usize> = parts(inner, &commas).iter().map(|part| part.len()).collect();
    let branches = changed::split_top_level_commas(&veiled(inner));
    (!branches.iter().map(String::len).eq(widths)).then_some("other branches than by the walk")
}

/// The closing parenthesis, and the places of the parentheses that are passed over before it.
fn closer(s: &str) -> (Option<usize>, Vec<usize>) {
    let (mut depth, mut passed, mut i) = (1, Vec::new(), 0);
    while i < s.len() {
        match s.as_bytes()[i] {
            b'"' => {
                if let Some(width) = s[i + 1..].find('"') {
                    let between = i + 1..i + 1 + width;
                    passed.extend(between.clone().filter(|&k| matches!(s.as_bytes()[k], b'(' | b')')));
                    i = between.end;
                }
            }
            b'(' => depth += 1,
            b')' if depth == 1 => return (Some(i), passed),
            b')' => depth -= 1,
            _ => {}
        }
        i += 1;
    }
    (None, passed)
}

/// The commas that part arguments. Only the passed parentheses are not counted; quotes mean nothing else here.
fn commas(inner: &str, passed: &[usize]) -> Vec<usize> {
    let (mut depth, mut commas) = (0, Vec::new());
    for (i, c) in inner.char_indices().filter(|(i, _)| passed.binary_search(i).is_err()) {
        match c {
            '(' | '[' | '{' => depth += 1,
            ')' | ']' | '}' => depth -= 1,
            ',' if depth == 0 => commas.push(i),
            _ => {}
        }
    }
    commas
}

fn parts<'a>(inner: &'a str, commas: &[usize]) -> Vec<&'a str> {
    let starts = std::iter::once(0).chain(commas.iter().map(|comma| comma + 1));
    let ends = commas.iter().copied().chain([inner.len()]);
    starts.zip(ends).map(|(start, end)| &inner[start..end]).collect()
}

/// `convert_cases` by the walk.
fn cases_by_walk(text: &str) -> String {
    let Some((before, rest)) = text.split_once("cases(") else { return text.to_string() };
    let (Some(end), passed) = closer(rest) else { return text.to_string() };
    let inner = &rest[..end];
    let branches: Vec<&str> =
        parts(inner, &commas(inner, &passed)).into_iter().map(str::trim).filter(|branch| !branch.is_empty()).collect();
    format!("{before}\\begin{{cases}} {} \\end{{cases}}{}", branches.join(" \\\\ "), &rest[end + 1..])
}
