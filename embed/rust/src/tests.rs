//! What the wrapper adds to the library: the table made of a map, the refusals, the buffers of a thread, the words as slices, the tall
//! commands as a set.

use super::*;

fn defined(rows: &[(&str, &str)]) -> HashMap<String, String> {
    rows.iter().map(|(name, latex)| (name.to_string(), latex.to_string())).collect()
}

fn faulty(rows: &[(&str, &str)]) -> bool {
    typst_to_latex("a", &defined(rows), true) == Err(Refusal::FaultyTable)
}

/// The answer with a table in its bytes.
fn converted(formula: &str, table: &[u8]) -> Result<Vec<u8>, Refusal> {
    let (mut work, mut output) = ([7; WORK_BYTES], [7; OUTPUT_BYTES]);
    convert(formula.as_bytes(), table, true, Tall::ALL, &mut work, &mut output).map(<[u8]>::to_vec)
}

#[test]
fn converts() {
    let none = HashMap::new();
    assert_eq!(typst_to_latex("(a + 1)/b", &none, true).as_deref(), Ok("\\frac{a + 1}{b}"));
    assert_eq!(typst_to_latex("(a + 1)/b", &none, false).as_deref(), Ok("(a + 1)/b"));
    assert_eq!(typst_to_latex("", &none, true).as_deref(), Ok(""));
    let gain = defined(&[("gain", "\\mathrm{G}")]);
    assert_eq!(typst_to_latex("gain/2", &gain, true).as_deref(), Ok("\\frac{\\mathrm{G}}{2}"));
}

#[test]
fn names_of_equal_length_are_applied_in_byte_order() {
    for _ in 0..20 {
        let chain = defined(&[("ab", "cd"), ("cd", "x"), ("aB", "ab"), ("a1", "aB")]);
        assert_eq!(typst_to_latex("a1", &chain, true).as_deref(), Ok("x"));
        let back = defined(&[("cd", "ab"), ("ab", "aB"), ("aB", "a1"), ("a1", "x")]);
        assert_eq!(typst_to_latex("cd", &back, true).as_deref(), Ok("ab"));
    }
}

#[test]
fn the_order_of_the_records_does_not_matter() {
    let records: [&[u8]; 3] = [b"\x08\x02abcd", b"\x08\x01cdx", b"\x0c\x02abcab"];
    for order in [[0, 1, 2], [0, 2, 1], [1, 0, 2], [1, 2, 0], [2, 0, 1], [2, 1, 0]] {
        let table = order.map(|i| records[i]).concat();
        assert_eq!(converted("abc", &table), Ok(b"x".to_vec()));
    }
}

#[test]
fn quoted_text_goes_back_to_its_own_place() {
    let none = HashMap::new();
    let printed = |formula: &str| typst_to_latex(formula, &none, true);
    assert_eq!(printed("upright(a \"b\")").as_deref(), Ok(r"\mathrm{a\;\text{b}}"));
    assert_eq!(printed(r"\text{a}\text{b}0\text{c}").as_deref(), Ok(r"\text{a}\text{b}0\text{c}"));
}

#[test]
fn a_chain_of_slashes_groups_from_the_left() {
    let none = HashMap::new();
    let printed = |formula: &str| typst_to_latex(formula, &none, true);
    assert_eq!(printed("a/b/c").as_deref(), Ok(r"\frac{\frac{a}{b}}{c}"));
    assert_eq!(printed("(a/b)/c"), printed("a/b/c"));
    assert_eq!(printed("a/b/c/d").as_deref(), Ok(r"\frac{\frac{\frac{a}{b}}{c}}{d}"));
    assert_eq!(plain_check(b"(a/b)/c"), Some(3));
    assert_eq!(plain_check(b"a/b/c"), None);
}

#[test]
fn quoted_parentheses_close_no_call() {
    let none = HashMap::new();
    let printed = |formula: &str| typst_to_latex(formula, &none, true);
    assert_eq!(printed("op(\"a)b\")").as_deref(), Ok(r"\operatorname{a)b}"));
    assert_eq!(printed("binom(\"(\", c)").as_deref(), Ok(r"\binom{\text{(}}{c}"));
    assert_eq!(printed("op(\")").as_deref(), Ok(r"\operatorname{}"));
}

#[test]
fn a_command_is_tall_by_choice() {
    let none = HashMap::new();
    let printed = |formula: &str, tall: Tall| typst_to_latex_sized(formula, &none, true, tall).unwrap();
    for (formula, command, small, sized) in [
        ("(a/b)", Tall::FRAC, r"(\frac{a}{b})", r"\left(\frac{a}{b}\right)"),
        ("[sqrt(a)]", Tall::SQRT, r"[\sqrt{a}]", r"\left[\sqrt{a}\right]"),
        ("(binom(n, k))", Tall::BINOM, r"(\binom{n}{k})", r"\left(\binom{n}{k}\right)"),
        ("[sum x]", Tall::SUM, r"[\sum x]", r"\left[\sum x\right]"),
        ("(integral x)", Tall::INT, r"(\int x)", r"\left(\int x\right)"),
    ] {
        assert_eq!(printed(formula, Tall::ALL), sized);
        assert_eq!(printed(formula, command), sized);
        assert_eq!(printed(formula, Tall::ALL - command), small);
        assert_eq!(printed(formula, Tall::NONE), small);
        assert_eq!(typst_to_latex(formula, &none, true).as_deref(), Ok(sized));
    }
    assert_eq!(printed("lr((a/b))", Tall::NONE), r"\left(\frac{a}{b}\right)");
    assert_eq!(typst_to_latex_sized("(a/b)", &none, false, Tall::ALL).as_deref(), Ok("(a/b)"));
}

/// The number that refuses a formula which is too long, under any field, also one that no `Tall` holds.
fn number_under(field: u32, work: &mut [u8]) -> u64 {
    let (formula, mut output, mut count) = ([b'a'; FORMULA_BYTES + 1], [7; 1], 7);
    // SAFETY: the pointers and lengths are those of slices.
    let answer = unsafe {
        raw::jistranu_typst_to_latex(
            formula.as_ptr(),
            formula.len(),
            b"".as_ptr(),
            0,
            true,
            field,
            work.as_mut_ptr(),
            work.len(),
            output.as_mut_ptr(),
            output.len(),
            &mut count,
        )
    };
    assert_eq!((output, count), ([7], 0));
    answer
}

#[test]
fn a_field_above_31_is_refused_behind_a_narrow_work_buffer() {
    for field in [32, 63, 255, 256, 256 + 31, u32::MAX] {
        let mut work = [7; WORK_BYTES];
        assert_eq!(number_under(field, &mut work[1..]), 4);
        assert!(work.iter().all(|&b| b == 7));
        assert_eq!(number_under(field, &mut work), 15);
        assert_eq!(work, [0; WORK_BYTES]);
        assert_eq!(number_under(31, &mut work), 2);
    }
}

#[test]
fn refuses_by_its_number() {
    let none = HashMap::new();
    let refused = |formula: &str| typst_to_latex(formula, &none, true).unwrap_err();
    assert_eq!(refused("é"), Refusal::ForeignByte);
    assert_eq!(refused(&"a".repeat(FORMULA_BYTES + 1)), Refusal::LongFormula);
    assert_eq!(refused(&"op()".repeat(600)), Refusal::Overgrown);
    assert_eq!(refused(&("a/(".repeat(64) + "a/a" + &")".repeat(64))), Refusal::Unsettled);
    assert_eq!(refused(&("a/".repeat(65) + "a")), Refusal::Unsettled);
    assert_eq!(refused("lr(|)"), Refusal::BareDelimiter);
    assert_eq!(refused("a/abs(b \\/ c)"), Refusal::BarredSolidus);
    let (mut work, mut output) = ([7; WORK_BYTES], [7; 1]);
    assert_eq!(convert(b"a", b"", true, Tall::ALL, &mut work[1..], &mut output), Err(Refusal::NarrowWork));
    assert!(work.iter().all(|&b| b == 7));
    assert_eq!(convert(b"ab", b"", true, Tall::ALL, &mut work, &mut output), Err(Refusal::ShortOutput));
    assert_eq!((output, work), ([7], [0; WORK_BYTES]));
}

#[test]
fn a_table_is_narrow_where_that_form_has_room() {
    assert_eq!(table(&HashMap::new()), b"");
    for (before_name, name, latex) in [
        (&b"\x10\x0a"[..], 4, 10),
        (b"\xff\xff", 63, 1_023),
        (b"\x04\0", 1, 0),
        (b"\0\x08\0\0", 64, 0),
        (b"\0\0\x24\0", 1, 1_024),
        (b"\0\x0f\xff\xff", 127, 8_191),
        (b"\0\0\0\x01", 0, 1),
    ] {
        let (name, latex) = ("n".repeat(name), "x".repeat(latex));
        let expected = [before_name, name.as_bytes(), latex.as_bytes()].concat();
        assert_eq!(table(&defined(&[(&name, &latex)])), expected);
    }
    for (name, latex) in [(128, 0), (2_048, 0), (1, 8_192)] {
        assert_eq!(table(&defined(&[(&"n".repeat(name), &"x".repeat(latex))])), CUT_OFF);
    }
}

#[test]
fn one_long_definition_makes_all_of_them_wide() {
    let long = "x".repeat(1_024);
    let rows = defined(&[("gain", "\\mathrm{G}"), ("long", &long)]);
    assert_eq!(table(&rows).len(), 1 + 3 + 4 + 10 + 3 + 4 + 1_024);
    assert_eq!(typst_to_latex("gain/long", &rows, true), Ok(format!("\\frac{{\\mathrm{{G}}}}{{{long}}}")));
}

#[test]
fn both_forms_of_a_table_give_the_same() {
    let rows = defined(&[("gain", "\\mathrm{G}"), ("ab", "cd"), ("cd", "gain"), ("n", "x"), ("none", "")]);
    let narrow = table(&rows);
    let wide = table_in(&WIDE, &rows).unwrap();
    assert_eq!(wide.len(), narrow.len() + 1 + rows.len());
    for formula in ["", "gain/2", "ab + cd", "n none n", "lr(|)", "é"] {
        assert_eq!(converted(formula, &wide), converted(formula, &narrow));
    }
}

#[test]
fn reads_a_table_that_begins_with_zero_as_wide() {
    assert_eq!(converted("gain/2", b"\0\0\x80\x0again\\mathrm{G}"), Ok(b"\\frac{\\mathrm{G}}{2}".to_vec()));
    assert_eq!(converted("gain/2", b"\0"), Ok(b"\\frac{gain}{2}".to_vec()));
    for table in [&b"\0\0"[..], b"\0\0\0", b"\0\0\0\0", b"\0\0\x80\x0again\\mathrm{G"] {
        assert_eq!(converted("gain/2", table), Err(Refusal::FaultyTable));
    }
    for first_bits in [0x80, 0x40, 0x20, 0x10] {
        let table = [b"\0", &[first_bits][..], b"\x80\x0again\\mathrm{G}"].concat();
        assert_eq!(converted("gain/2", &table), Err(Refusal::FaultyTable));
    }
}

#[test]
fn definitions_that_fit_no_table_are_faulty() {
    let (long_name, long_latex): (&str, &str) = (&"n".repeat(128), &"x".repeat(8_192));
    assert!(!faulty(&[(&long_name[1..], &long_latex[1..])]));
    for row in [(long_name, "x"), ("n", long_latex), ("", "x"), ("", ""), ("a_b", "x"), ("ab", "$"), ("ab", "é")] {
        assert!(faulty(&[row]));
        // Whichever of them the map has first.
        for _ in 0..20 {
            assert!(faulty(&[row, ("gain", "x")]));
            assert!(faulty(&[row, ("gain", &long_latex[1..])]));
        }
    }
    // A foreign byte in the formula comes first.
    assert_eq!(typst_to_latex("é", &defined(&[(long_name, "x")]), true), Err(Refusal::ForeignByte));
}

#[test]
fn a_wide_table_has_at_most_32_768_bytes() {
    let latex = "x".repeat(8_187);
    let rows = [("ab", latex.as_str()), ("cd", &latex), ("ef", &latex)];
    assert!(!faulty(&[&rows[..], &[("gh", &latex[1..])]].concat()));
    assert!(faulty(&[&rows[..], &[("gh", &latex)]].concat()));
}

#[test]
fn plain_formulas_have_atoms() {
    assert_eq!(plain_check(b"a_1/(b + 2)"), None);
    assert_eq!(plain_check(b"a_1 + a/(b + 2)"), Some(4));
    assert_eq!(plain_check(b""), None);
    // Tests run in threads with 2 MB of stack.
    assert_eq!(plain_check(&[b'('; FORMULA_BYTES]), None);
    let deep = "(".repeat(2_047) + "a" + &")".repeat(2_047);
    assert_eq!(plain_check(deep.as_bytes()), Some(1));
}

/// A name that is applied, one of one byte, and one without LaTeX.
const WORDS: [(&str, &str); 3] = [("gain", "\\mathrm{G}"), ("g", "X"), ("zz", "")];

#[test]
fn a_defined_name_stands_for_its_latex() {
    let table = table(&defined(&WORDS));
    for (formula, place, latex) in [
        ("gain/2", 0, "\\mathrm{G}"),
        ("gain/2", 3, "\\mathrm{G}"),
        ("x_gain", 2, "\\mathrm{G}"),
        ("\"gain\"", 1, "\\mathrm{G}"),
        ("\\gain", 1, "\\mathrm{G}"),
        ("a zz", 2, ""),
    ] {
        let word = word_at(formula.as_bytes(), &table, place).unwrap();
        assert_eq!((word.as_str(), word.defined), (latex, true));
    }
}

#[test]
fn any_other_word_stands_for_itself() {
    let table = table(&defined(&WORDS));
    let longest = "a".repeat(FORMULA_BYTES);
    for (formula, place, word) in [
        ("gain/2", 5, "2"),
        ("x_gain", 0, "x"),
        ("2gain", 1, "2gain"),
        ("again", 1, "again"),
        ("Gain", 1, "Gain"),
        ("gain2", 0, "gain2"),
        ("gain2", 4, "gain2"),
        ("g", 0, "g"),
        (&longest, 2_000, &longest),
    ] {
        assert_eq!(word_at(formula.as_bytes(), &table, place), Ok(Word { text: word.as_bytes(), defined: false }));
    }
}

#[test]
fn no_word_is_at_the_end_or_on_another_character() {
    let table = table(&defined(&WORDS));
    for (formula, place) in [("gain/2", 4), ("gain/2", 6), ("gain/2", usize::MAX), ("x_gain", 1), ("", 0)] {
        assert_eq!(word_at(formula.as_bytes(), &table, place), Err(Refusal::NoWord));
    }
}

#[test]
fn a_word_is_refused_by_the_first_number_that_holds() {
    let repeated = b"\x04\x01gX\x04\x01gX";
    assert_eq!(word_at("é".repeat(2_049).as_bytes(), repeated, 0), Err(Refusal::LongFormula));
    assert_eq!(word_at("é".as_bytes(), repeated, 0), Err(Refusal::ForeignByte));
    assert_eq!(word_at(b"a", repeated, 0), Err(Refusal::FaultyTable));
    assert_eq!(word_at(b"a", repeated, 1), Err(Refusal::FaultyTable));
    assert_eq!(word_at(b"a", &repeated[..4], 1), Err(Refusal::NoWord));
}

#[test]
fn a_refused_word_is_the_empty_beginning_of_the_formula() {
    let long = [b'a'; FORMULA_BYTES + 1];
    for (formula, table, number) in [(&long[..], &b""[..], 2), (b"\xe9", b"", 1), (b"a", b"\0\0", 3), (b"+", b"", 16)] {
        let (mut defined, mut start, mut length) = (true, 7, 7);
        // SAFETY: the pointers and lengths are those of slices.
        let answer = unsafe {
            raw::jistranu_word_at(
                formula.as_ptr(),
                formula.len(),
                table.as_ptr(),
                table.len(),
                0,
                &mut defined,
                &mut start,
                &mut length,
            )
        };
        assert_eq!((answer, defined, start, length), (number, false, 0, 0));
    }
}

#[test]
fn both_forms_of_a_table_give_the_same_words() {
    let rows = defined(&WORDS);
    let (narrow, wide) = (table(&rows), table_in(&WIDE, &rows).unwrap());
    for formula in ["", "gain/2 + x_gain", "g zz zz2", "é"] {
        for place in 0..=formula.len() {
            assert_eq!(word_at(formula.as_bytes(), &wide, place), word_at(formula.as_bytes(), &narrow, place));
        }
    }
}

#[test]
fn a_word_lies_where_it_was_found() {
    // Name and LaTeX are the same bytes, and so is the word.
    let (narrow, wide) = (b"\x10\x04gaingain", b"\0\0\x80\x04gaingain");
    assert!(std::ptr::eq(word_at(b"x_gain", narrow, 2).unwrap().text, &narrow[6..]));
    assert!(std::ptr::eq(word_at(b"x_gain", wide, 2).unwrap().text, &wide[8..]));
    let without_latex = b"\x08\0zz";
    assert!(std::ptr::eq(word_at(b"zz", without_latex, 0).unwrap().text, &without_latex[4..]));
    let formula = b"a + gain2";
    assert!(std::ptr::eq(word_at(formula, narrow, 5).unwrap().text, &formula[4..]));
}
