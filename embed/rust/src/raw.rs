//! The functions of libjistranu.a, as embed/jistranu.h declares them. A slice is a pointer, never null, and a length.

extern "C" {
    /// 0, and `count` bytes of LaTeX at the start of `output`; or the number of a refusal.
    ///
    /// # Safety
    /// Pointers and lengths are those of slices; what is written overlaps nothing else.
    pub fn jistranu_typst_to_latex(
        formula: *const u8,
        formula_len: usize,
        table: *const u8,
        table_len: usize,
        display: bool,
        field: u32,
        work: *mut u8,
        work_len: usize,
        output: *mut u8,
        output_len: usize,
        count: *mut usize,
    ) -> u64;

    /// Whether a formula is plain, and in `atoms` its atoms, or 0.
    ///
    /// # Safety
    /// As above.
    pub fn jistranu_plain_check(formula: *const u8, formula_len: usize, atoms: *mut usize) -> bool;

    /// 0, and `length` bytes from `start` of the table where `defined`, else of the formula; or the number of a refusal.
    ///
    /// # Safety
    /// As above.
    pub fn jistranu_word_at(
        formula: *const u8,
        formula_len: usize,
        table: *const u8,
        table_len: usize,
        place: usize,
        defined: *mut bool,
        start: *mut usize,
        length: *mut usize,
    ) -> u64;
}
