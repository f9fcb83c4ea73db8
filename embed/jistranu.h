/* Typst math in, LaTeX out: the functions of libjistranu.a, which `embed/library` builds.
 *
 * The library allocates nothing, keeps nothing between two calls and calls nothing but memset, so any number of threads
 * may call it, each with buffers of its own.
 *
 * Measured, with the older kit (README): a conversion takes up to 0.8 MB of stack (0.4 MB without a table), a plain check up to 1.2 MB:
 * 192 and 272 bytes for each parenthesis that is open. Where none is, 11 KB and 1.5 KB. The word under the pointer takes less than 1 KB.
 *
 * Pointers are never null. Where a length is 0, the pointer may be any other, as that of an empty string.
 * What a call writes (`work`, `output`, `count`, `atoms`, `defined`, `start`, `length`) overlaps nothing else that it is handed.
 */
#ifndef JISTRANU_H
#define JISTRANU_H

#include <stdbool.h>
#include <stddef.h>
#include <stdint.h>

#ifdef __cplusplus
extern "C" {
#endif

enum {
    JISTRANU_FORMULA_BYTES = 4096,    /* a formula has at most this many bytes */
    JISTRANU_TABLE_BYTES = 32768,     /* a definition table has at most this many bytes, in either form, */
    JISTRANU_TABLE_RECORDS = 64,      /* and this many definitions */
    JISTRANU_NAME_BYTES = 63,         /* in the narrow form a defined name has at most this many bytes, */
    JISTRANU_LATEX_BYTES = 1023,      /* and its LaTeX this many */
    JISTRANU_WIDE_NAME_BYTES = 127,   /* in the wide form a defined name has at most this many bytes, */
    JISTRANU_WIDE_LATEX_BYTES = 8191, /* and its LaTeX this many */
    JISTRANU_WORK_BYTES = 32768,      /* a conversion is lent at least this many bytes to work in */
    JISTRANU_OUTPUT_BYTES = 8192,     /* no answer is longer: with this room, number 10 is never met */
};

/* The tall field of a conversion: the bits of the commands that enlarge the delimiters around them, added up. */
enum {
    JISTRANU_TALL_FRAC = 16, /* \frac */
    JISTRANU_TALL_SQRT = 8,  /* \sqrt */
    JISTRANU_TALL_BINOM = 4, /* \binom */
    JISTRANU_TALL_SUM = 2,   /* \sum */
    JISTRANU_TALL_INT = 1,   /* \int */
    JISTRANU_ALL_TALL = 31,  /* all five, as in the Rust module */
};

/* What a conversion and jistranu_word_at answer: 0, or why there is no LaTeX or no word. Where several reasons hold, a conversion
 * answers 4 first, then 15, 2, 1 and 3, then the first of 5 to 9 that is met on the way, and 10 last; jistranu_word_at answers 2, 1
 * and 3 in this order, and 16 last. No call answers 11 to 14. */
enum jistranu_answer {
    JISTRANU_DONE = 0,
    JISTRANU_FOREIGN_BYTE = 1,   /* the formula holds something else than ASCII text, tabs and newlines */
    JISTRANU_LONG_FORMULA = 2,   /* the formula has more than 4,096 bytes */
    JISTRANU_FAULTY_TABLE = 3,   /* the table is too long or cut off, or has a bad header, a bad or repeated name or bad LaTeX */
    JISTRANU_NARROW_WORK = 4,    /* the work buffer has less than 32,768 bytes */
    JISTRANU_OVERGROWN = 5,      /* the text grows above 8,192 symbols on its way to LaTeX */
    JISTRANU_LOST_BLOCK = 6,     /* kept, so that the others keep their numbers; no call answers it */
    JISTRANU_UNSETTLED = 7,      /* more than 64 fractions stand one within the other, or in a chain of slashes */
    JISTRANU_BARE_DELIMITER = 8, /* lr encloses a delimiter and nothing else, as in lr(|) */
    JISTRANU_BARRED_SOLIDUS = 9, /* a denominator within bars holds an escaped slash, as in a/abs(b \/ c) */
    JISTRANU_SHORT_OUTPUT = 10,  /* the LaTeX is longer than the output buffer */
    JISTRANU_TALL_FIELD = 15,    /* the tall field is above 31 */
    JISTRANU_NO_WORD = 16,       /* the place is not on a letter or digit of the formula; only jistranu_word_at answers it */
};

/* Converts a formula. `display`: whether a/b becomes \frac{a}{b}, as in a formula on a line of its own. `field`: the tall field,
 * mostly JISTRANU_ALL_TALL. With display on, ( and ) become \left( and \right), and [ and ] likewise, where one of its commands stands
 * between them; in scripts they stay as they are. What lr and abs enlarge is not ruled by the field.
 *
 * Answers JISTRANU_DONE, and the LaTeX is the first *count bytes of `output` (no 0 byte is added); or a number from 1 to 10, or 15, of
 * enum jistranu_answer, and *count is 0. No other byte of `output` is written. All of `work` is zero afterwards, whatever
 * stood there; after JISTRANU_NARROW_WORK it is untouched.
 *
 * The table has two forms, and its first byte says which. A wide table is a byte 0 and then records; a table that begins with
 * another byte, or has none, is narrow and is records alone. A record is a header, then the name, then the LaTeX. The header is a
 * number, most significant byte first: in the narrow form two bytes, name length times 1,024 plus LaTeX length; in the wide form
 * three bytes, name length times 8,192 plus LaTeX length. The first four bits of these are zero, since a name has at most 127
 * bytes. The same records give the same answer in both forms, where neither is too long.
 *
 * A name is letters and digits and begins with a letter; names of one letter are read and left alone. LaTeX is ASCII text, tabs
 * and newlines, without `$`. Longer names are applied first, names of equal length in the order of their bytes; the order of the
 * records does not matter.
 */
uint64_t jistranu_typst_to_latex(
    const uint8_t *formula, size_t formula_len,
    const uint8_t *table, size_t table_len,
    bool display,
    uint32_t field,
    uint8_t *work, size_t work_len,
    uint8_t *output, size_t output_len,
    size_t *count);

/* Whether a formula is plain: sums, products, fractions and scripts of single letters, Greek names and numbers, in the one
 * spelling that the grammar allows. *atoms is then how many of those it has, one-letter scripts not counted; else 0.
 *
 * Two different plain formulas, converted with display on and no definitions under one tall field, never give the same LaTeX.
 */
bool jistranu_plain_check(const uint8_t *formula, size_t formula_len, size_t *atoms);

/* What the word at a byte place of a formula stands for. A word is the longest run of letters and digits around the place. The
 * table is that of a conversion.
 *
 * Answers JISTRANU_DONE, and *defined says whether the word is a defined name of two or more bytes. If so, its LaTeX is the
 * *length bytes (possibly none) from *start of the table; if not, the word itself is the *length bytes from *start of the formula.
 * Or answers JISTRANU_LONG_FORMULA, JISTRANU_FOREIGN_BYTE, JISTRANU_FAULTY_TABLE or JISTRANU_NO_WORD, the first that holds, and
 * *defined is false, *start and *length are 0. Nothing is copied, and nothing else is written.
 *
 * The whole word is compared with the names, which is not the conversion's rule. With a definition of `gain`, `gain2` is one word
 * and not defined, but a conversion rewrites the `gain` in it; in `x_gain` the word at 2 is `gain` and defined, but a conversion
 * does not rewrite it.
 */
uint64_t jistranu_word_at(
    const uint8_t *formula, size_t formula_len,
    const uint8_t *table, size_t table_len,
    size_t place,
    bool *defined, size_t *start, size_t *length);

#ifdef __cplusplus
}
#endif

#endif
