/* Converts some correction formulas of a calibration bench, with definitions, one of them with small brackets too, and shows what the
 * words of one stand for. Built and run by embed/run-c. */
#include "jistranu.h"

#include <stdio.h>
#include <string.h>

static uint8_t work[JISTRANU_WORK_BYTES];
static uint8_t output[JISTRANU_OUTPUT_BYTES];
static uint8_t table[JISTRANU_TABLE_BYTES];
static size_t table_len;

/* Begins the table anew, in the wide form. */
static void begin_wide(void)
{
    table[0] = 0;
    table_len = 1;
}

/* Appends one record in the table's form. The lengths are within the limits of jistranu.h, and the table has room. */
static void define(const char *name, const char *latex)
{
    bool wide = table_len > 0 && table[0] == 0;
    size_t name_len = strlen(name), latex_len = strlen(latex);
    size_t header = name_len << (wide ? 13 : 10) | latex_len;
    if (wide)
        table[table_len++] = (uint8_t)(header >> 16);
    table[table_len++] = (uint8_t)(header >> 8);
    table[table_len++] = (uint8_t)header;
    memcpy(table + table_len, name, name_len);
    memcpy(table + table_len + name_len, latex, latex_len);
    table_len += name_len + latex_len;
}

static void print_latex(const char *formula, uint32_t field)
{
    size_t count;
    uint64_t answer = jistranu_typst_to_latex(
        (const uint8_t *)formula, strlen(formula), table, table_len, true, field,
        work, sizeof work, output, sizeof output, &count);
    if (answer == JISTRANU_DONE)
        printf("    %.*s\n", (int)count, (const char *)output);
    else
        printf("    refused %d\n", (int)answer);
}

static void convert(const char *formula)
{
    size_t atoms;
    printf("%s\n", formula);
    print_latex(formula, JISTRANU_ALL_TALL);
    if (jistranu_plain_check((const uint8_t *)formula, strlen(formula), &atoms))
        printf("    plain, %zu atoms\n", atoms);
}

static void convert_under(const char *formula, uint32_t field)
{
    printf("%s under %u\n", formula, (unsigned)field);
    print_latex(formula, field);
}

static void show_word(const char *formula, size_t place)
{
    bool defined;
    size_t start, length;
    uint64_t answer = jistranu_word_at(
        (const uint8_t *)formula, strlen(formula), table, table_len, place, &defined, &start, &length);
    printf("%s at %zu\n", formula, place);
    if (answer != JISTRANU_DONE)
        printf("    refused %d\n", (int)answer);
    else if (defined)
        printf("    defined as %.*s\n", (int)length, (const char *)table + start);
    else
        printf("    the word %.*s\n", (int)length, formula + start);
}

int main(void)
{
    define("gain", "\\mathrm{G}");
    convert("(a + 1)/b");
    convert("U_1 = U_0 10^(gain/20)");
    convert("L = 20 log_10 (U/U_0) \"dB\"");
    convert("f_0 = 1/(2 pi sqrt(L C))");
    convert("op(\"U (peak)\")_1");
    convert("lr(|)");
    begin_wide();
    define("gain", "\\mathrm{G}");
    define("Uref", "U_{\\mathrm{ref}}");
    convert("Uref/gain");
    convert_under("(U/U_0) [sqrt(R)]", JISTRANU_ALL_TALL);
    convert_under("(U/U_0) [sqrt(R)]", JISTRANU_TALL_SQRT);
    convert_under("(U/U_0) [sqrt(R)]", 32);
    show_word("gain/2 + x_gain", 0);
    show_word("gain/2 + x_gain", 4);
    show_word("gain/2 + x_gain", 5);
    show_word("gain/2 + x_gain", 11);
    return 0;
}
