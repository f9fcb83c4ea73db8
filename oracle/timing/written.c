/* Converts each line of standard input once, between two stores to `mark`, for a trace of what is stored in `work`. */
#include "jistranu.h"

#include <stdio.h>
#include <string.h>

static uint8_t work[JISTRANU_WORK_BYTES];
static uint8_t output[JISTRANU_OUTPUT_BYTES];
static volatile uint64_t mark;

int main(void) {
    static char line[JISTRANU_FORMULA_BYTES + 2];
    printf("%p %p %p\n", (void *)work, (void *)(work + sizeof work), (void *)&mark);
    while (fgets(line, sizeof line, stdin) != NULL) {
        size_t count;
        mark = 1;
        jistranu_typst_to_latex((const uint8_t *)line, strcspn(line, "\n"), (const uint8_t *)"", 0, true, JISTRANU_ALL_TALL, work,
                                sizeof work, output, sizeof output, &count);
        mark = 2;
    }
    return 0;
}
