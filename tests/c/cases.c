/* Case M by texts from C, then card 2, which is refused, card 5, which has no functions, and a sheet that is not in form. */
#include "lavrindes.h"

#include <stdio.h>
#include <string.h>

static const char before[] = "tile\t1\t4\t100\nT\t1\t4\t0\t0\t-1\t\nV\t0\t\t\nV\t0\t\t\nV\t0\t1\t0\nV\t0\t3\t0\n"
                             "O\t22\t\t\t0\nO\t3\t0\t0,1\t\nO\t38\t\t2\t1\nO\t3\t0\t2,0\t\n";
static const char after[] = "B\t0,1\t1,2,4\nB\t\t3\nR\t0\nR\t1\nF\t0\n";

static uint64_t t[LAVRINDES_T], v[LAVRINDES_V], l[LAVRINDES_L], sheet[LAVRINDES_SHEET];
static uint32_t o[LAVRINDES_O], a[LAVRINDES_A], b[LAVRINDES_B], r[LAVRINDES_R], f[LAVRINDES_F];
static uint64_t numbers[LAVRINDES_NUMBERS], lengths[LAVRINDES_LENGTHS];

/* Prints the verdict as the paper has it. A length that is still UINT64_MAX was not written: there are no more functions. */
static void check(const char *sheet_text, const char *text) {
    uint64_t answer[LAVRINDES_ANSWER];
    size_t next = 0;
    memset(lengths, 0xff, sizeof lengths);
    lavrindes_check_texts((const uint8_t *)sheet_text, strlen(sheet_text), (const uint8_t *)text, strlen(text), t, LAVRINDES_T, v,
        LAVRINDES_V, o, LAVRINDES_O, a, LAVRINDES_A, b, LAVRINDES_B, r, LAVRINDES_R, f, LAVRINDES_F, l, LAVRINDES_L, sheet,
        LAVRINDES_SHEET, numbers, LAVRINDES_NUMBERS, lengths, LAVRINDES_LENGTHS, answer, LAVRINDES_ANSWER);
    if (answer[0] != 0) {
        printf("no\t%llu\t%llu\t%llu\n", (unsigned long long)answer[0], (unsigned long long)answer[1], (unsigned long long)answer[2]);
        return;
    }
    printf("ok\n");
    for (size_t i = 0; i < LAVRINDES_LENGTHS && lengths[i] != UINT64_MAX; i++) {
        printf("n\t%zu\t", i);
        for (uint64_t k = 0; k < lengths[i]; k++) printf(k ? ",%llu" : "%llu", (unsigned long long)numbers[next++]);
        printf("\n");
    }
}

int main(void) {
    char text[1024];
    snprintf(text, sizeof text, "%sO\t74\t\t2\t\n%s", before, after);
    check("sheet\t1\n", text);
    snprintf(text, sizeof text, "%sO\t74\t\t3\t\n%s", before, after);
    check("sheet\t1\n", text);
    check("sheet\t1\n", "tile\t1\t4\t100\n");
    check("sheet\t2\n", text);
    return 0;
}
