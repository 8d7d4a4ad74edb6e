/* Judges the log on standard input: prints how many events it has, or the first refusal with its line. */
#include "lulzhemor.h"

#include <stdio.h>

static uint8_t input[LULZHEMOR_TEXT_LIMIT + 1], kinds[LULZHEMOR_NODES], texts[LULZHEMOR_TEXTS];
static uint64_t numbers[LULZHEMOR_NODES];

int main(void) {
    size_t length = fread(input, 1, sizeof input, stdin);
    uint64_t r = lulzhemor_judge(kinds, sizeof kinds, numbers, LULZHEMOR_NODES, texts, sizeof texts, input, length);
    if (lulzhemor_refused(r)) {
        printf("line %u: %s\n", (unsigned)lulzhemor_refusal_line(r), lulzhemor_refusal_text(lulzhemor_refusal(r)));
        return 1;
    }
    printf("events %u\n", (unsigned)r);
    return 0;
}
