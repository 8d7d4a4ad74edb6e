/* Measures the stack that one call needs. Each call runs in a thread of its own, whose stack was filled with one byte before; how far it was
 * overwritten, less what a thread needs that calls nothing, is what the call used. */
#include "lulzhemor.h"

#include <pthread.h>
#include <stdio.h>
#include <stdlib.h>
#include <string.h>

#define STACK (1 << 20)
#define FILL 0xA5

static uint8_t stack[STACK] __attribute__((aligned(4096)));
static uint8_t kinds[LULZHEMOR_NODES];
static uint64_t numbers[LULZHEMOR_NODES];
static uint8_t texts[LULZHEMOR_TEXTS];
static uint8_t out[65536];
static char line[LULZHEMOR_LINE_LIMIT + 1];
static size_t length;
static uint64_t answer, sizes[LULZHEMOR_FRONT];

#define TABLES kinds, sizeof kinds, numbers, LULZHEMOR_NODES, texts, sizeof texts

static void *nothing(void *unused) { return unused; }

static void *judge(void *unused) {
    answer = lulzhemor_judge(TABLES, (const uint8_t *)line, length);
    return unused;
}

static void *read_line(void *unused) {
    answer = lulzhemor_read_line(TABLES, sizes, (const uint8_t *)line, length);
    return unused;
}

static void *list_line(void *unused) {
    answer = lulzhemor_list_line(TABLES, out, sizeof out, (const uint8_t *)line, length, 1);
    return unused;
}

static void *read_entities(void *unused) {
    answer = lulzhemor_read_entities(TABLES, sizes, (const uint8_t *)line, length);
    return unused;
}

/* The line is both logs. */
static void *merge(void *unused) {
    const uint8_t *log = (const uint8_t *)line;
    answer = lulzhemor_merge(TABLES, out, sizeof out, log, length, log, length);
    return unused;
}

static size_t used(void *(*call)(void *)) {
    pthread_attr_t attributes;
    pthread_t thread;
    memset(stack, FILL, STACK);
    if (pthread_attr_init(&attributes) || pthread_attr_setstack(&attributes, stack, STACK) ||
        pthread_create(&thread, &attributes, call, NULL) || pthread_join(thread, NULL)) {
        fprintf(stderr, "no thread\n");
        exit(1);
    }
    size_t free_bytes = 0;
    while (free_bytes < STACK && stack[free_bytes] == FILL) free_bytes++;
    return STACK - free_bytes;
}

static void nest(const char *front, const char *open, const char *inside, const char *close, const char *behind, int levels) {
    char *to = line + sprintf(line, "%s", front);
    for (int i = 0; i < levels; i++) to += sprintf(to, "%s", open);
    to += sprintf(to, "%s", inside);
    for (int i = 0; i < levels; i++) to += sprintf(to, "%s", close);
    to += sprintf(to, "%s", behind);
    length = (size_t)(to - line);
}

static const char *said(void) {
    static char says[32];
    snprintf(says, sizeof says, lulzhemor_refused(answer) ? "refused %u" : "accepted", lulzhemor_refusal(answer));
    return says;
}

static void row(const char *what) {
    size_t base = used(nothing);
    size_t judged = used(judge), merged = used(merge), read = used(read_line), listed = used(list_line);
    printf("| %s | %s | %zu | %zu | %zu | %zu |\n", what, said(), judged - base, merged - base, read - base, listed - base);
}

static void entities_row(const char *what) {
    size_t read = used(read_entities) - used(nothing);
    printf("| %s | %s | %zu |\n", what, said(), read);
}

int main(void) {
    static const char arguments[] = "@0 D::\"a\"::k(v: ", entity[] = "@0 entities(C::\"a\": {v: ", behind[] = "}) D::\"a\"::k()";
    printf("| line | | judge | merge | read_line | list_line |\n|---|---|---:|---:|---:|---:|\n");
    nest("", "", "", "", "", 0);
    row("blank");
    nest(arguments, "", "1", "", ")", 0);
    row("one integer");
    nest(arguments, "[", "1", "]", ")", 128);
    row("arrays, 128 deep");
    nest(arguments, "[1, ", "1", "]", ")", 128);
    row("arrays with an item beside, 128 deep");
    nest(arguments, "{a: ", "\"\\n\"", "}", ")", 128);
    row("records, 128 deep");
    nest(arguments, "{b: 1, a: ", "C::\"\\n\"", "}", ")", 128);
    row("records with a field beside, 128 deep");
    nest(entity, "{a: ", "C::\"\\n\"", "}", behind, 127);
    row("records in an entry, 128 deep");
    nest(entity, "{\"a\": ", "1", "}", behind, 200);
    row("records in an entry, too deep");
    nest(arguments, "{a: ", "1", "}", ")", 200);
    row("records, too deep");
    nest("@0 scope(principal: ", "{a: ", "1", "}", ") D::\"a\"::k()", 128);
    row("records in scope, 128 deep");
    static const char cell[] = "[{\"uid\":{\"type\":\"C\",\"id\":\"a\"},\"attrs\":{\"v\":", close[] = "},\"parents\":[]}]";
    printf("\n| entities JSON | | read_entities |\n|---|---|---:|\n");
    nest(cell, "", "1", "", close, 0);
    entities_row("one integer");
    nest(cell, "[", "1", "]", close, 127);
    entities_row("arrays, 128 deep");
    nest(cell, "{\"a\":", "\"\\n\"", "}", close, 127);
    entities_row("records, 128 deep");
    nest(cell, "{\"a\":", "1", "}", close, 200);
    entities_row("records, too deep");
    nest("", "[", "", "]", "", 2048);
    entities_row("arrays nested to the end");
    return 0;
}
