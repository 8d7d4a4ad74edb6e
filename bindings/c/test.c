/* Calls every function of lulzhemor.h and compares answers, tables and outputs with what is known of them. Its last line is `ok`. */
#include "lulzhemor.h"

#include <stdio.h>
#include <stdlib.h>
#include <string.h>

/* Behind the bounds stands one entry more, which no call may change. */
static uint8_t kinds[LULZHEMOR_NODES + 1];
static uint64_t numbers[LULZHEMOR_NODES + 1];
static uint8_t texts[LULZHEMOR_TEXTS + 1];
static uint64_t sizes[LULZHEMOR_FRONT + 1];
static uint8_t out[4096];
static unsigned checks;

#define CHECK(fact)                                                           \
    do {                                                                      \
        checks += 1;                                                          \
        if (!(fact)) {                                                        \
            fprintf(stderr, "%s:%d: not so: %s\n", __FILE__, __LINE__, #fact); \
            exit(1);                                                          \
        }                                                                     \
    } while (0)

#define BYTES(text) (const uint8_t *)(text), strlen(text)
#define TABLES kinds, sizeof kinds, numbers, LULZHEMOR_NODES + 1, texts, sizeof texts

static const char EVENT[] =
    "@40 scope(principal: Planner::\"night\") entities(Cell::\"K'7\": {dug: true}) "
    "Dig::Action::\"release\"::request(cell: Cell::\"K\\'7\", depth: 12.50, left: -2)";

static const char LISTING[] =
    "event 3 at 40\n"
    "principal e\"Planner\" \"night\"\n"
    "name \"Dig\" \"Action\"\n"
    "action \"release\"\n"
    "kind \"request\"\n"
    "logged {\"cell\":e\"Cell\" \"K\\'7\",\"depth\":d\"12.50\",\"left\":i-2}\n"
    "context {}\n"
    "entity \"Cell::\\\"K\\\\\\'7\\\"\" {\"dug\":true} []\n";

static void fill(void) {
    memset(kinds, 77, sizeof kinds);
    memset(texts, 77, sizeof texts);
    memset(out, 77, sizeof out);
    for (size_t i = 0; i <= LULZHEMOR_NODES; i++) numbers[i] = 77;
    for (size_t i = 0; i <= LULZHEMOR_FRONT; i++) sizes[i] = 77;
}

/* The tables hold so many nodes and text bytes, zeros behind, and what stood past their bounds. */
static bool used(size_t nodes, size_t bytes) {
    for (size_t i = nodes; i < LULZHEMOR_NODES; i++)
        if (kinds[i] != 0 || numbers[i] != 0) return false;
    for (size_t i = bytes; i < LULZHEMOR_TEXTS; i++)
        if (texts[i] != 0) return false;
    return kinds[LULZHEMOR_NODES] == 77 && numbers[LULZHEMOR_NODES] == 77 && texts[LULZHEMOR_TEXTS] == 77;
}

static bool untouched(void) {
    for (size_t i = 0; i <= LULZHEMOR_NODES; i++)
        if (kinds[i] != 77 || numbers[i] != 77) return false;
    for (size_t i = 0; i <= LULZHEMOR_TEXTS; i++)
        if (texts[i] != 77) return false;
    return true;
}

/* The output begins with the text, and what stands behind is as it was. */
static bool wrote(const char *text) {
    size_t n = strlen(text);
    for (size_t i = n; i < sizeof out; i++)
        if (out[i] != 77) return false;
    return memcmp(out, text, n) == 0;
}

/* The array of sizes holds these, and what stood past it. */
static bool sized(uint64_t nodes, uint64_t bytes) {
    return sizes[LULZHEMOR_FRONT_NODES] == nodes && sizes[LULZHEMOR_FRONT_TEXTS] == bytes && sizes[LULZHEMOR_FRONT] == 77;
}

static bool node(size_t at, uint8_t kind, uint64_t number) { return kinds[at] == kind && numbers[at] == number; }

static bool text_node(size_t at, uint8_t kind, const char *text) {
    uint32_t start = lulzhemor_text_start(numbers[at]), length = lulzhemor_text_length(numbers[at]);
    return kinds[at] == kind && length == strlen(text) && memcmp(texts + start, text, length) == 0;
}

static void judging(void) {
    fill();
    CHECK(lulzhemor_judge(TABLES, BYTES("@1 A::\"b\"::c()\n\n@2 A::\"b\"::c()\n")) == 2);
    CHECK(used(0, 0));
    fill();
    uint64_t r = lulzhemor_judge(TABLES, BYTES("@1 A::\"b\"::c()\n\n@0 )("));
    CHECK(lulzhemor_refused(r) && lulzhemor_refusal(r) == LULZHEMOR_EVENT_OUT_OF_ORDER && lulzhemor_refusal_line(r) == 3);
    CHECK(used(0, 0));
    r = lulzhemor_judge(TABLES, BYTES("\xff"));
    CHECK(lulzhemor_refused(r) && lulzhemor_refusal(r) == LULZHEMOR_NOT_UTF8 && lulzhemor_refusal_line(r) == 0);
    static uint8_t long_log[LULZHEMOR_TEXT_LIMIT + 1];
    memset(long_log, '\n', sizeof long_log);
    CHECK(lulzhemor_judge(TABLES, long_log, LULZHEMOR_TEXT_LIMIT) == 0);
    CHECK(lulzhemor_judge(TABLES, long_log, sizeof long_log) == LULZHEMOR_REFUSED + LULZHEMOR_TEXT_TOO_LONG);
    long_log[LULZHEMOR_TEXT_LIMIT - 1] = 'x';
    r = lulzhemor_judge(TABLES, long_log, LULZHEMOR_TEXT_LIMIT);
    CHECK(lulzhemor_refusal(r) == LULZHEMOR_NO_AT && lulzhemor_refusal_line(r) == LULZHEMOR_TEXT_LIMIT);
    fill();
    r = lulzhemor_judge(kinds, LULZHEMOR_NODES - 1, numbers, LULZHEMOR_NODES, texts, LULZHEMOR_TEXTS, BYTES("@0 )("));
    CHECK(r == LULZHEMOR_REFUSED + LULZHEMOR_TABLE_TOO_SHORT && untouched());
}

/* Number, log and line of a refusal. */
static bool refused(uint64_t r, unsigned number, unsigned log, uint32_t line) {
    return lulzhemor_refused(r) && lulzhemor_refusal(r) == number && lulzhemor_refusal_log(r) == log && lulzhemor_refusal_line(r) == line;
}

#define ONE "@1 ::\"\"::k()\n"
#define TWO "@2 ::\"\"::k()\n"

static void merging(void) {
    static const char first[] = "\xef\xbb\xbf @-1 ::\"\"::a()\r\n\n@5 ::\"\"::b() tail\t", second[] = "@+5 ::\"\"::c()\n@5 ::\"\"::d()\n";
    static const char merged[] = "@-1 ::\"\"::a()\n@5 ::\"\"::b() tail\n@+5 ::\"\"::c()\n@5 ::\"\"::d()\n";
    fill();
    CHECK(lulzhemor_merge(TABLES, out, sizeof out, BYTES(first), BYTES(second)) == strlen(merged));
    CHECK(wrote(merged) && used(0, 0));
    fill();
    CHECK(lulzhemor_merge(TABLES, out, strlen(merged), BYTES(first), BYTES(second)) == strlen(merged) && wrote(merged));
    fill();
    CHECK(lulzhemor_merge(TABLES, out, sizeof out, BYTES(second), BYTES(ONE TWO)) == 4 * strlen(ONE) + 1);
    CHECK(wrote(ONE TWO "@+5 ::\"\"::c()\n@5 ::\"\"::d()\n"));
    fill();
    CHECK(lulzhemor_merge(TABLES, out, 0, BYTES(""), BYTES(" \n\t")) == 0 && wrote("") && used(0, 0));
}

static bool is_old(const uint8_t *bytes, size_t n) {
    for (size_t i = 0; i < n; i++)
        if (bytes[i] != 77) return false;
    return true;
}

/* Two logs are refused so, with an output of so many bytes: all of it is as it was, and the tables are cleared. */
static bool refuses(size_t size, const uint8_t *first, size_t first_length, const uint8_t *second, size_t second_length, unsigned number,
                    unsigned log, uint32_t line) {
    static uint8_t room[LULZHEMOR_TEXT_LIMIT + 1];
    memset(room, 77, sizeof room);
    fill();
    uint64_t r = lulzhemor_merge(TABLES, room, size, first, first_length, second, second_length);
    return refused(r, number, log, line) && is_old(room, sizeof room) && used(0, 0);
}

static void merging_refused(void) {
    size_t n = LULZHEMOR_TEXT_LIMIT;
    CHECK(refuses(strlen(ONE) - 1, BYTES(ONE), BYTES(""), LULZHEMOR_OUTPUT_TOO_SHORT, 0, 0));
    CHECK(refuses(n, BYTES(TWO "\n" ONE), BYTES(TWO ONE), LULZHEMOR_TIMES_FALL_IN_FIRST, 1, 3));
    CHECK(refuses(n, BYTES(TWO TWO), BYTES(TWO ONE), LULZHEMOR_TIMES_FALL_IN_SECOND, 2, 2));
    CHECK(refuses(n, BYTES(TWO ONE), BYTES(TWO "x"), LULZHEMOR_NO_AT, 2, 2));
    CHECK(refuses(n, BYTES("\xff"), BYTES("x"), LULZHEMOR_NOT_UTF8, 1, 0));
    /* Refusal 1 leaves the tables too. */
    fill();
    for (size_t each = 0; each < 3; each++) {
        uint64_t r = lulzhemor_merge(kinds, LULZHEMOR_NODES - (each == 0), numbers, LULZHEMOR_NODES - (each == 1), texts,
                                     LULZHEMOR_TEXTS - (each == 2), out, sizeof out, BYTES("x"), BYTES("\xff"));
        CHECK(refused(r, LULZHEMOR_TABLE_TOO_SHORT, 0, 0) && untouched() && wrote(""));
    }
}

/* A text with so many copies of another at a place of it. */
static size_t widened(uint8_t *to, const char *before, const char *each, size_t times, const char *behind) {
    size_t n = strlen(before);
    memcpy(to, before, n);
    for (size_t i = 0; i < times; i++, n += strlen(each)) memcpy(to + n, each, strlen(each));
    memcpy(to + n, behind, strlen(behind));
    return n + strlen(behind);
}

/* Logs at the limit: one that merges into as many bytes as it has, and one whose last line lacks its line feed. */
static void merging_long(void) {
    static uint8_t log[LULZHEMOR_TEXT_LIMIT + 1], room[LULZHEMOR_TEXT_LIMIT + 1];
    size_t n = LULZHEMOR_TEXT_LIMIT;
    CHECK(widened(log, "", ONE, 5040, "@1 ::\"\"::kkkk()\n") == n);
    memset(room, 77, sizeof room);
    CHECK(lulzhemor_merge(TABLES, room, sizeof room, BYTES(""), log, n) == n && memcmp(room, log, n) == 0 && room[n] == 77);
    CHECK(refuses(n - 1, log, n, BYTES(""), LULZHEMOR_OUTPUT_TOO_SHORT, 0, 0));
    CHECK(widened(log, "", ONE, 5040, "@1 ::\"\"::kkkkk()") == n);
    CHECK(refuses(n + 1, log, n, BYTES(""), LULZHEMOR_MERGED_TOO_LONG, 0, 0));
    CHECK(refuses(0, log, n, BYTES(""), LULZHEMOR_MERGED_TOO_LONG, 0, 0));
    CHECK(refuses(n + 1, log, n + 1, BYTES("x"), LULZHEMOR_TEXT_TOO_LONG, 1, 0));
    CHECK(refuses(n + 1, BYTES(""), log, n + 1, LULZHEMOR_TEXT_TOO_LONG, 2, 0));
    memset(log, '\n', n - 1);
    log[n - 1] = 'x';
    CHECK(refuses(n + 1, BYTES(""), log, n, LULZHEMOR_NO_AT, 2, LULZHEMOR_TEXT_LIMIT));
}

static void reading(void) {
    fill();
    CHECK(lulzhemor_read_line(TABLES, sizes, BYTES(EVENT)) == LULZHEMOR_EVENT && sized(26, 75));
    CHECK(used(26, 75));
    CHECK(node(0, LULZHEMOR_INTEGER, 40) && node(1, LULZHEMOR_ENTITY, 0));
    CHECK(text_node(2, LULZHEMOR_TEXT, "Planner") && text_node(3, LULZHEMOR_TEXT, "night") && node(4, LULZHEMOR_ABSENT, 0));
    CHECK(node(5, LULZHEMOR_ARRAY, 2) && text_node(6, LULZHEMOR_TEXT, "Dig") && text_node(7, LULZHEMOR_TEXT, "Action"));
    CHECK(text_node(8, LULZHEMOR_TEXT, "release") && text_node(9, LULZHEMOR_TEXT, "request"));
    CHECK(node(10, LULZHEMOR_RECORD, 3) && text_node(11, LULZHEMOR_TEXT, "cell") && node(12, LULZHEMOR_ENTITY, 0));
    CHECK(text_node(13, LULZHEMOR_TEXT, "Cell") && text_node(14, LULZHEMOR_TEXT, "K'7"));
    CHECK(text_node(15, LULZHEMOR_TEXT, "depth") && text_node(16, LULZHEMOR_DECIMAL, "12.50"));
    CHECK(text_node(17, LULZHEMOR_TEXT, "left") && node(18, LULZHEMOR_INTEGER, (uint64_t)-2));
    CHECK(node(19, LULZHEMOR_RECORD, 0) && node(20, LULZHEMOR_RECORD, 1) && text_node(21, LULZHEMOR_TEXT, "Cell::\"K\\'7\""));
    CHECK(node(22, LULZHEMOR_RECORD, 1) && text_node(23, LULZHEMOR_TEXT, "dug") && node(24, LULZHEMOR_TRUE, 0));
    CHECK(node(25, LULZHEMOR_ARRAY, 0));
    fill();
    CHECK(lulzhemor_read_line(TABLES, sizes, BYTES(" \r\n")) == LULZHEMOR_BLANK && used(0, 0) && sized(77, 77));
    fill();
    CHECK(lulzhemor_read_line(TABLES, sizes, BYTES("@0 )(")) == LULZHEMOR_REFUSED + LULZHEMOR_EVENT_OUT_OF_ORDER);
    CHECK(used(0, 0) && sized(77, 77));
    fill();
    uint64_t r = lulzhemor_read_line(kinds, sizeof kinds, numbers, LULZHEMOR_NODES - 1, texts, sizeof texts, sizes, BYTES(EVENT));
    CHECK(r == LULZHEMOR_REFUSED + LULZHEMOR_TABLE_TOO_SHORT && untouched() && sized(77, 77));
}

#define ENTITY "{\"uid\":{\"type\":\"Cell\",\"id\":\"K'7\"},\"attrs\":{},\"parents\":[]}"

/* Members in another order than the pack's, all kinds of values but false, escapes in a name and in an id. */
static const char CELLS[] =
    "[{\"parents\":[{\"type\":\"Site\",\"id\":\"A\"}],\"attrs\":{\"dug\":true,\"left\":-2,"
    "\"at\":{\"\\u005f_entity\":{\"id\":\"A\",\"type\":\"Site\"}},\"m\":[\"n\",null,{}]},\"uid\":{\"type\":\"Cell\",\"id\":\"K\\u00277\"}}]";

static void reading_entities(void) {
    fill();
    CHECK(lulzhemor_read_entities(TABLES, sizes, BYTES("\t[ ]\r\n")) == LULZHEMOR_PACK && sized(9, 0) && used(9, 0));
    for (size_t i = 0; i < 3; i++) CHECK(node(i, LULZHEMOR_ABSENT, 0) && node(6 + i, LULZHEMOR_RECORD, 0));
    CHECK(node(3, LULZHEMOR_ARRAY, 0) && node(4, LULZHEMOR_TEXT, 0) && node(5, LULZHEMOR_TEXT, 0));
    fill();
    CHECK(lulzhemor_read_entities(TABLES, sizes, BYTES(CELLS)) == LULZHEMOR_PACK && sized(28, 33) && used(28, 33));
    CHECK(node(8, LULZHEMOR_RECORD, 1) && text_node(9, LULZHEMOR_TEXT, "Cell::\"K\\'7\"") && node(10, LULZHEMOR_RECORD, 4));
    CHECK(text_node(11, LULZHEMOR_TEXT, "dug") && node(12, LULZHEMOR_TRUE, 0));
    CHECK(text_node(13, LULZHEMOR_TEXT, "left") && node(14, LULZHEMOR_INTEGER, (uint64_t)-2));
    CHECK(text_node(15, LULZHEMOR_TEXT, "at") && node(16, LULZHEMOR_ENTITY, 0));
    CHECK(text_node(17, LULZHEMOR_TEXT, "Site") && text_node(18, LULZHEMOR_TEXT, "A"));
    CHECK(text_node(19, LULZHEMOR_TEXT, "m") && node(20, LULZHEMOR_ARRAY, 3) && text_node(21, LULZHEMOR_STRING, "n"));
    CHECK(node(22, LULZHEMOR_NULL, 0) && node(23, LULZHEMOR_RECORD, 0) && node(24, LULZHEMOR_ARRAY, 1) && node(25, LULZHEMOR_ENTITY, 0));
    CHECK(text_node(26, LULZHEMOR_TEXT, "Site") && text_node(27, LULZHEMOR_TEXT, "A"));
}

/* Entities JSON is refused so: the tables are cleared, and the sizes as they were. */
static bool no_entities(const uint8_t *text, size_t length, unsigned number) {
    fill();
    return lulzhemor_read_entities(TABLES, sizes, text, length) == LULZHEMOR_REFUSED + number && used(0, 0) && sized(77, 77);
}

static void reading_entities_refused(void) {
    static uint8_t text[LULZHEMOR_TEXT_LIMIT + 1];
    memset(text, ' ', sizeof text);
    text[0] = '[', text[1] = ']';
    fill();
    CHECK(lulzhemor_read_entities(TABLES, sizes, text, LULZHEMOR_JSON_LIMIT) == LULZHEMOR_PACK && sized(9, 0) && used(9, 0));
    CHECK(no_entities(text, LULZHEMOR_JSON_LIMIT + 1, LULZHEMOR_LINE_TOO_LONG));
    CHECK(no_entities(text, LULZHEMOR_TEXT_LIMIT, LULZHEMOR_LINE_TOO_LONG));
    CHECK(no_entities(text, LULZHEMOR_TEXT_LIMIT + 1, LULZHEMOR_TEXT_TOO_LONG));
    CHECK(no_entities(BYTES("[\"\xc3\"]"), LULZHEMOR_NOT_UTF8));
    CHECK(no_entities(BYTES(""), LULZHEMOR_NOT_JSON) && no_entities(BYTES("{} x"), LULZHEMOR_NOT_JSON));
    CHECK(no_entities(BYTES("[1,\"\\ud800\"]"), LULZHEMOR_NOT_JSON) && no_entities(BYTES("[1,\"\\ud800\\udc00\"]"), LULZHEMOR_NOT_ENTITIES));
    CHECK(no_entities(BYTES("[{\"uid\":{\"type\":\" Cell\",\"id\":\"K'7\"},\"attrs\":{},\"parents\":[]}]"), LULZHEMOR_NOT_ENTITIES));
    CHECK(no_entities(BYTES("[{\"attrs\":{\"a\":1,\"\\u0061\":2}}]"), LULZHEMOR_DUPLICATE_FIELD));
    CHECK(no_entities(BYTES("[" ENTITY "," ENTITY "]"), LULZHEMOR_DUPLICATE_KEY));
    size_t n = widened(text, "[{\"attrs\":{\"a\":", "[", 129, "");
    n += widened(text + n, "", "]", 129, "}}]");
    CHECK(no_entities(text, n, LULZHEMOR_VALUE_TOO_DEEP));
    for (size_t each = 0; each < 3; each++) {
        fill();
        uint64_t r = lulzhemor_read_entities(kinds, LULZHEMOR_NODES - (each == 0), numbers, LULZHEMOR_NODES - (each == 1), texts,
                                             LULZHEMOR_TEXTS - (each == 2), sizes, BYTES("[]"));
        CHECK(r == LULZHEMOR_REFUSED + LULZHEMOR_TABLE_TOO_SHORT && untouched() && sized(77, 77));
    }
}

static void listing(void) {
    fill();
    CHECK(lulzhemor_list_line(TABLES, out, sizeof out, BYTES(EVENT), 3) == strlen(LISTING));
    CHECK(wrote(LISTING) && used(0, 0));
    fill();
    CHECK(lulzhemor_list_line(TABLES, out, strlen(LISTING), BYTES(EVENT), 3) == strlen(LISTING) && wrote(LISTING));
    fill();
    uint64_t r = lulzhemor_list_line(TABLES, out, strlen(LISTING) - 1, BYTES(EVENT), 3);
    CHECK(r == LULZHEMOR_REFUSED + LULZHEMOR_OUTPUT_TOO_SHORT && wrote("") && used(0, 0));
    CHECK(lulzhemor_list_line(TABLES, out, sizeof out, BYTES("\t"), 3) == LULZHEMOR_BLANK && wrote(""));
    fill();
    r = lulzhemor_list_line(kinds, sizeof kinds, numbers, LULZHEMOR_NODES, texts, LULZHEMOR_TEXTS - 1, out, sizeof out, BYTES(EVENT), 3);
    CHECK(r == LULZHEMOR_REFUSED + LULZHEMOR_TABLE_TOO_SHORT && untouched() && wrote(""));
}

/* The longest lines: each character of one lists as six bytes, and of one as seven, since it stands in an id, which is escaped in its key. */
static void long_listing(void) {
    static uint8_t line[LULZHEMOR_LINE_LIMIT], expected[8 * LULZHEMOR_LINE_LIMIT], room[LULZHEMOR_LISTING_ROOM];
    size_t wide = sizeof line - strlen("@1 ::\"\"::k(:)");
    CHECK(widened(line, "@1 ::\"\"::k(", "\x7f", wide, ":)") == sizeof line);
    size_t n = widened(expected, "event 18446744073709551615 at 1\nname \"\"\naction \"\"\nkind \"k\"\nlogged {\"", "\\u{7f}", wide,
                       "\":s\"\"}\ncontext {}\n");
    CHECK(lulzhemor_list_line(TABLES, room, sizeof room, line, sizeof line, UINT64_MAX) == n && memcmp(room, expected, n) == 0);
    wide = sizeof line - strlen("@0 entities(::\"\":{})::\"\"::k()");
    CHECK(widened(line, "@0 entities(::\"", "\x7f", wide, "\":{})::\"\"::k()") == sizeof line);
    n = widened(expected, "event 18446744073709551615 at 0\nname \"\"\naction \"\"\nkind \"k\"\nlogged {}\ncontext {}\nentity \"::\\\"",
                "\\\\u{7f}", wide, "\\\"\" {} []\n");
    CHECK(n == 28571);
    CHECK(lulzhemor_list_line(TABLES, room, sizeof room, line, sizeof line, UINT64_MAX) == n && memcmp(room, expected, n) == 0);
    memset(room, 77, sizeof room);
    uint64_t r = lulzhemor_list_line(TABLES, room, n - 1, line, sizeof line, UINT64_MAX);
    CHECK(r == LULZHEMOR_REFUSED + LULZHEMOR_OUTPUT_TOO_SHORT && is_old(room, sizeof room));
    /* Twelve bytes list in seven for each, and one, as LULZHEMOR_LISTING_ROOM has it of the longest line. */
    CHECK(lulzhemor_list_line(TABLES, room, sizeof room, BYTES("@0 ::\"\"::\x7f()"), UINT64_MAX) == 7 * 12 + 1);
    CHECK(LULZHEMOR_LISTING_ROOM == 7 * LULZHEMOR_LINE_LIMIT + 1);
}

static bool is_refusal(unsigned n) { return (n >= 1 && n <= 5) || (n >= 10 && n <= 37) || (n >= 45 && n <= 47); }

/* Each number has a text of its own; all others share one. */
static void refusal_texts(void) {
    const char *unknown = lulzhemor_refusal_text(0);
    CHECK(strcmp(unknown, "unknown refusal") == 0);
    for (unsigned n = 1; n <= 300; n++) CHECK((strcmp(lulzhemor_refusal_text(n), unknown) != 0) == is_refusal(n));
    for (unsigned n = 1; n <= 47; n++)
        for (unsigned m = 1; is_refusal(n) && m < n; m++) CHECK(strcmp(lulzhemor_refusal_text(n), lulzhemor_refusal_text(m)) != 0);
    CHECK(strcmp(lulzhemor_refusal_text(LULZHEMOR_EVENT_OUT_OF_ORDER), "the last ) stands before the first (") == 0);
}

static void texts_alone(void) {
    CHECK(lulzhemor_is_utf8(BYTES("K\xc3\xa9")) && !lulzhemor_is_utf8(BYTES("K\xc3")));
    uint64_t places[3] = {77, 77, 77};
    CHECK(lulzhemor_cut_body(places, 3, BYTES("a,(b,c),\"d,e\"")) == 2);
    CHECK(places[0] == 1 && places[1] == 7 && places[2] == 77);
    CHECK(lulzhemor_cut_body(places, 0, BYTES("a,b")) == LULZHEMOR_REFUSED + LULZHEMOR_OUTPUT_TOO_SHORT);
    fill();
    CHECK(lulzhemor_decode(out, sizeof out, BYTES("\\u{4_1}\\x4\\u{_41}")) == 9 && wrote("A\x04\\u{_41}"));
    fill();
    CHECK(lulzhemor_decode(out, 1, BYTES("ab")) == LULZHEMOR_REFUSED + LULZHEMOR_OUTPUT_TOO_SHORT && wrote(""));
    CHECK(lulzhemor_spell_key(out, sizeof out, BYTES("Cell"), BYTES("K'7")) == 12 && wrote("Cell::\"K\\'7\""));
    static uint8_t long_id[LULZHEMOR_LINE_LIMIT + 1];
    memset(long_id, 'a', sizeof long_id);
    CHECK(lulzhemor_spell_key(out, sizeof out, BYTES("Cell"), long_id, sizeof long_id) == LULZHEMOR_REFUSED + LULZHEMOR_LINE_TOO_LONG);
}

int main(void) {
    judging();
    merging();
    merging_refused();
    merging_long();
    reading();
    reading_entities();
    reading_entities_refused();
    listing();
    long_listing();
    refusal_texts();
    texts_alone();
    printf("%u checks\nok\n", checks);
    return 0;
}
