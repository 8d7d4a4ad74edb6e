/*
 * Lulzhemor: reads the .log format of the policy engine Dogwood, and Cedar's entities JSON. Every function here is proved to return, to stay
 * inside what it is lent, and to answer what its definition says, on every input. Nothing is kept between calls, nothing is allocated.
 *
 * Link with crates/lulzhemor/out/liblulzhemor.a (`rt lib` in crates/lulzhemor), for x86-64 Linux.
 *
 * What the caller sees to, for every pointer with its length, and for an array, whose length stands in brackets:
 *   - it is not null, also where the length is 0;
 *   - so many entries may be read there, and written where the parameter is not const;
 *   - an output or table overlaps nothing else that is handed to the same call.
 * Any bytes may stand in texts, tables and outputs before a call. Calls with different tables may run at the same time.
 */
#ifndef LULZHEMOR_H
#define LULZHEMOR_H

#include <stdbool.h>
#include <stddef.h>
#include <stdint.h>

#ifdef __cplusplus
extern "C" {
#endif

/* ---- Bounds ---- */

/* A log or any other text, in bytes: refusal 2 above this, and 47 for a merged log. An output of so many bytes is never too short for one. */
#define LULZHEMOR_TEXT_LIMIT 65536
/* A trimmed line, a body, an id or a type, in bytes: refusal 4 above this. */
#define LULZHEMOR_LINE_LIMIT 4096
/* Entities JSON, in bytes, nothing trimmed: refusal 4 above this. */
#define LULZHEMOR_JSON_LIMIT 4096
/* The least entries of a pack's kinds and of its numbers, and of its text bytes: refusal 1 below this. A longer table is used this far. */
#define LULZHEMOR_NODES 8192
#define LULZHEMOR_TEXTS 32768
/* The entries of the array of sizes that lulzhemor_read_line and lulzhemor_read_entities are lent, and what they are. */
#define LULZHEMOR_FRONT 2
enum lulzhemor_front {
    LULZHEMOR_FRONT_NODES = 0, /* how many nodes the pack has */
    LULZHEMOR_FRONT_TEXTS = 1  /* how many text bytes */
};
/* A listing's output of so many bytes is never refused with 5. No event lists in more than seven bytes for each byte of its trimmed line,
 * and one, by the law `listing_by_bytes` in crates/listing/proofs/Longest.antt. */
#define LULZHEMOR_LISTING_ROOM 28673

/* ---- Answers ----
 * One number each. A success is below LULZHEMOR_REFUSED, a refusal is LULZHEMOR_REFUSED and its number, from lulzhemor_judge and
 * lulzhemor_merge 256 times its line more, and from lulzhemor_merge 2^26 times its log more. Lines count from 1, and line 0 is the whole
 * text. Log 1 is the first, 2 the second, and 0 neither: the refusal speaks of the tables, of the merged log or of the output. */

#define LULZHEMOR_REFUSED (UINT64_C(1) << 32)

/* What lulzhemor_read_line answers of a line that has an event, and of a blank one. lulzhemor_list_line answers the same of a blank one. */
#define LULZHEMOR_EVENT UINT64_C(1)
#define LULZHEMOR_BLANK UINT64_C(0)
/* What lulzhemor_read_entities answers of a text that it has read. */
#define LULZHEMOR_PACK UINT64_C(1)

static inline bool lulzhemor_refused(uint64_t answer) { return answer >= LULZHEMOR_REFUSED; }

/* A refusal's number, one of enum lulzhemor_refusal. */
static inline unsigned lulzhemor_refusal(uint64_t answer) { return (unsigned)(answer & 255); }

/* The line of a refusal of lulzhemor_judge or lulzhemor_merge. */
static inline uint32_t lulzhemor_refusal_line(uint64_t answer) { return (uint32_t)(answer >> 8) & 0x3FFFF; }

/* The log of a refusal of lulzhemor_merge. */
static inline unsigned lulzhemor_refusal_log(uint64_t answer) { return (unsigned)(answer >> 26) & 3; }

/* What each stands for: lulzhemor_refusal_text. */
enum lulzhemor_refusal {
    LULZHEMOR_TABLE_TOO_SHORT = 1,
    LULZHEMOR_TEXT_TOO_LONG = 2,
    LULZHEMOR_NOT_UTF8 = 3,
    LULZHEMOR_LINE_TOO_LONG = 4,
    LULZHEMOR_OUTPUT_TOO_SHORT = 5,
    LULZHEMOR_NO_AT = 10,
    LULZHEMOR_NO_SPACE_AFTER_TIME = 11,
    LULZHEMOR_BAD_TIME = 12,
    LULZHEMOR_SCOPE_UNCLOSED = 13,
    LULZHEMOR_ENTITIES_UNCLOSED = 14,
    LULZHEMOR_CONTEXT_UNCLOSED = 15,
    LULZHEMOR_EVENT_UNOPENED = 16,
    LULZHEMOR_EVENT_UNCLOSED = 17,
    LULZHEMOR_EVENT_OUT_OF_ORDER = 18,
    LULZHEMOR_NO_ACTION = 19,
    LULZHEMOR_ACTION_UNTERMINATED = 20,
    LULZHEMOR_NO_KIND = 21,
    LULZHEMOR_ARGUMENT_WITHOUT_COLON = 22,
    LULZHEMOR_DUPLICATE_ARGUMENT = 23,
    LULZHEMOR_VALUE_TOO_DEEP = 24,
    LULZHEMOR_FIELD_WITHOUT_COLON = 25,
    LULZHEMOR_DUPLICATE_FIELD = 26,
    LULZHEMOR_ENTRY_WITHOUT_RECORD = 27,
    LULZHEMOR_ENTRY_WITHOUT_COLON = 28,
    LULZHEMOR_ENTRY_UNTERMINATED = 29,
    LULZHEMOR_TEXT_AFTER_RECORD = 30,
    LULZHEMOR_PARENTS_NOT_BRACKETED = 31,
    LULZHEMOR_PARENT_NO_ENTITY = 32,
    LULZHEMOR_KEY_NO_ENTITY = 33,
    LULZHEMOR_DUPLICATE_KEY = 34,
    LULZHEMOR_ENTRY_NOT_A_RECORD = 35,
    LULZHEMOR_NOT_JSON = 36,
    LULZHEMOR_NOT_ENTITIES = 37,
    LULZHEMOR_TIMES_FALL_IN_FIRST = 45,
    LULZHEMOR_TIMES_FALL_IN_SECOND = 46,
    LULZHEMOR_MERGED_TOO_LONG = 47
};

/* A refusal in words, as docs/MANUAL.md has it; its table has a remedy for each. */
static inline const char *lulzhemor_refusal_text(unsigned refusal) {
    switch (refusal) {
    case LULZHEMOR_TABLE_TOO_SHORT: return "a pack table is too short";
    case LULZHEMOR_TEXT_TOO_LONG: return "the text has over 65,536 bytes";
    case LULZHEMOR_NOT_UTF8: return "the text is not UTF-8";
    case LULZHEMOR_LINE_TOO_LONG: return "a trimmed line (or a body, id, type or entities JSON) has over 4,096 bytes";
    case LULZHEMOR_OUTPUT_TOO_SHORT: return "the output is too short for the answer";
    case LULZHEMOR_NO_AT: return "the line does not begin with @";
    case LULZHEMOR_NO_SPACE_AFTER_TIME: return "no whitespace behind the time";
    case LULZHEMOR_BAD_TIME: return "the time is no whole number within its bounds";
    case LULZHEMOR_SCOPE_UNCLOSED: return "scope( has no )";
    case LULZHEMOR_ENTITIES_UNCLOSED: return "entities( has no matching )";
    case LULZHEMOR_CONTEXT_UNCLOSED: return "request_context( has no matching )";
    case LULZHEMOR_EVENT_UNOPENED: return "the event has no (";
    case LULZHEMOR_EVENT_UNCLOSED: return "the event has no )";
    case LULZHEMOR_EVENT_OUT_OF_ORDER: return "the last ) stands before the first (";
    case LULZHEMOR_NO_ACTION: return "no quoted action";
    case LULZHEMOR_ACTION_UNTERMINATED: return "the action has no closing quote";
    case LULZHEMOR_NO_KIND: return "no kind";
    case LULZHEMOR_ARGUMENT_WITHOUT_COLON: return "a field of a group has no :";
    case LULZHEMOR_DUPLICATE_ARGUMENT: return "a group has a name twice";
    case LULZHEMOR_VALUE_TOO_DEEP: return "a value is more than 128 deep";
    case LULZHEMOR_FIELD_WITHOUT_COLON: return "a field of a record has no :";
    case LULZHEMOR_DUPLICATE_FIELD: return "a record has a name twice";
    case LULZHEMOR_ENTRY_WITHOUT_RECORD: return "an entry has no {";
    case LULZHEMOR_ENTRY_WITHOUT_COLON: return "no : directly before the entry's {";
    case LULZHEMOR_ENTRY_UNTERMINATED: return "the entry's { is not closed";
    case LULZHEMOR_TEXT_AFTER_RECORD: return "text behind the entry's record that does not begin with the word in";
    case LULZHEMOR_PARENTS_NOT_BRACKETED: return "the parents are not in brackets";
    case LULZHEMOR_PARENT_NO_ENTITY: return "a parent is no entity";
    case LULZHEMOR_KEY_NO_ENTITY: return "an entry's key is no entity";
    case LULZHEMOR_DUPLICATE_KEY: return "two entries have one key";
    case LULZHEMOR_ENTRY_NOT_A_RECORD: return "an entry's value is no record";
    case LULZHEMOR_NOT_JSON: return "the text is no JSON, or has a lone surrogate";
    case LULZHEMOR_NOT_ENTITIES: return "the JSON does not have the shape of entities, or a type begins with whitespace";
    case LULZHEMOR_TIMES_FALL_IN_FIRST: return "the first log's times fall";
    case LULZHEMOR_TIMES_FALL_IN_SECOND: return "the second log's times fall";
    case LULZHEMOR_MERGED_TOO_LONG: return "the merged log has over 65,536 bytes";
    default: return "unknown refusal";
    }
}

/* ---- The pack ----
 * An event as nodes, each a kind and a number, in this order: time, principal, resource, namespace (an array of texts), action, kind,
 * logged, context (records), entities (a record whose fields are stored key, record, array of parents). Entities JSON has only entities:
 * time, principal and resource are absent, and the others have nothing in them. */

enum lulzhemor_kind {
    LULZHEMOR_ABSENT = 0,  /* no principal, no resource, or of entities JSON no time; number 0 */
    LULZHEMOR_NULL = 1,    /* number 0, as in the next two */
    LULZHEMOR_FALSE = 2,
    LULZHEMOR_TRUE = 3,
    LULZHEMOR_INTEGER = 4, /* the number as two's complement */
    LULZHEMOR_DECIMAL = 5, /* a text: its start times 2^32, plus its length */
    LULZHEMOR_STRING = 6,  /* a text */
    LULZHEMOR_ENTITY = 7,  /* number 0; two texts follow, type and decoded id */
    LULZHEMOR_ARRAY = 8,   /* how many items follow */
    LULZHEMOR_RECORD = 9,  /* how many fields follow, each a text and a value */
    LULZHEMOR_TEXT = 10    /* a text: a name, a type, an id, a part of the namespace, an action, a kind, a stored key */
};

/* Where the text of a node of kind 5, 6 or 10 stands in the text table. */
static inline uint32_t lulzhemor_text_start(uint64_t number) { return (uint32_t)(number >> 32); }
static inline uint32_t lulzhemor_text_length(uint64_t number) { return (uint32_t)number; }

/* ---- Functions ----
 * Where tables are lent, refusal 1 changes none of them. After LULZHEMOR_EVENT of lulzhemor_read_line and LULZHEMOR_PACK of
 * lulzhemor_read_entities they hold the pack, and zeros up to their bounds; after any other answer, zeros up to their bounds. What lies past
 * the bounds never changes. A refusal never changes an output, nor does a blank line. */

/* Is the text UTF-8? */
bool lulzhemor_is_utf8(const uint8_t *text, size_t text_len);

/* Judges a log: its count of events, or the first refusal with its line. */
uint64_t lulzhemor_judge(uint8_t *kinds, size_t kinds_len, uint64_t *numbers, size_t numbers_len, uint8_t *texts, size_t texts_len,
                         const uint8_t *log, size_t log_len);

/* Writes two logs as one, in rising time: its bytes, or the first refusal with its log and line. Each event's line stands there once, trimmed
 * and with one line feed; at equal times the first log's come first. */
uint64_t lulzhemor_merge(uint8_t *kinds, size_t kinds_len, uint64_t *numbers, size_t numbers_len, uint8_t *texts, size_t texts_len,
                         uint8_t *out, size_t out_len, const uint8_t *first, size_t first_len, const uint8_t *second, size_t second_len);

/* Reads one line into a pack: LULZHEMOR_EVENT, and the pack's sizes are written; LULZHEMOR_BLANK; or a refusal. The sizes are an output: only
 * an event changes them. A line feed inside is whitespace. */
uint64_t lulzhemor_read_line(uint8_t *kinds, size_t kinds_len, uint64_t *numbers, size_t numbers_len, uint8_t *texts, size_t texts_len,
                             uint64_t sizes[LULZHEMOR_FRONT], const uint8_t *line, size_t line_len);

/* Reads entities JSON into a pack: LULZHEMOR_PACK, and the pack's sizes are written; or a refusal, which leaves them. An entity's nodes are those
 * that a line gives of the same type, id, record and parents, and so is its stored key. The text
 *     [{"uid": {"type": "Cell", "id": "K'7"}, "attrs": {"dug": true}, "parents": []}]
 * gives 14 nodes, the last five of them the stored key Cell::"K\'7", a record of one field, its name, true, and an array of no parents. */
uint64_t lulzhemor_read_entities(uint8_t *kinds, size_t kinds_len, uint64_t *numbers, size_t numbers_len, uint8_t *texts, size_t texts_len,
                                 uint64_t sizes[LULZHEMOR_FRONT], const uint8_t *text, size_t text_len);

/* Writes the night listing of one line's event, which has this number: its bytes, LULZHEMOR_BLANK, or a refusal. As event 1 the line
 *     @7 entities(Cell::"K'7": {}) Dig::"go"::ask(cell: Cell::"K'7")
 * lists as
 *     event 1 at 7
 *     name "Dig"
 *     action "go"
 *     kind "ask"
 *     logged {"cell":e"Cell" "K\'7"}
 *     context {}
 *     entity "Cell::\"K\\\'7\"" {} [] */
uint64_t lulzhemor_list_line(uint8_t *kinds, size_t kinds_len, uint64_t *numbers, size_t numbers_len, uint8_t *texts, size_t texts_len,
                             uint8_t *out, size_t out_len, const uint8_t *line, size_t line_len, uint64_t number);

/* Writes the places of the commas that cut a body, ascending: how many, or a refusal. */
uint64_t lulzhemor_cut_body(uint64_t *out, size_t out_len, const uint8_t *body, size_t body_len);

/* Writes what an escaped text stands for: its bytes, or a refusal. */
uint64_t lulzhemor_decode(uint8_t *out, size_t out_len, const uint8_t *text, size_t text_len);

/* Writes the stored key of a type text and a decoded id: its bytes, or a refusal. Two keys are equal exactly when types and ids are. */
uint64_t lulzhemor_spell_key(uint8_t *out, size_t out_len, const uint8_t *type, size_t type_len, const uint8_t *id, size_t id_len);

#ifdef __cplusplus
}
#endif

#endif
