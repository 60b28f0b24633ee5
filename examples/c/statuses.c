/* Has each call end with each status, also as each request of memory fails in turn: link it with `-Wl,--wrap=malloc,--wrap=realloc`. */
#include "ecma.h"

#include <stdio.h>
#include <stdlib.h>
#include <string.h>

static long left = -1; /* how many more requests succeed; all, below 0 */

void *__real_malloc(size_t size);
void *__real_realloc(void *block, size_t size);

static int refuses(void)
{
    return left >= 0 && left-- == 0 ? (left = 0, 1) : 0;
}

void *__wrap_malloc(size_t size)
{
    return refuses() ? NULL : __real_malloc(size);
}

void *__wrap_realloc(void *block, size_t size)
{
    return refuses() ? NULL : __real_realloc(block, size);
}

static int failures;

static void check(int holds, const char *what)
{
    if (!holds) {
        printf("FAILED: %s\n", what);
        failures++;
    }
}

enum { ROOM = 4096 };
static const EcmaOptions SCRIPT = {sizeof SCRIPT, ECMA_SCRIPT, 1000, 0, 0};
static uint8_t out[ROOM];
static size_t needed;

static int32_t tree(const char *text, const EcmaOptions *options, size_t room)
{
    return ecma_parse_tree((const uint8_t *)text, strlen(text), options, out, room, &needed);
}

static void statuses(void)
{
    const EcmaOptions shallow = {sizeof shallow, ECMA_SCRIPT, 2, 0, 0}, no_goal = {sizeof no_goal, 4, 1000, 0, 0};
    const EcmaOptions no_flag = {sizeof no_flag, ECMA_SCRIPT, 1000, 0x80, 0}, no_size = {0, ECMA_SCRIPT, 1000, 0, 0};
    const EcmaOptions no_early = {sizeof no_early, ECMA_SCRIPT, 1000, ECMA_NO_EARLY_ERRORS, 0};
    check(tree("a", &SCRIPT, ROOM) == ECMA_CLEAN, "a clean script");
    check(tree("break", &SCRIPT, ROOM) == ECMA_FAULTY, "a script with a fault");
    check(tree("a b", &SCRIPT, ROOM) == ECMA_REFUSED && needed == 0, "a script without a tree");
    check(tree("{{{{}}}}", &shallow, ROOM) == ECMA_TOO_DEEP && needed == 0, "a script that nests too deep");
    check(tree("a", &no_goal, ROOM) == ECMA_UNKNOWN_OPTION, "a goal that is none");
    check(tree("a", &no_flag, ROOM) == ECMA_UNKNOWN_OPTION, "a flag that is none");
    check(tree("a", &no_size, ROOM) == ECMA_UNKNOWN_OPTION, "options of another size");
    check(tree("let a, a", &SCRIPT, ROOM) == ECMA_FAULTY, "a script with an early error");
    check(tree("let a, a", &no_early, ROOM) == ECMA_CLEAN, "early errors are left out");
    check(ecma_version() == ECMA_VERSION, "the version");
    check(tree("\xff", &SCRIPT, ROOM) == ECMA_NOT_UTF8, "a text that is not UTF-8");
    check(tree("", &SCRIPT, ROOM) == ECMA_CLEAN, "an empty text");
}

static void rooms(void)
{
    check(tree("a", &SCRIPT, 0) == ECMA_TOO_SHORT && needed > 0, "no room");
    size_t whole = needed;
    memset(out, '!', ROOM);
    check(tree("a", &SCRIPT, whole - 1) == ECMA_TOO_SHORT && needed == whole, "a byte too few");
    check(out[0] == '!', "nothing is written where there is too little room");
    check(tree("a", &SCRIPT, whole) == ECMA_CLEAN && needed == whole && out[whole - 1] == '}' && out[whole] == '!', "just enough room");
}

/* What is told of a text: at most so many faults, and so many bytes of words. */
static int32_t told(const char *text, const EcmaOptions *options, EcmaFault *list, size_t count, uint8_t *words, size_t room, EcmaNeeded *both)
{
    return ecma_parse_faults((const uint8_t *)text, strlen(text), options, list, count, words, room, both);
}

static void faults(void)
{
    EcmaFault list[2];
    EcmaNeeded both;
    uint8_t words[256];
    const char *text = "break; \xc3\xa9 b";
    int32_t status = told(text, &SCRIPT, list, 2, words, sizeof words, &both);
    check(status == ECMA_REFUSED && both.faults == 2, "two faults");
    check(list[0].severity == ECMA_FAULT && list[1].severity == ECMA_REFUSAL, "why there is no tree comes last");
    check(list[0].start.byte == 0 && list[0].end.byte == 6, "the place of the first");
    check(list[1].start.byte == 10 && list[1].start.unit == 9 && list[1].start.line == 1 && list[1].start.column == 10, "the place of the second");
    check(list[0].kind_length == 6 && !memcmp(words + list[0].kind_at, "TS1105", 6), "the kind of the first");
    check(list[1].message_at + list[1].message_length == both.words, "the words end with the last sentence");
    status = told(text, &SCRIPT, list, 1, words, sizeof words, &both);
    check(status == ECMA_TOO_SHORT && both.faults == 2, "room for one fault");
    status = told(text, &SCRIPT, list, 2, words, both.words - 1, &both);
    check(status == ECMA_TOO_SHORT, "a byte of words too few");
}

/* An early error has the place of the earlier declaration. */
static void early(void)
{
    EcmaFault list[1];
    EcmaNeeded room;
    uint8_t words[256];
    const char *text = "let a; let a";
    int32_t status = told(text, &SCRIPT, list, 1, words, sizeof words, &room);
    check(status == ECMA_FAULTY && room.faults == 1 && room.struct_size == sizeof room, "one early error");
    check(list[0].severity == ECMA_ERROR && list[0].struct_size == sizeof list[0], "it is an error");
    check(list[0].start.byte == 11 && list[0].previous_start.byte == 4 && list[0].previous_end.byte == 5, "both places");
    check(list[0].note_length > 0 && list[0].note_at + list[0].note_length == room.words, "the words end with the note");
}

/* No more faults are told than are asked for, and why there is no tree besides. */
static void most(void)
{
    const EcmaOptions one = {sizeof one, ECMA_SCRIPT, 1000, 0, 1};
    EcmaFault list[4];
    EcmaNeeded room;
    uint8_t words[1024];
    const char *text = "break; break; break; a b";
    int32_t status = told(text, &one, list, 4, words, sizeof words, &room);
    check(status == ECMA_REFUSED && room.faults == 2 && room.more == 2, "one fault of three");
    check(list[0].severity == ECMA_FAULT && list[0].start.byte == 0 && list[1].severity == ECMA_REFUSAL, "the first and the last");
    status = told(text, &SCRIPT, list, 4, words, sizeof words, &room);
    check(status == ECMA_REFUSED && room.faults == 4 && room.more == 0, "all faults");
    status = ecma_parse((const uint8_t *)text, strlen(text), &one, out, ROOM, &needed);
    check(status == ECMA_REFUSED && needed > 11 && !memcmp(out + needed - 11, "],\"more\":2}", 11), "how many more");
}

/* Each call, as its requests of memory fail from one on: it says so or answers as ever. */
static void memory(void)
{
    const char *text = "/* a */ function f(b, {c}) { return `x` } break; var d = [1, 'e'], g = class { h() {} }";
    const char *clean = "/* a */ function f(b, {c}) { return b + c } break; var d = [1, 'e'], g = class { h() {} }";
    const EcmaOptions all = {sizeof all, ECMA_PROGRAM, 1000, ECMA_LOCATIONS | ECMA_RANGES | ECMA_COMMENTS | ECMA_TOKENS, 0};
    static uint8_t wanted[1 << 16], found[1 << 16];
    for (int which = 0; which < 2; which++) {
        const char *it = which ? text : clean;
        size_t length, other;
        int32_t status = ecma_parse((const uint8_t *)it, strlen(it), &all, wanted, sizeof wanted, &length), now;
        long at = 0;
        for (;; at++) {
            left = at;
            now = ecma_parse((const uint8_t *)it, strlen(it), &all, found, sizeof found, &other);
            if (left != 0)
                break;
            check(now == ECMA_OUT_OF_MEMORY || (now == status && other == length && !memcmp(wanted, found, length)), "memory that is refused");
            if (now != ECMA_OUT_OF_MEMORY && now != status)
                printf("at request %ld: status %d\n", at, now);
        }
        left = -1;
        check(now == status && other == length && !memcmp(wanted, found, length), "the answer once memory lasts");
        check(at > 10, "requests of memory are counted");
    }
}

int main(void)
{
    statuses();
    rooms();
    faults();
    early();
    most();
    memory();
    return failures > 0;
}
