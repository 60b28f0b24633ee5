/* Tells the faults of a file, and writes its tree.
 *
 * usage: faults [script | module | program | auto] < FILE
 */
#include "ecma.h"

#include <stdio.h>
#include <stdlib.h>
#include <string.h>

/* Reads standard input. */
static uint8_t *read_all(size_t *length)
{
    size_t room = 1 << 16;
    uint8_t *text = malloc(room);
    *length = 0;
    while (text) {
        size_t got = fread(text + *length, 1, room - *length, stdin);
        if (got == 0)
            return text;
        *length += got;
        if (*length == room) {
            uint8_t *more = realloc(text, room *= 2);
            if (!more)
                free(text);
            text = more;
        }
    }
    return NULL;
}

/* Tells each fault in a line, by asking how much room they take and then for them. */
static int32_t tell(const uint8_t *text, size_t length, const EcmaOptions *options)
{
    static const char *const severities[] = {"fault", "error", "refused"};
    EcmaNeeded needed;
    EcmaFault none;
    uint8_t no_word;
    int32_t status = ecma_parse_faults(text, length, options, &none, 0, &no_word, 0, &needed);
    if (status != ECMA_TOO_SHORT)
        return status;
    EcmaFault *faults = malloc(needed.faults * sizeof *faults);
    uint8_t *words = malloc(needed.words);
    status = ECMA_OUT_OF_MEMORY;
    if (faults && words)
        status = ecma_parse_faults(text, length, options, faults, needed.faults, words, needed.words, &needed);
    for (size_t at = 0; status >= 0 && at < needed.faults; at++) {
        const EcmaFault *it = &faults[at];
        printf("%llu:%llu: %s [%.*s]: %.*s\n", (unsigned long long)it->start.line, (unsigned long long)it->start.column,
               severities[it->severity], (int)it->kind_length, (const char *)words + it->kind_at, (int)it->message_length,
               (const char *)words + it->message_at);
    }
    if (status >= 0 && needed.more > 0)
        printf("and %zu more\n", needed.more);
    free(faults);
    free(words);
    return status;
}

/* Writes the tree, by a guess of the room and once more where that was too short. */
static int32_t write_tree(const uint8_t *text, size_t length, const EcmaOptions *options)
{
    size_t room = 1024 + 16 * length, needed = 0;
    uint8_t *out = malloc(room);
    int32_t status = out ? ecma_parse_tree(text, length, options, out, room, &needed) : ECMA_OUT_OF_MEMORY;
    if (status == ECMA_TOO_SHORT) {
        free(out);
        out = malloc(needed);
        status = out ? ecma_parse_tree(text, length, options, out, needed, &needed) : ECMA_OUT_OF_MEMORY;
    }
    if (status == ECMA_CLEAN || status == ECMA_FAULTY) {
        fwrite(out, 1, needed, stdout);
        putchar('\n');
    }
    free(out);
    return status;
}

int main(int count, char **words)
{
    EcmaOptions options = {sizeof options, ECMA_AUTO, 1000, 0, 1000};
    static const char *const goals[] = {"script", "module", "program"};
    for (uint32_t goal = ECMA_SCRIPT; goal <= ECMA_PROGRAM; goal++)
        if (count > 1 && !strcmp(words[1], goals[goal]))
            options.goal = goal;
    size_t length;
    uint8_t *text = read_all(&length);
    if (!text)
        return 4;
    int32_t status = tell(text, length, &options);
    if (status == ECMA_CLEAN || status == ECMA_FAULTY)
        status = write_tree(text, length, &options);
    free(text);
    if (status < 0)
        fprintf(stderr, "no answer: status %d\n", status);
    return status < 0 ? 4 : status;
}
