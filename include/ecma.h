/* A proved ECMAScript parser, for C. Link libecma_link.a, and liblibc_c.a of the kit, through which it calls malloc, realloc and free.
 *
 * Each call parses a UTF-8 text and writes its answer to a buffer of the caller's. It keeps no state, so calls in several threads are
 * independent. No pointer may be null, even if its length is 0; what a call writes must not overlap what it reads.
 *
 * Stack use grows with the nesting of the text: docs/LINKING.md says how much a limit needs.
 */
#ifndef ECMA_H
#define ECMA_H

#include <stddef.h>
#include <stdint.h>

/* The version of this header. Each struct begins with `struct_size`, its size in bytes; a later version may add fields at its end. */
#define ECMA_VERSION 3

#ifdef __cplusplus
extern "C" {
#endif

/* The version that the library was built with: it must be ECMA_VERSION. Check it before any other call if the library is loaded at run time. */
uint32_t ecma_version(void);

/* The status of a call. From 0 on the answer is written; below 0 nothing is. */
enum {
    ECMA_CLEAN = 0,           /* a tree, no fault and no early error */
    ECMA_FAULTY = 1,          /* a tree, with faults or early errors */
    ECMA_REFUSED = 2,         /* no tree */
    ECMA_TOO_DEEP = 3,        /* no tree: the text is nested deeper than the limit */
    ECMA_TOO_SHORT = -1,      /* the buffer is too short; `needed` is the length it takes */
    ECMA_OUT_OF_MEMORY = -2,  /* memory ran out */
    ECMA_NOT_UTF8 = -3,       /* the text is not UTF-8 */
    ECMA_TOO_LONG = -4,       /* the text has more than 2^32 - 1 bytes */
    ECMA_UNKNOWN_OPTION = -5  /* an unknown goal or flag, or options of another size */
};

/* What a text is parsed as: a goal symbol of ECMA-262, section 5.1.4; a module if one of the statements makes it one, else a script
 * (ECMA_PROGRAM); or whichever of the two it can be parsed as (ECMA_AUTO). `sourceType` of the tree says which it was. */
enum { ECMA_SCRIPT = 0, ECMA_MODULE = 1, ECMA_PROGRAM = 2, ECMA_AUTO = 3 };

/* Syntax beyond ECMA-262. */
enum {
    ECMA_DECORATORS = 0x1,
    ECMA_DECORATORS_BEFORE_EXPORT = 0x2,
    ECMA_EXPORT_DEFAULT_FROM = 0x4,
    ECMA_IMPORT_ATTRIBUTES = 0x8, /* with ECMA_PLAIN */
    ECMA_RETURN_OUTSIDE_FUNCTION = 0x10,
    ECMA_AUTO_ACCESSORS = 0x20,
    ECMA_EXPLICIT_RESOURCE_MANAGEMENT = 0x40
};

/* What is written besides the nodes. */
enum {
    ECMA_LOCATIONS = 0x100, /* `loc` of each node: lines from 1, columns from 0 */
    ECMA_RANGES = 0x200,    /* `range` of each node */
    ECMA_COMMENTS = 0x400,  /* `comments` of the root */
    ECMA_TOKENS = 0x800     /* `tokens` of the root */
};

/* What is not checked. */
enum {
    ECMA_NO_EARLY_ERRORS = 0x1000 /* early errors found in the finished tree: docs/EARLY.md */
};

/* The language. By default it is the whole one, which has the forms of ECMA-262, edition 2025, with its annex B, except those that
 * docs/DIFFERENCES.md lists. The plain language has no regular expressions, templates, optional chains, `new.target`, `#a in b`, names with
 * escapes, old octal forms or HTML-like comments. ECMA_IMPORT_ATTRIBUTES has an effect in the plain language alone: the whole one has
 * import attributes. */
enum {
    ECMA_PLAIN = 0x2000
};

/* The options of a call. */
typedef struct EcmaOptions {
    uint64_t struct_size; /* sizeof(EcmaOptions) */
    uint32_t goal;  /* ECMA_SCRIPT, ECMA_MODULE, ECMA_PROGRAM or ECMA_AUTO */
    uint32_t limit; /* how many levels deep the text may be nested; more than 1,000 counts as 1,000 */
    uint32_t flags; /* the sum of the flags above */
    uint32_t max_faults; /* how many faults and early errors are reported at most, 0 for all; the reason why there is no tree is always reported */
} EcmaOptions;

/* The tree and the faults of a text as one JSON object, `{"tree":..,"faults":[..]}`: the tree as ESTree, or null; the faults in the form
 * of `ecma-check --format json`, with an empty `file`. If there are more faults and early errors than requested, a field `more` says how many more.
 * `out` is the buffer and `room` its length. `needed` is set to the length of the answer, even if `room` is less. */
int32_t ecma_parse(const uint8_t *text, size_t length, const EcmaOptions *options, uint8_t *out, size_t room, size_t *needed);

/* Only the tree, as ESTree; nothing if there is none. */
int32_t ecma_parse_tree(const uint8_t *text, size_t length, const EcmaOptions *options, uint8_t *out, size_t room, size_t *needed);

/* A position in a text. */
typedef struct EcmaPoint {
    uint64_t byte;   /* bytes of UTF-8 before it */
    uint64_t unit;   /* code units of UTF-16 before it */
    uint64_t line;   /* from 1 */
    uint64_t column; /* from 1, in code units of UTF-16 */
} EcmaPoint;

/* The severity of a fault. */
enum {
    ECMA_FAULT = 0,  /* it was recorded, and the parser went on */
    ECMA_ERROR = 1,  /* an early error of the tree */
    ECMA_REFUSAL = 2 /* the reason why there is no tree; it comes last */
};

/* A fault (diagnostic) or an early error. Its texts are offsets and lengths in what the call writes to `words`. */
typedef struct EcmaFault {
    uint64_t struct_size; /* sizeof(EcmaFault) */
    uint64_t severity;
    EcmaPoint start;
    EcmaPoint end;
    uint64_t kind_at; /* the name of its kind */
    uint64_t kind_length;
    uint64_t message_at; /* the message: what is wrong and what would be right */
    uint64_t message_length;
    EcmaPoint previous_start; /* a related position, such as an earlier declaration; zeros if there is none */
    EcmaPoint previous_end;
    uint64_t note_at; /* the note for that position */
    uint64_t note_length;
} EcmaFault;

/* How many faults and early errors are reported, how many bytes their texts have, and how many more there are. */
typedef struct EcmaNeeded {
    size_t struct_size; /* sizeof(EcmaNeeded) */
    size_t faults;
    size_t words;
    size_t more;
} EcmaNeeded;

/* The faults of a text one by one: those that were recorded, the early errors of its tree, as many as requested, and the reason why there is no
 * tree. Early errors are ordered by position. `needed` is set to the lengths that they take, even if the buffers are shorter. */
int32_t ecma_parse_faults(const uint8_t *text, size_t length, const EcmaOptions *options, EcmaFault *faults, size_t fault_room,
                          uint8_t *words, size_t word_room, EcmaNeeded *needed);

#ifdef __cplusplus
}
#endif

#endif
