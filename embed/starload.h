/* starload as a library: the report of a bundle, into the caller's buffer. docs/EMBEDDING.md */
#ifndef STARLOAD_H
#define STARLOAD_H
#include <stdbool.h>
#include <stddef.h>
#include <stdint.h>
#ifdef __cplusplus
extern "C" {
#endif

/* Bytes that live during the call. The pointer is never null, also where there are none. */
typedef struct {
    const uint8_t *at;
    size_t length;
} starload_bytes;

typedef struct {
    const starload_bytes *at; /* never null */
    size_t length;
} starload_words;

typedef struct {
    starload_bytes bundle; /* a JSON object from labels to texts */
    starload_words roots;  /* the labels of the roots */
    starload_bytes prelude; /* the label of the prelude, where has_prelude is true */
    uint32_t steps;        /* how many steps each file may take: 1 to 100,000,000 */
    bool has_prelude;
    bool with_values;      /* the values of globals as JSON */
    bool with_loads;       /* the loads of each module */
    bool with_steps;       /* the steps that each module has paid */
    bool only_roots;       /* of the modules that are ok the roots alone */
} starload_asked;

enum {
    STARLOAD_OK = 0,      /* a report, in which every file is ok */
    STARLOAD_FAULTY = 1,  /* a report, in which some file is not */
    STARLOAD_REFUSED = 2, /* no report: refusal says why, and out is as it was */
    STARLOAD_ROOM = 3     /* out has no room for the report, which has length bytes, and is as it was: call again */
};

/* The refusals of a call: starload_refusal has the text of each. The numbers left out are the program's alone. */
enum {
    STARLOAD_TOO_BIG = 2, STARLOAD_BAD_BUNDLE = 3, STARLOAD_BAD_KEY = 4, STARLOAD_TOO_MANY = 5, STARLOAD_TOO_LONG = 6,
    STARLOAD_BAD_ROOT = 7, STARLOAD_NO_ROOT = 8, STARLOAD_BAD_PRELUDE = 9, STARLOAD_NO_PRELUDE = 10,
    STARLOAD_OUT_OF_MEMORY = 11, STARLOAD_UNPUBLISHED = 13, STARLOAD_BAD_STEPS = 17, STARLOAD_BAD_WORDS = 18
};

typedef struct {
    uint32_t status;
    uint32_t refusal; /* 0 where there is a report */
    size_t length;    /* how many bytes the report has: 0 where there is none */
} starload_answer;

/*
 * Writes the report of what is asked for to the front of out, which has room for so many bytes and is nobody else's
 * during the call. All memory is back when it returns, and nothing is kept: calls in different threads may overlap.
 */
starload_answer starload_run(const starload_asked *asked, uint8_t *out, size_t room);

/* What the program says of a refusal. */
static inline const char *starload_refusal(uint32_t refusal)
{
    static const char *const texts[] = {
        "no refusal", "cannot read the bundle", "bundle too big", "not a JSON object of texts", "bad label in the bundle",
        "too many files", "file too long", "bad root", "no such root", "bad prelude", "no such prelude", "out of memory",
        "cannot write the report", "module not published", "cannot list the folder", "cannot read a file",
        "a file is not text", "steps are not from 1 to 100000000", "no roots, or a word that is not UTF-8",
        "bad record",
    };
    return refusal < sizeof texts / sizeof texts[0] ? texts[refusal] : "unknown refusal";
}

#ifdef __cplusplus
}
#endif
#endif
