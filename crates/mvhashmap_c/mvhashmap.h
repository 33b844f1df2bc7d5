/* A multi-version store for Block-STM, proved: the call over two stores of the caller's own.
 * `rt lib` in this folder writes the library, out/libmvhashmap_c.a (x86-64). The
 * words of requests and answers are in the repository's README, "Words". */
#ifndef MVHASHMAP_H
#define MVHASHMAP_H

#include <stddef.h>
#include <stdint.h>

#ifdef __cplusplus
extern "C" {
#endif

enum {
    /* A store of W words has W / 32 units, at most 4,096. Words past them are not touched. */
    MVHASHMAP_UNIT_WORDS = 32,
    MVHASHMAP_MAX_UNITS = 4096,
    /* The least length of the answer area. */
    MVHASHMAP_ANSWER_WORDS = 451
};

/* A call's result. The lowest number that applies is given. */
enum mvhashmap_result {
    /* The answer's words stand at the start of the answer area: a head, whose bits 0 to 27 count
     * the words after it. Words past them are untouched. */
    MVHASHMAP_ACCEPTED = 0,
    /* Refused: no word of the stores or of the answer area has changed. */
    MVHASHMAP_ANSWER_TOO_SHORT = 1,
    MVHASHMAP_WRONG_COUNT = 2,
    MVHASHMAP_BAD_FIELD = 3,
    MVHASHMAP_INDEX_TOO_HIGH = 4,
    MVHASHMAP_DAMAGED_STORE = 5,
    MVHASHMAP_NOTHING_THERE = 6,
    MVHASHMAP_INCARNATION_NOT_HIGHER = 7,
    MVHASHMAP_BASE_DIFFERS = 8,
    MVHASHMAP_LAYOUT_UNDER_DELTA = 9,
    MVHASHMAP_NO_NUMBER_UNDER_DELTA = 10,
    MVHASHMAP_COMMIT_RULE = 11,
    MVHASHMAP_NOTHING_TO_EXCHANGE = 12,
    MVHASHMAP_NOT_MATERIALIZABLE = 13,
    MVHASHMAP_UNITS_EXHAUSTED = 14
};

/* Answers or refuses one request. Any words will do in all four areas; cleared words are empty
 * stores. Lengths are in words. The four areas must not overlap, and each pointer is aligned and
 * not null. Nothing else may use the areas during a call: callers on several threads need a lock. */
uint32_t mvhashmap_call(const uint32_t *request, size_t request_words,
                        uint32_t *data, size_t data_words,
                        uint32_t *group, size_t group_words,
                        uint32_t *answer, size_t answer_words);

/* The same without the look at every word of both stores, for a caller who knows that they are
 * valid: they were cleared, and nothing but calls wrote them since. On other stores nothing is
 * known of what it does. */
uint32_t mvhashmap_inner_call(const uint32_t *request, size_t request_words,
                              uint32_t *data, size_t data_words,
                              uint32_t *group, size_t group_words,
                              uint32_t *answer, size_t answer_words);

#ifdef __cplusplus
}
#endif

#endif
