/* The session that the repository's README prints, from C: a line a request, by both calls. */
#include "mvhashmap.h"

#include <inttypes.h>
#include <stdio.h>
#include <string.h>

enum { STORE_WORDS = 16384, LONGEST = 11 };

typedef uint32_t call(const uint32_t *, size_t, uint32_t *, size_t, uint32_t *, size_t,
                      uint32_t *, size_t);

static const uint32_t requests[][LONGEST] = {
    {0x60000002, 7, 0},
    {0x40000002, 7, 0},
    {0x2000000A, 7, 0, 0, 0x20000010, 0, 5, 100, 0, 0, 0},
    {0x60000002, 7, 1},
    {0xC0000002, 9, 0xFFFFFFFF},
};

static uint32_t data[STORE_WORDS], group[STORE_WORDS], answer[MVHASHMAP_ANSWER_WORDS];

static size_t words_of(uint32_t head)
{
    return 1 + (head & 0x0FFFFFFF);
}

static void print_answer(void)
{
    for (size_t i = 0; i < words_of(answer[0]); i++)
        printf("%s%08" PRIX32, i == 0 ? "" : " ", answer[i]);
    printf("\n");
}

static void session(call *by)
{
    memset(data, 0, sizeof data);
    memset(group, 0, sizeof group);
    for (size_t i = 0; i < sizeof requests / sizeof requests[0]; i++) {
        uint32_t result = by(requests[i], words_of(requests[i][0]), data, STORE_WORDS,
                             group, STORE_WORDS, answer, MVHASHMAP_ANSWER_WORDS);
        if (result == MVHASHMAP_ACCEPTED)
            print_answer();
        else
            printf("no %" PRIu32 "\n", result);
    }
}

int main(void)
{
    session(mvhashmap_call);
    session(mvhashmap_inner_call);
    return 0;
}
