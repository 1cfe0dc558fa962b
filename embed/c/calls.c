/* calls N: N calls, and the bytes of malloc's memory that calls 1,001 to N have left. For bench/embedding. */
#include "starload.h"
#include <malloc.h>
#include <stdio.h>
#include <stdlib.h>
#include <string.h>

static starload_bytes bytes(const char *text)
{
    return (starload_bytes){(const uint8_t *)text, strlen(text)};
}

int main(int count, char **words)
{
    long calls = count > 1 ? atol(words[1]) : 100000;
    starload_bytes root = bytes("//:hello.star");
    starload_asked asked = {
        .bundle = bytes("{\"//:hello.star\": \"print('Hello')\\nx = 1 + 2\\n\"}"),
        .roots = {&root, 1},
        .prelude = bytes(""),
        .steps = 1000000,
    };
    uint8_t out[4096];
    size_t held = 0;
    for (long i = 0; i < calls; i++) {
        if (i == 1000)
            held = mallinfo2().uordblks;
        if (starload_run(&asked, out, sizeof out).status != STARLOAD_OK)
            return 1;
    }
    printf("%ld\n", calls > 1000 ? (long)(mallinfo2().uordblks - held) : 0);
    return 0;
}
