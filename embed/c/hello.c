/* cc -I embed embed/c/hello.c embed/out/libstarload.a -o hello && ./hello */
#include "starload.h"
#include <stdio.h>
#include <string.h>

static starload_bytes bytes(const char *text)
{
    return (starload_bytes){(const uint8_t *)text, strlen(text)};
}

int main(void)
{
    starload_bytes root = bytes("//:hello.star");
    starload_asked asked = {
        .bundle = bytes("{\"//:hello.star\": \"print('Hello')\\nx = 1 + 2\\n\"}"),
        .roots = {&root, 1},
        .prelude = bytes(""),
        .steps = 1000000,
    };
    uint8_t out[4096];
    starload_answer answer = starload_run(&asked, out, sizeof out);
    if (answer.status == STARLOAD_ROOM)
        return printf("no room: the report has %zu bytes\n", answer.length), 2;
    if (answer.status == STARLOAD_REFUSED)
        return printf("no report: %s\n", starload_refusal(answer.refusal)), 2;
    printf("%.*s", (int)answer.length, (const char *)out);
    return (int)answer.status;
}
