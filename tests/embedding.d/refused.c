/* Calls of starload_run, each with one allocation refused: the first, the second, and so on, until a call needs no more.
   Each must end with the refusal for want of memory or with the right report, and must leave nothing allocated. */
#include "starload.h"
#include <stdio.h>
#include <string.h>

void *__real_malloc(size_t size);
void *__real_realloc(void *old, size_t size);
void __real_free(void *old);

static long left; /* how many allocations are granted before one is refused */
static long live; /* how many blocks are allocated now */

void *__wrap_malloc(size_t size)
{
    if (left-- == 0)
        return NULL;
    live++;
    return __real_malloc(size);
}

void *__wrap_realloc(void *old, size_t size)
{
    if (left-- == 0)
        return NULL;
    live += old == NULL;
    return __real_realloc(old, size);
}

void __wrap_free(void *old)
{
    live -= old != NULL;
    __real_free(old);
}

static starload_bytes bytes(const char *text)
{
    return (starload_bytes){(const uint8_t *)text, strlen(text)};
}

int main(void)
{
    static uint8_t right[4096], out[4096], untouched[4096];
    memset(untouched, 7, sizeof untouched);
    starload_bytes roots[] = {bytes("//:b.star"), bytes("//:c.star")};
    starload_asked asked = {
        .bundle = bytes("{\"//:a.star\": \"x = {'k': [1, 'two']}\", \"//:b.star\": \"load(':a.star', 'x')\\nprint(x)\\ny = [x, p]\","
                        " \"//:c.star\": \"load(':d.star', 'z')\", \"//:d.star\": \"load(':c.star', 'z')\", \"//:p.star\": \"p = 1 // 1\"}"),
        .roots = {roots, 2},
        .prelude = bytes("//:p.star"),
        .steps = 1000000,
        .has_prelude = true,
        .with_values = true,
        .with_loads = true,
        .with_steps = true,
    };
    left = -1;
    starload_answer report = starload_run(&asked, right, sizeof right);
    long passed = report.status == STARLOAD_FAULTY && live == 0, failed = !passed;
    int refused = 1;
    for (long n = 0; refused && n < 100000; n++) {
        memset(out, 7, sizeof out);
        left = n;
        starload_answer answer = starload_run(&asked, out, sizeof out);
        refused = left < 0;
        int is_refusal = answer.status == STARLOAD_REFUSED && answer.refusal == STARLOAD_OUT_OF_MEMORY && answer.length == 0
            && memcmp(out, untouched, sizeof out) == 0;
        int is_report = answer.status == report.status && answer.length == report.length && memcmp(out, right, report.length) == 0;
        if (live == 0 && (is_report || (refused && is_refusal)))
            passed++;
        else {
            failed++;
            printf("failed: allocation %ld refused: status %u, refusal %u, %ld blocks left\n", n, answer.status, answer.refusal, live);
            live = 0;
        }
    }
    printf("%ld passed, %ld failed\n", passed, failed);
    return failed != 0;
}
