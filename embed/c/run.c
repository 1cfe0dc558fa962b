/* run BUNDLE STEPS PRELUDE FLAGS ROOT..: writes the report of a bundle, as the program does. PRELUDE is - where there is none; FLAGS has v, l, s and r
   for what is wanted more, and m for room that is mostly enough. For tests/embedding and bench/embedding. */
#include "starload.h"
#include <stdio.h>
#include <stdlib.h>
#include <string.h>

static starload_bytes bytes(const char *text)
{
    return (starload_bytes){(const uint8_t *)text, strlen(text)};
}

static starload_bytes contents(const char *path)
{
    FILE *file = fopen(path, "rb");
    size_t room = 1 << 16, length = 0, more;
    char *at = malloc(room);
    if (!file || !at)
        exit(3);
    while ((more = fread(at + length, 1, room - length, file)) > 0)
        if ((length += more) == room && !(at = realloc(at, room *= 2)))
            exit(3);
    fclose(file);
    return (starload_bytes){(const uint8_t *)at, length};
}

int main(int count, char **words)
{
    if (count < 5)
        return 3;
    starload_bytes *roots = calloc((size_t)count, sizeof *roots);
    for (int i = 5; i < count; i++)
        roots[i - 5] = bytes(words[i]);
    starload_asked asked = {
        .bundle = contents(words[1]),
        .roots = {roots, (size_t)(count - 5)},
        .prelude = bytes(words[3]),
        .steps = (uint32_t)strtoul(words[2], NULL, 10),
        .has_prelude = strcmp(words[3], "-") != 0,
        .with_values = strchr(words[4], 'v') != NULL,
        .with_loads = strchr(words[4], 'l') != NULL,
        .with_steps = strchr(words[4], 's') != NULL,
        .only_roots = strchr(words[4], 'r') != NULL,
    };
    size_t room = 4096 + (strchr(words[4], 'm') ? 4 * asked.bundle.length : 0);
    uint8_t *out = malloc(room);
    starload_answer answer = starload_run(&asked, out, room);
    if (answer.status == STARLOAD_ROOM) {
        out = realloc(out, room = answer.length);
        answer = starload_run(&asked, out, room);
    }
    if (answer.status > STARLOAD_FAULTY) {
        fprintf(stderr, "starload: %s\n", starload_refusal(answer.refusal));
        return 2;
    }
    fwrite(out, 1, answer.length, stdout);
    free(out);
    free(roots);
    free((void *)asked.bundle.at);
    return (int)answer.status;
}
