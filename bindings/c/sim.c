/* Runs the program in a file by a seed, with one worker, prints its lines, and ends with its status: `sim FILE SEED`. With a third word, a
 * count, it makes that many runs, by that seed and those after it, and prints how many that makes a second.
 *
 * To build it at the top of the repository, once bindings/build has made the library:
 *   cc -Wall -Wextra -Werror -O2 -Ibindings/c bindings/c/sim.c bindings/out/libame.a -o sim */
#include "bytes.h"

#include <time.h>

enum { ROOM = 100000, SEEDS = 65537 };

static uint8_t lines[ROOM], certificate[ROOM], schedule[ROOM];

static int run(struct bytes text, uint32_t seed, struct ame_whole *whole)
{
    const struct ame_limits limits = {1, 1000000, 1000};
    return ame_sim(text.at, text.length, seed, &limits, lines, ROOM, certificate, ROOM, schedule, ROOM, whole);
}

static int measure(struct bytes text, uint32_t seed, long times)
{
    struct ame_whole whole;
    int status = 0;
    keep_pages();
    clock_t start = clock();
    for (long i = 0; i < times; i++)
        status = run(text, (uint32_t)((seed + (unsigned long)i) % SEEDS), &whole);
    double seconds = (double)(clock() - start) / CLOCKS_PER_SEC;
    printf("status %d, %.0f a second\n", status, (double)times / seconds);
    return status;
}

int main(int words, char **word)
{
    if (words < 3 || words > 4)
        return WRONG_WORDS;
    struct bytes text = read_file(word[1]);
    uint32_t seed = (uint32_t)strtoul(word[2], NULL, 10);
    struct ame_whole whole;
    int status = words == 4 ? measure(text, seed, strtol(word[3], NULL, 10)) : run(text, seed, &whole);
    if (words == 3)
        fwrite(lines, 1, whole.lines < ROOM ? whole.lines : ROOM, stdout);
    free(text.at);
    return status;
}
