/* Judges the certificate in a file, prints its lines, and ends with its status: `check FILE`. With a second word, a count, it judges
 * the file that many times and prints how many that makes a second.
 *
 * To build it at the top of the repository, once bindings/build has made the library:
 *   cc -Wall -Wextra -Werror -O2 -Ibindings/c bindings/c/check.c bindings/out/libame.a -o check */
#include "bytes.h"

#include <time.h>

/* Asks for the length of the lines, and then for the lines. */
static int judge(struct bytes certificate)
{
    uint8_t nothing;
    uint64_t number;
    size_t whole, again;
    ame_check(certificate.at, certificate.length, &nothing, 0, &number, &whole);
    uint8_t *room = malloc(whole);
    if (room == NULL)
        return NO_ROOM;
    int status = ame_check(certificate.at, certificate.length, room, whole, &number, &again);
    fwrite(room, 1, again < whole ? again : whole, stdout);
    free(room);
    return status;
}

static int measure(struct bytes certificate, long times)
{
    uint8_t room[64];
    uint64_t number;
    size_t whole;
    int status = 0;
    keep_pages();
    clock_t start = clock();
    for (long i = 0; i < times; i++)
        status = ame_check(certificate.at, certificate.length, room, sizeof room, &number, &whole);
    double seconds = (double)(clock() - start) / CLOCKS_PER_SEC;
    printf("status %d, %.0f a second\n", status, (double)times / seconds);
    return status;
}

int main(int words, char **word)
{
    if (words < 2 || words > 3)
        return WRONG_WORDS;
    struct bytes certificate = read_file(word[1]);
    int status = words == 3 ? measure(certificate, strtol(word[2], NULL, 10)) : judge(certificate);
    free(certificate.at);
    return status;
}
