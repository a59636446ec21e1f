/* Runs a program by a seed, prints its lines, and judges the certificate of the run. */
#include "ame.h"

#include <inttypes.h>
#include <stdio.h>
#include <string.h>

int main(void)
{
    const char *text = "(do (async (print 1)) (print 2))";
    const struct ame_limits limits = {2, 1000, 1000};
    uint8_t lines[1000], certificate[1000], schedule[1000];
    struct ame_whole whole;
    uint64_t number;
    size_t length;

    int status = ame_sim((const uint8_t *)text, strlen(text), 3, &limits, lines, sizeof lines, certificate, sizeof certificate,
                         schedule, sizeof schedule, &whole);
    if (status != AME_FINISHED)
        return status;
    fwrite(lines, 1, whole.lines, stdout);
    if (ame_check(certificate, whole.certificate, lines, sizeof lines, &number, &length) != AME_VALID)
        return 1;
    printf("%" PRIu64 " entries\n", number);
    return 0;
}
