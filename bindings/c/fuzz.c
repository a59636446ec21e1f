/* A target for libFuzzer: the first byte chooses the room, the second one the call, and the others are what it is given. Aborts if a call
 * writes outside of its room, or answers otherwise with more room. `bindings/fuzz` builds and runs it. */
#include "ame.h"

#include <stdlib.h>
#include <string.h>

enum { MARGIN = 16, MARK = 0xA5, CALLS = 5, TURNS = 500 };

/* What a call writes. */
struct answer {
    int status;
    uint8_t rule;
    struct ame_whole whole;
    uint8_t *lines, *certificate, *schedule;
};

static void require(int holds)
{
    if (!holds)
        abort();
}

/* Room for a text, with marked bytes before and after it. */
static uint8_t *new_room(size_t length)
{
    uint8_t *block = malloc(length + 2 * MARGIN);
    require(block != NULL);
    memset(block, MARK, length + 2 * MARGIN);
    return block + MARGIN;
}

/* Frees room of which a call may have written the first bytes. */
static void free_room(uint8_t *room, size_t length, size_t written)
{
    const uint8_t *block = room - MARGIN;
    for (size_t i = 0; i < MARGIN; i++)
        require(block[i] == MARK);
    for (size_t i = written < length ? written : length; i < length + MARGIN; i++)
        require(room[i] == MARK);
    free(room - MARGIN);
}

/* Makes a call with this much room for each text. */
static struct answer called(int call, const uint8_t *bytes, size_t length, struct ame_whole room)
{
    const struct ame_limits limits = {3, TURNS, 10};
    struct answer answer = {0};
    struct ame_whole *whole = &answer.whole;
    uint8_t *lines = answer.lines = new_room(room.lines);
    uint8_t *certificate = answer.certificate = new_room(room.certificate);
    uint8_t *schedule = answer.schedule = new_room(room.schedule);
    uint32_t seed = length > 0 ? bytes[length - 1] : 0;
    switch (call) {
    case 0:
        answer.status = ame_check(bytes, length, lines, room.lines, &whole->number, &whole->lines);
        break;
    case 1:
        answer.status = ame_types(bytes, length, &answer.rule, &whole->number);
        break;
    case 2:
        answer.status = ame_sim(bytes, length, seed, &limits, lines, room.lines, certificate, room.certificate, schedule, room.schedule, whole);
        break;
    case 3:
        answer.status = ame_replay(bytes, length, &limits, lines, room.lines, certificate, room.certificate, schedule, room.schedule, whole);
        break;
    default:
        answer.status = ame_weak(bytes, length, seed, TURNS, lines, room.lines, certificate, room.certificate, whole);
    }
    return answer;
}

static void drop(struct answer answer, struct ame_whole room)
{
    free_room(answer.lines, room.lines, answer.whole.lines);
    free_room(answer.certificate, room.certificate, answer.whole.certificate);
    free_room(answer.schedule, room.schedule, answer.whole.schedule);
}

static void compare(const uint8_t *part, const uint8_t *all, size_t little, size_t whole)
{
    require(memcmp(part, all, little < whole ? little : whole) == 0);
}

/* Makes a call with this much room, and with enough. */
static void call_twice(int call, const uint8_t *bytes, size_t length, size_t little)
{
    struct ame_whole some = {0, little, little, little};
    struct answer part = called(call, bytes, length, some);
    struct ame_whole enough = part.whole;
    struct answer all = called(call, bytes, length, enough);
    require(part.status == all.status && part.rule == all.rule);
    require(memcmp(&part.whole, &all.whole, sizeof part.whole) == 0);
    compare(part.lines, all.lines, little, enough.lines);
    compare(part.certificate, all.certificate, little, enough.certificate);
    compare(part.schedule, all.schedule, little, enough.schedule);
    drop(part, some);
    drop(all, enough);
}

int LLVMFuzzerTestOneInput(const uint8_t *data, size_t size)
{
    if (size > 1)
        call_twice(data[1] % CALLS, data + 2, size - 2, data[0]);
    return 0;
}
