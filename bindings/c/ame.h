/* ame as a library (libame.a and libame.so, which bindings/build makes): certificates are judged, the types of a text are checked, and
 * programs are run on the caller's thread.
 *
 * Duties of a caller, which nothing checks:
 *   - No pointer is null, also where its length is 0. What is written overlaps nothing else that is passed.
 *   - `malloc`, `realloc` and `free` of the program come from one allocator, and align to 16 bytes.
 *   - No call is made from a signal handler, or from the forked child of a process with threads.
 * Calls may be made from several threads at once, each with memory of its own to write to: nothing is kept between calls. The library starts
 * no thread, and waits for nothing.
 *
 * A call writes a text into room of the caller's, and the length of the whole text. If there is too little room, it writes only the first bytes;
 * the same call with more room writes more of the same text, unless memory runs out. The bytes of the room after the text stay as they
 * were. No zero byte is added.
 */
#ifndef AME_H
#define AME_H

#include <stddef.h>
#include <stdint.h>

#ifdef __cplusplus
extern "C" {
#endif

/* The version of this header. It grows by one with each change that a caller could notice. */
#define AME_VERSION 2

/* Returns the version of the library. */
uint32_t ame_version(void);

/* The statuses: the numbers with which `ame` ends. Each comment says what `number` is; it is 0 if the comment names no number. */
enum {
    AME_ACCEPTED = 0,      /* of ame_types: the text is a program that the types accept */
    AME_FINISHED = 0,      /* of a run: no member is left */
    AME_BLOCKED = 1,       /* this number of members are left, and the condition of each is false */
    AME_SPENT = 2,         /* all turns are used, and members are left */
    AME_USAGE = 3,         /* a seed or a limit isn't one that the command may have */
    AME_REFUSED = 5,       /* more than 1,048,576 bytes (0), or the text is no program: the place */
    AME_ILL_TYPED = 6,     /* the types refuse the program: the place in its text */
    AME_DEVICE_FAULT = 8,  /* this device failed */
    AME_NO_MEMORY = 9,     /* out of memory; also types of more than 1,048,576 nodes, or a certificate with a value nested too deeply */
    AME_TALL = 10,         /* the member with this number came to a value nested too deeply */
    AME_VALID = 11,        /* it is the certificate of a run, with this number of entries */
    AME_INVALID = 12,      /* this entry, from 1, is the first that can't be made */
    AME_BAD_JOURNAL = 13,  /* this line, from 1, is the first that spells no entry; or one more than there are line feeds */
    AME_LONG_JOURNAL = 14, /* with this entry the steps and entries are more than 100,000,000 */
    AME_BAD_SCHEDULE = 17  /* the bytes don't begin with a schedule and the line `program` */
};

/* Judges a certificate as `ame check` does: the lines of a journal, the line `program`, and the text of a program that may call devices 0
 * and 1.
 *
 *   certificate, certificate_length  the bytes; they are read only
 *   room, room_length                room for the lines: those of the run, if it is valid, and the line of the status
 *   number                           the last number in the line of the status
 *   whole                            how many bytes the lines have in all
 *
 * Always writes `number` and `whole`, and returns the status. */
uint8_t ame_check(const uint8_t *certificate, size_t certificate_length,
                  uint8_t *room, size_t room_length,
                  uint64_t *number, size_t *whole);

/* Checks the text of a program that may call devices 0 and 1. Returns AME_ACCEPTED, AME_REFUSED, AME_ILL_TYPED or AME_NO_MEMORY, and always writes
 * the rule that the text breaks (0 if it isn't ill-typed) and the place of the fault (0 if there is none). */
uint8_t ame_types(const uint8_t *text, size_t text_length, uint8_t *rule, uint64_t *place);

/* The limits of a run. */
struct ame_limits {
    uint32_t workers; /* 1 to 32 */
    uint32_t turns;   /* 1 to 4,000,000 */
    uint32_t slice;   /* 1 to 1,000 reductions between two events */
};

/* The numbers that a run writes: the number of its status, and how many bytes each text has in all. */
struct ame_whole {
    uint64_t number;
    size_t lines;
    size_t certificate;
    size_t schedule;
};

/* Runs a program as `ame sim` does, under the choices of a seed from 0 to 65,536. Device 0 counts its calls, and device 1 adds up what it is
 * called with.
 *
 *   lines        what `ame` prints: the lines of the run, that of the status, and that of the schedule
 *   certificate  the certificate of the run, as ame_check takes it; empty if no run was begun
 *   schedule     the schedule of the run with its program, as ame_replay takes it; empty if no run was begun
 *
 * Always writes all of `whole`, and returns the status. */
uint8_t ame_sim(const uint8_t *text, size_t text_length, uint32_t seed, const struct ame_limits *limits,
                uint8_t *lines, size_t lines_length,
                uint8_t *certificate, size_t certificate_length,
                uint8_t *schedule, size_t schedule_length,
                struct ame_whole *whole);

/* Runs a program again as `ame replay` does: `scheduled` is a schedule with its program. Writes what ame_sim writes. */
uint8_t ame_replay(const uint8_t *scheduled, size_t scheduled_length, const struct ame_limits *limits,
                   uint8_t *lines, size_t lines_length,
                   uint8_t *certificate, size_t certificate_length,
                   uint8_t *schedule, size_t schedule_length,
                   struct ame_whole *whole);

/* Runs a program under the weak semantics as `ame weak` does, by a seed from 0 to 65,536 and with 1 to 4,000,000 turns. Writes what ame_sim
 * writes, but for the schedule: its length is 0. */
uint8_t ame_weak(const uint8_t *text, size_t text_length, uint32_t seed, uint32_t turns,
                 uint8_t *lines, size_t lines_length,
                 uint8_t *certificate, size_t certificate_length,
                 struct ame_whole *whole);

#ifdef __cplusplus
}
#endif

#endif
