/* Writes recordings (docs/CONFORMANCE.md) from a runtime in C. Call it under the lock that orders commits: the order of the lines is the
   claim. What a fragment observed is written directly after its line. Each line is written at once, so that a crash leaves what was seen. */
#ifndef RECORDER_H
#define RECORDER_H
#include <stdio.h>

#define RECORD(file, ...) do { fprintf(file, __VA_ARGS__); fflush(file); } while (0)

/* Begins a recording with the program's text. The kinds, such as "read wrote print", are recorded without gaps. */
static inline void record_program(FILE *file, const char *text, size_t size, const char *kinds)
{
    fprintf(file, "program %zu\n", size);
    fwrite(text, 1, size, file);
    RECORD(file, "\nall %s\n", kinds);
}

/* A fragment committed: the judge fills in its steps and new locations. */
static inline void record_ran(FILE *file, unsigned long task) { RECORD(file, "ran 0 %lu _ _\n", task); }

/* Unprotected code made one step that the world can see, or closed. A device's answer stands in the call below. */
static inline void record_free(FILE *file, unsigned long task) { RECORD(file, "free 0 %lu _ _\n", task); }

/* What the fragment of the last line did, in its order. Values are integers here; RECORD writes others. */
static inline void record_read(FILE *file, unsigned long at, long long value) { RECORD(file, "  read %lu %lld\n", at, value); }
static inline void record_wrote(FILE *file, unsigned long at, long long value) { RECORD(file, "  wrote %lu %lld\n", at, value); }
static inline void record_print(FILE *file, long long value) { RECORD(file, "  print %lld\n", value); }
static inline void record_starts(FILE *file, unsigned long task) { RECORD(file, "  starts %lu\n", task); }
static inline void record_call(FILE *file, int device, long long argument, long long answer)
{
    RECORD(file, "  call %d %lld = %lld\n", device, argument, answer);
}

/* What the world saw. */
static inline void record_output(FILE *file, long long value) { RECORD(file, "output %lld\n", value); }
static inline void record_heard(FILE *file, int device, long long argument, long long answer)
{
    RECORD(file, "heard %d %lld = %lld\n", device, argument, answer);
}

/* The end: the store, and then the verdict, as "finished" or "blocked 2". */
static inline void record_store(FILE *file, unsigned long at, long long value) { RECORD(file, "store %lu %lld\n", at, value); }
static inline void record_end(FILE *file, const char *verdict) { RECORD(file, "end %s\n", verdict); }
#endif
