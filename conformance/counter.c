/* Four threads add to one location, each by a transaction that validates what it read: a runtime of one page that records its run.
   cc -Wall -Wextra -Werror -pthread counter.c -o counter && ./counter | ./judge-recording
   With -DBUG no transaction validates, and most recordings are judged invalid. */
#include <pthread.h>
#include <sched.h>
#include <stdbool.h>
#include "recorder.h"

enum { TASKS = 4, LOCATION = 0 };

static const char program[] =
    "(let r (ref p 0)\n"
    "  (let add (fn p (x Unit) (set r (+ (get r) 1)))\n"
    "    (do (async (app add unit)) (async (app add unit)) (async (app add unit)) (async (app add unit)))))\n";

static pthread_mutex_t commit = PTHREAD_MUTEX_INITIALIZER;
static struct { long long value; unsigned long version; } shared;

/* Commits a value that was computed from one of this version; returns whether it could. */
static bool commits(unsigned long task, unsigned long version, long long value)
{
    pthread_mutex_lock(&commit);
    bool is_valid = shared.version == version;
#ifdef BUG
    is_valid = true;
#endif
    if (is_valid) {
        shared.value = value + 1;
        shared.version++;
        record_ran(stdout, task);
        record_read(stdout, LOCATION, value);
        record_wrote(stdout, LOCATION, value + 1);
    }
    pthread_mutex_unlock(&commit);
    return is_valid;
}

static void *run(void *argument)
{
    unsigned long task = *(unsigned long *)argument, version;
    long long value;
    do {
        pthread_mutex_lock(&commit);
        value = shared.value;
        version = shared.version;
        pthread_mutex_unlock(&commit);
        sched_yield();
    } while (!commits(task, version, value));
    return NULL;
}

int main(void)
{
    pthread_t threads[TASKS];
    unsigned long tasks[TASKS];
    record_program(stdout, program, sizeof program - 1, "read wrote print starts call output store");
    record_ran(stdout, 0);
    for (unsigned long i = 0; i < TASKS; i++)
        record_starts(stdout, tasks[i] = i + 1);
    for (int i = 0; i < TASKS; i++)
        pthread_create(&threads[i], NULL, run, &tasks[i]);
    for (int i = 0; i < TASKS; i++)
        pthread_join(threads[i], NULL);
    record_store(stdout, LOCATION, shared.value);
    record_end(stdout, "finished");
    return 0;
}
