/* Loaded before a program: one of its calls fails, or moves one byte. FAULT is a letter and two numbers:
   a3 5, the third allocation is refused; i3 5, the third read or write fails; s3 5, the third read or write of several
   bytes moves one; s0 5, each of them does. The file of descriptor 5 holds how many such calls there were. */
#define _GNU_SOURCE
#include <errno.h>
#include <stdio.h>
#include <stdlib.h>
#include <sys/mman.h>
#include <sys/syscall.h>
#include <unistd.h>

void *__libc_malloc(size_t);
void *__libc_realloc(void *, size_t);

static char kind;
static long at, *calls;

__attribute__((constructor)) static void begin(void) {
  const char *words = getenv("FAULT");
  int told;
  if (!words || sscanf(words + 1, "%ld %d", &at, &told) != 2) return;
  calls = mmap(NULL, sizeof *calls, PROT_READ | PROT_WRITE, MAP_SHARED, told, 0);
  if (calls != MAP_FAILED) kind = *words;
}

/* Whether this call is the one. */
static int is_struck(char wanted) { return kind == wanted && __atomic_add_fetch(calls, 1, __ATOMIC_SEQ_CST) == at; }

void *malloc(size_t n) { return is_struck('a') ? NULL : __libc_malloc(n); }

void *realloc(void *old, size_t n) { return is_struck('a') ? NULL : __libc_realloc(old, n); }

static ssize_t moved(long number, int end, const void *bytes, size_t n) {
  if (is_struck('i')) return errno = EIO, -1;
  int short_one = n > 1 && (is_struck('s') || (kind == 's' && at == 0));
  return syscall(number, end, bytes, short_one ? 1 : n);
}

ssize_t read(int end, void *bytes, size_t n) { return moved(SYS_read, end, bytes, n); }

ssize_t write(int end, const void *bytes, size_t n) { return moved(SYS_write, end, bytes, n); }

ssize_t __write(int end, const void *bytes, size_t n) { return moved(SYS_write, end, bytes, n); }
