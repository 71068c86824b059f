/* The C functions of Rattle's libraries os and libc that yardcheck and yardlist reach, written once more: the kit has them for x86-64 alone,
 * and this is for other machines. Nothing is proved of them; as with the kit's own, what they do is trusted. */
#include <errno.h>
#include <fcntl.h>
#include <stdbool.h>
#include <stddef.h>
#include <stdlib.h>
#include <string.h>
#include <sys/types.h>

/* An earlier library os opened files by these two; today's std does so by the C library's own call, and nothing calls them now. */
int rattle_open_to_read(const char *path) { return open(path, O_RDONLY | O_CLOEXEC); }
int rattle_open_new(const char *path, mode_t mode) { return open(path, O_WRONLY | O_CREAT | O_EXCL | O_CLOEXEC, mode); }
int rattle_errno(void) { return errno; }
void rattle_set_errno(int error) { errno = error; }

/* A program's main has no arguments of its own: the C library hands them to what it calls before main. */
static int count;
static char **words;

__attribute__((constructor)) static void keep(int argc, char **argv) {
  count = argc;
  words = argv;
}

size_t rattle_arg_count(void) { return (size_t)count; }

/* Argument i at the start of the buffer, and its length; -1 where there is none, -2 where it does not fit, and then the buffer is full. */
ssize_t rattle_arg(size_t i, char *buffer, size_t n) {
  if (i >= (size_t)count) return -1;
  size_t length = strlen(words[i]);
  memcpy(buffer, words[i], length < n ? length : n);
  return length <= n ? (ssize_t)length : -2;
}

/* Whether memory was to be had, and where; of none, a place that is not null. Of no bytes, as many are asked for as they are aligned to. */
struct tried {
  bool ok;
  void *p;
};

static struct tried tried(void *p) {
  static char none;
  return (struct tried){p != NULL, p != NULL ? p : &none};
}

struct tried rattle_alloc(size_t n, size_t align) { return tried(malloc(n != 0 ? n : align)); }

struct tried rattle_realloc(void *p, size_t kept, size_t n, size_t align) {
  (void)kept;
  return tried(realloc(p, n != 0 ? n : align));
}

void rattle_dealloc(void *p) { free(p); }
