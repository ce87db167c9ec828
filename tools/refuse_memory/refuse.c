/* Loaded before the C library (LD_PRELOAD), it refuses requests for memory of a process.
 *
 * A request is a call of one of the functions below, counted from 1. REFUSE_AT is the number of the
 * one that is refused, with REFUSE_ONWARDS together with all after it. As the process ends, how many
 * there were is written to the file REFUSE_COUNT.
 */
#define _GNU_SOURCE
#include <dlfcn.h>
#include <errno.h>
#include <fcntl.h>
#include <stdio.h>
#include <stdlib.h>
#include <unistd.h>

static unsigned long requests;

static int is_refused(void) {
  static int is_read, onwards;
  static unsigned long at;
  if (!is_read) {
    const char *number = getenv("REFUSE_AT");
    at = number ? strtoul(number, NULL, 10) : 0;
    onwards = getenv("REFUSE_ONWARDS") != NULL;
    is_read = 1;
  }
  requests++;
  return at != 0 && (requests == at || (onwards && requests > at));
}

/* The function of this name, which asks the one behind it unless the request is refused. */
#define ASK(name, parameters, arguments)                  \
  void *name parameters {                                 \
    static void *(*behind) parameters;                    \
    if (!behind) *(void **)&behind = dlsym(RTLD_NEXT, #name); \
    if (is_refused()) {                                   \
      errno = ENOMEM;                                     \
      return NULL;                                        \
    }                                                     \
    return behind arguments;                              \
  }

ASK(malloc, (size_t size), (size))
ASK(calloc, (size_t count, size_t size), (count, size))
ASK(realloc, (void *old, size_t size), (old, size))
ASK(aligned_alloc, (size_t alignment, size_t size), (alignment, size))

__attribute__((destructor)) static void write_count(void) {
  const char *name = getenv("REFUSE_COUNT");
  int file = name ? open(name, O_WRONLY | O_CREAT | O_TRUNC, 0600) : -1;
  if (file >= 0) {
    dprintf(file, "%lu\n", requests);
    close(file);
  }
}
