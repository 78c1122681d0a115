/* Refuses one request for memory: the REFUSE_ALLOCth that the program makes, counted from 1, or with REFUSE_FROM all from that one on.
   Where REFUSE_COUNT names a file of eight bytes, it counts them there. It stands before the C library (LD_PRELOAD). */
#define _GNU_SOURCE
#include <errno.h>
#include <fcntl.h>
#include <stdatomic.h>
#include <stdlib.h>
#include <sys/mman.h>
#include <unistd.h>

static atomic_long here, *made = &here;
static long refused, first;

__attribute__((constructor)) static void begin(void) {
  const char *one = getenv("REFUSE_ALLOC"), *from = getenv("REFUSE_FROM"), *count = getenv("REFUSE_COUNT");
  int file = count ? open(count, O_RDWR) : -1;
  void *mapped = file < 0 ? MAP_FAILED : mmap(NULL, sizeof *made, PROT_READ | PROT_WRITE, MAP_SHARED, file, 0);
  if (mapped != MAP_FAILED) made = mapped;
  refused = one ? atol(one) : 0;
  first = from ? atol(from) : 0;
  atomic_store(made, 0);
}

static int is_refused(void) {
  long number = atomic_fetch_add(made, 1) + 1;
  return (refused && number == refused) || (first && number >= first);
}

extern void *__libc_malloc(size_t), *__libc_calloc(size_t, size_t), *__libc_realloc(void *, size_t), *__libc_memalign(size_t, size_t);

void *malloc(size_t size) {
  if (is_refused()) { errno = ENOMEM; return NULL; }
  return __libc_malloc(size);
}

void *calloc(size_t count, size_t size) {
  if (is_refused()) { errno = ENOMEM; return NULL; }
  return __libc_calloc(count, size);
}

void *realloc(void *old, size_t size) {
  if (is_refused()) { errno = ENOMEM; return NULL; }
  return __libc_realloc(old, size);
}

int posix_memalign(void **to, size_t align, size_t size) {
  if (is_refused()) return ENOMEM;
  *to = __libc_memalign(align, size);
  return *to ? 0 : ENOMEM;
}

void *aligned_alloc(size_t align, size_t size) {
  if (is_refused()) { errno = ENOMEM; return NULL; }
  return __libc_memalign(align, size);
}
