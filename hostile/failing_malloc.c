/* Lets chosen allocations fail. hostile/memory and hostile/refusals preload it: FAIL_AT=N lets the N-th fail, counted from 1,
   and FAIL_FROM=N all from the N-th on. COUNT_IN names a file of 8 bytes that counts them all. */
#include <errno.h>
#include <fcntl.h>
#include <stdatomic.h>
#include <stddef.h>
#include <stdlib.h>
#include <sys/mman.h>
#include <unistd.h>

/* The C library's own. */
extern void *__libc_malloc(size_t size);
extern void *__libc_calloc(size_t count, size_t size);
extern void *__libc_realloc(void *old, size_t size);

static atomic_long own;
static atomic_long *count = &own;
static long at = -1;
static long from = -1;

static long number(const char *name) {
  const char *word = getenv(name);
  return word ? atol(word) : -1;
}

__attribute__((constructor)) static void begin(void) {
  const char *path = getenv("COUNT_IN");
  int file = path ? open(path, O_RDWR) : -1;
  if (file >= 0) {
    void *place = mmap(NULL, sizeof(atomic_long), PROT_READ | PROT_WRITE, MAP_SHARED, file, 0);
    if (place != MAP_FAILED) {
      count = place;
      atomic_store(count, 0);
    }
    close(file);
  }
  at = number("FAIL_AT");
  from = number("FAIL_FROM");
}

static int fails(void) {
  long n = atomic_fetch_add(count, 1) + 1;
  if (n != at && (from < 0 || n < from)) return 0;
  errno = ENOMEM;
  return 1;
}

void *malloc(size_t size) { return fails() ? NULL : __libc_malloc(size); }
void *calloc(size_t n, size_t size) { return fails() ? NULL : __libc_calloc(n, size); }
void *realloc(void *old, size_t size) { return fails() ? NULL : __libc_realloc(old, size); }
