// Preloaded into a program by bench/memory.sh: counts its requests for memory and for threads, and refuses one of them, or all from one on.
//   REFUSED_FROM   the number, from 1, of the request that is refused; 0 refuses none
//   REFUSED_TO     the number of the last one that is refused
//   REFUSED_COUNT  a file of at least 8 bytes, into which the number of requests is put while they come
//   REFUSED_SECONDS  after how many seconds an alarm ends the program
// What the dynamic linker asked for before this file's constructor has run isn't counted.
#define _GNU_SOURCE
#include <dlfcn.h>
#include <errno.h>
#include <fcntl.h>
#include <pthread.h>
#include <stdatomic.h>
#include <stdlib.h>
#include <sys/mman.h>
#include <sys/syscall.h>
#include <unistd.h>

static _Atomic unsigned long own_count;
static _Atomic unsigned long *count = &own_count;
static unsigned long from, to;
static _Atomic int counting;

static unsigned long number_in(const char *name) {
  const char *text = getenv(name);
  return text ? strtoul(text, NULL, 10) : 0;
}

__attribute__((constructor)) static void start(void) {
  const char *path = getenv("REFUSED_COUNT");
  from = number_in("REFUSED_FROM");
  to = number_in("REFUSED_TO");
  if (path) {
    int file = open(path, O_RDWR);
    if (file >= 0) {
      long shared = syscall(SYS_mmap, NULL, sizeof *count, PROT_READ | PROT_WRITE, MAP_SHARED, file, 0L);
      if (shared > 0 || shared < -4095) count = (_Atomic unsigned long *)shared;
      close(file);
      *count = 0;
    }
  }
  alarm((unsigned)number_in("REFUSED_SECONDS"));
  counting = 1;
}

// Whether this request is refused.
static int refused(void) {
  if (!counting) return 0;
  unsigned long now = atomic_fetch_add(count, 1) + 1;
  return from != 0 && from <= now && now <= to;
}

void *__libc_malloc(size_t);
void *__libc_calloc(size_t, size_t);
void *__libc_realloc(void *, size_t);
void *__libc_memalign(size_t, size_t);

static void *none(void) {
  errno = ENOMEM;
  return NULL;
}

void *malloc(size_t size) { return refused() ? none() : __libc_malloc(size); }

void *calloc(size_t members, size_t size) { return refused() ? none() : __libc_calloc(members, size); }

void *realloc(void *old, size_t size) { return refused() ? none() : __libc_realloc(old, size); }

void *aligned_alloc(size_t align, size_t size) { return refused() ? none() : __libc_memalign(align, size); }

void *memalign(size_t align, size_t size) { return refused() ? none() : __libc_memalign(align, size); }

int posix_memalign(void **at, size_t align, size_t size) {
  if (refused()) return ENOMEM;
  void *found = __libc_memalign(align, size);
  if (!found) return ENOMEM;
  *at = found;
  return 0;
}

void *mmap(void *at, size_t size, int rights, int flags, int file, off_t offset) {
  if (refused()) {
    errno = ENOMEM;
    return MAP_FAILED;
  }
  return (void *)syscall(SYS_mmap, at, size, rights, flags, file, offset);
}

void *mremap(void *old, size_t size, size_t more, int flags, ...) {
  if (refused()) {
    errno = ENOMEM;
    return MAP_FAILED;
  }
  return (void *)syscall(SYS_mremap, old, size, more, flags, NULL);
}

int pthread_create(pthread_t *thread, const pthread_attr_t *how, void *(*body)(void *), void *with) {
  static int (*next)(pthread_t *, const pthread_attr_t *, void *(*)(void *), void *);
  if (refused()) return EAGAIN;
  if (!next) *(void **)&next = dlsym(RTLD_NEXT, "pthread_create");
  return next(thread, how, body, with);
}
