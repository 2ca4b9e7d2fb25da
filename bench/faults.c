// Preloaded into a program by bench/faults.sh: counts its calls of one name, and has those from one number to another go otherwise.
//   FAULTY_CALL   read, write or open; writes to standard error go as ever
//   FAULTY_FROM   the number, from 1, of the first call that goes otherwise; 0 is none
//   FAULTY_TO     the number of the last one
//   FAULTY_EACH   of these, each such number: 2 has every second one go otherwise (1)
//   FAULTY_HOW    the error that the call gives: EINTR, EIO, ENOSPC, EPIPE, EAGAIN or EMFILE; or SHORT, where it takes or gives one
//                 byte at most; or SHRINK and GROW, where the file of FAULTY_FILE is cut to FAULTY_SIZE bytes, or has as many
//                 spaces more, before the call
//   FAULTY_COUNT  a file of at least 8 bytes, into which the number of calls is put while they come
//   FAULTY_SECONDS  after how many seconds an alarm ends the program
#define _GNU_SOURCE
#include <errno.h>
#include <fcntl.h>
#include <stdarg.h>
#include <stdatomic.h>
#include <stdlib.h>
#include <string.h>
#include <sys/mman.h>
#include <sys/syscall.h>
#include <sys/uio.h>
#include <unistd.h>

static _Atomic unsigned long own_count;
static _Atomic unsigned long *count = &own_count;
static unsigned long from, to, each = 1, size;
static const char *call = "", *how = "", *path;

static const struct {
  const char *name;
  int number;
} errors[] = {{"EINTR", EINTR}, {"EIO", EIO}, {"ENOSPC", ENOSPC}, {"EPIPE", EPIPE}, {"EAGAIN", EAGAIN}, {"EMFILE", EMFILE}};

static const char *text_in(const char *name, const char *other) {
  const char *text = getenv(name);
  return text ? text : other;
}

static unsigned long number_in(const char *name) { return strtoul(text_in(name, "0"), NULL, 10); }

__attribute__((constructor)) static void start(void) {
  const char *counted = getenv("FAULTY_COUNT");
  call = text_in("FAULTY_CALL", "");
  how = text_in("FAULTY_HOW", "");
  path = getenv("FAULTY_FILE");
  size = number_in("FAULTY_SIZE");
  from = number_in("FAULTY_FROM");
  to = number_in("FAULTY_TO");
  if (number_in("FAULTY_EACH")) each = number_in("FAULTY_EACH");
  if (counted) {
    long file = syscall(SYS_openat, AT_FDCWD, counted, O_RDWR);
    if (file >= 0) {
      void *shared = mmap(NULL, sizeof *count, PROT_READ | PROT_WRITE, MAP_SHARED, (int)file, 0);
      if (shared != MAP_FAILED) {
        count = shared;
        *count = 0;
      }
      syscall(SYS_close, (int)file);
    }
  }
  alarm((unsigned)number_in("FAULTY_SECONDS"));
}

// Makes the file of FAULTY_FILE shorter or longer.
static void change_file(void) {
  if (!path) return;
  if (!strcmp(how, "SHRINK")) {
    if (truncate(path, (off_t)size)) abort();
    return;
  }
  long file = syscall(SYS_openat, AT_FDCWD, path, O_WRONLY | O_APPEND);
  for (unsigned long i = 0; i < size; i++)
    if (syscall(SYS_write, (int)file, " ", 1) != 1) abort();
  syscall(SYS_close, (int)file);
}

// Whether this call goes otherwise: 0 where it doesn't, 1 where it is to be short, and -1 with the error's number.
static int otherwise(const char *name) {
  if (strcmp(name, call)) return 0;
  unsigned long now = atomic_fetch_add(count, 1) + 1;
  if (from == 0 || now < from || to < now || (now - from) % each != 0) return 0;
  if (!strcmp(how, "SHORT")) return 1;
  for (unsigned i = 0; i < sizeof errors / sizeof *errors; i++)
    if (!strcmp(how, errors[i].name)) {
      errno = errors[i].number;
      return -1;
    }
  change_file();
  return 0;
}


ssize_t read(int file, void *to_bytes, size_t bytes) {
  int fault = otherwise("read");
  if (fault < 0) return -1;
  return syscall(SYS_read, file, to_bytes, fault && bytes ? 1 : bytes);
}

ssize_t write(int file, const void *of, size_t bytes) {
  int fault = file == 2 ? 0 : otherwise("write");
  if (fault < 0) return -1;
  return syscall(SYS_write, file, of, fault && bytes ? 1 : bytes);
}

ssize_t readv(int file, const struct iovec *parts, int many) {
  int fault = otherwise("read");
  if (fault < 0) return -1;
  if (fault && many > 0) return syscall(SYS_read, file, parts->iov_base, parts->iov_len ? 1 : 0);
  return syscall(SYS_readv, file, parts, many);
}

ssize_t writev(int file, const struct iovec *parts, int many) {
  int fault = file == 2 ? 0 : otherwise("write");
  if (fault < 0) return -1;
  if (fault && many > 0) return syscall(SYS_write, file, parts->iov_base, parts->iov_len ? 1 : 0);
  return syscall(SYS_writev, file, parts, many);
}

int openat(int folder, const char *name, int flags, ...) {
  va_list more;
  va_start(more, flags);
  int mode = flags & O_CREAT ? va_arg(more, int) : 0;
  va_end(more);
  if (otherwise("open") < 0) return -1;
  return (int)syscall(SYS_openat, folder, name, flags, mode);
}

int open(const char *name, int flags, ...) {
  va_list more;
  va_start(more, flags);
  int mode = flags & O_CREAT ? va_arg(more, int) : 0;
  va_end(more);
  if (otherwise("open") < 0) return -1;
  return (int)syscall(SYS_openat, AT_FDCWD, name, flags, mode);
}
