// Loaded before a program, this refuses one of its calls: the one whose number, from 1, the variable REFUSE_GROWTH,
// REFUSE_READ or REFUSE_WRITE gives. Where the call came, it leaves the file that REFUSED names. REFUSE_ROOM refuses all
// bytes on standard output from that one on. Where REFUSE_WITH is 'interruption' a refused read or write says that it was
// interrupted; where it is 'nothing' a refused write takes nothing, and tells no error. With REFUSE_PIECE no read gives, and
// no write takes, more bytes than that at once.
#define _GNU_SOURCE
#include <dlfcn.h>
#include <errno.h>
#include <fcntl.h>
#include <stdatomic.h>
#include <stddef.h>
#include <stdlib.h>
#include <string.h>
#include <sys/uio.h>
#include <unistd.h>

extern void *__libc_malloc(size_t size);
extern void *__libc_calloc(size_t count, size_t size);
extern void *__libc_realloc(void *old, size_t size);

// How many calls are left, the refused one among them; 0 where none is refused, and before the program begins.
static atomic_long growth, reads, writes;
static long room;

static long number_in(const char *name) {
  const char *text = getenv(name);
  return text ? atol(text) : 0;
}

__attribute__((constructor)) static void begin(void) {
  growth = number_in("REFUSE_GROWTH");
  reads = number_in("REFUSE_READ");
  writes = number_in("REFUSE_WRITE");
  room = number_in("REFUSE_ROOM");
}

// Whether this call is the one, whichever thread makes it.
static int is_due(atomic_long *left) {
  long now = atomic_load(left);
  while (now > 0 && !atomic_compare_exchange_weak(left, &now, now - 1)) {
  }
  if (now != 1) return 0;
  const char *note = getenv("REFUSED");
  if (note) close(open(note, O_CREAT | O_WRONLY, 0600));
  return 1;
}

static void *no_room(void) {
  errno = ENOMEM;
  return NULL;
}

static int is_refused_with(const char *word) {
  const char *with = getenv("REFUSE_WITH");
  return with && strcmp(with, word) == 0;
}

static ssize_t no_transfer(void) {
  errno = is_refused_with("interruption") ? EINTR : EIO;
  return -1;
}

static size_t piece_of(size_t size) {
  long piece = number_in("REFUSE_PIECE");
  return piece > 0 && (size_t)piece < size ? (size_t)piece : size;
}

void *malloc(size_t size) { return is_due(&growth) ? no_room() : __libc_malloc(size); }

void *calloc(size_t count, size_t size) { return is_due(&growth) ? no_room() : __libc_calloc(count, size); }

void *realloc(void *old, size_t size) { return is_due(&growth) ? no_room() : __libc_realloc(old, size); }

ssize_t read(int file, void *into, size_t size) {
  static ssize_t (*other)(int, void *, size_t);
  if (!other) other = dlsym(RTLD_NEXT, "read");
  return is_due(&reads) ? no_transfer() : other(file, into, piece_of(size));
}

ssize_t write(int file, const void *from, size_t size) {
  static ssize_t (*other)(int, const void *, size_t);
  if (!other) other = dlsym(RTLD_NEXT, "write");
  if (file != 1) return other(file, from, size);
  if (is_due(&writes)) return is_refused_with("nothing") ? 0 : no_transfer();
  if (room == 1 && size > 0) return no_transfer();
  size = piece_of(size);
  if (room == 0) return other(file, from, size);
  size_t most = room - 1;
  ssize_t taken = other(file, from, size < most ? size : most);
  if (taken > 0) room -= taken;
  return taken;
}

ssize_t writev(int file, const struct iovec *from, int count) {
  ssize_t all = 0;
  for (int i = 0; i < count; i++) {
    ssize_t taken = write(file, from[i].iov_base, from[i].iov_len);
    if (taken < 0) return all > 0 ? all : taken;
    all += taken;
    if ((size_t)taken < from[i].iov_len) break;
  }
  return all;
}
