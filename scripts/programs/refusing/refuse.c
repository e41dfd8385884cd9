/* Loaded before a program, refuses its allocations in turn: at each one the process is forked, and the copy is refused
   this allocation and goes on to its end. So the way to an allocation is run once, and not again for each number.

   REFUSE_ROOM is the folder for what is found: `log` has a line for each allocation, its number, how the copy ended
   (its status, or `signal` and which), how many lines `refused` it wrote to standard error, and the name of the file
   with its standard output; what several wrote stands there once. `all` is what the program writes where nothing is
   refused. REFUSE_FROM and REFUSE_EVERY choose the first number and each how many-th is tried; REFUSE_SIDE is how many
   copies run side by side. A copy that takes over a minute is ended. */
#define _GNU_SOURCE
#include <dlfcn.h>
#include <fcntl.h>
#include <signal.h>
#include <stdint.h>
#include <stdio.h>
#include <stdlib.h>
#include <string.h>
#include <sys/mman.h>
#include <sys/stat.h>
#include <sys/syscall.h>
#include <sys/wait.h>
#include <unistd.h>

enum { MOST_FILES = 32, MOST_COPIES = 64, MOST_BYTES = 1 << 26 };

struct Copy {
  pid_t pid;
  long number;
};

/* what a copy tells the process that it was made of */
struct Told {
  uint64_t sum;
  long refused;
};

static void *(*next_malloc)(size_t);
static void *(*next_realloc)(void *, size_t);
static ssize_t (*next_write)(int, const void *, size_t);
static const char *room;
static long from = 1, every = 1, side = 1, number;
static int is_copy, is_ready, to_log = -1;
static char *output;
static size_t written;
static char line[16];
static size_t in_line;
static long refused;
static struct Copy copies[MOST_COPIES];
static struct Told *told;

static _Noreturn void stop(int status) {
  for (;;) syscall(SYS_exit_group, status);
}

static long setting(const char *name, long otherwise) {
  const char *value = getenv(name);
  return value ? atol(value) : otherwise;
}

static void *shared(size_t size, int flags) {
  void *at = mmap(0, size, PROT_READ | PROT_WRITE, flags | MAP_ANONYMOUS | MAP_NORESERVE, -1, 0);
  if (at == MAP_FAILED) stop(70);
  return at;
}

__attribute__((constructor)) static void begin(void) {
  next_malloc = dlsym(RTLD_NEXT, "malloc");
  next_realloc = dlsym(RTLD_NEXT, "realloc");
  next_write = dlsym(RTLD_NEXT, "write");
  room = getenv("REFUSE_ROOM");
  if (!room) return;
  from = setting("REFUSE_FROM", 1);
  every = setting("REFUSE_EVERY", 1);
  side = setting("REFUSE_SIDE", 1);
  if (side > MOST_COPIES) side = MOST_COPIES;
  output = shared(MOST_BYTES, MAP_PRIVATE);
  told = shared(sizeof(struct Told) * MOST_COPIES, MAP_SHARED);
  char name[4096];
  snprintf(name, sizeof name, "%s/log", room);
  to_log = open(name, O_WRONLY | O_CREAT | O_TRUNC | O_APPEND | O_CLOEXEC, 0600);
  if (to_log < 0) stop(70);
  is_ready = 1;
}

/* waits for one copy that has ended, and writes its line */
static void end_of_copy(void) {
  int status, at;
  pid_t pid = waitpid(-1, &status, 0);
  for (at = 0; at < side && copies[at].pid != pid; at++) {
  }
  if (pid < 0 || at == side) return;
  copies[at].pid = 0;
  const char *how = WIFEXITED(status) ? "status" : "signal";
  int which = WIFEXITED(status) ? WEXITSTATUS(status) : WTERMSIG(status);
  dprintf(to_log, "%ld %s %d %ld %016llx\n", copies[at].number, how, which, told[at].refused,
          (unsigned long long)told[at].sum);
}

static int free_place(void) {
  for (;;) {
    for (int at = 0; at < side; at++)
      if (!copies[at].pid) return at;
    end_of_copy();
  }
}

/* in a copy: files that were open get places of their own to read from */
static void open_again(const off_t *places) {
  for (int fd = 0; fd < MOST_FILES; fd++) {
    char name[64];
    if (places[fd] < 0) continue;
    snprintf(name, sizeof name, "/proc/self/fd/%d", fd);
    int again = open(name, O_RDONLY);
    if (again < 0 || lseek(again, places[fd], SEEK_SET) < 0 || dup2(again, fd) < 0) stop(70);
    close(again);
  }
}

/* whether this allocation is refused: in the copy that was made for it, and nowhere else */
static int is_refused(void) {
  if (!is_ready || is_copy) return 0;
  number++;
  if (number < from || (number - from) % every) return 0;
  off_t places[MOST_FILES];
  struct stat found;
  for (int fd = 0; fd < MOST_FILES; fd++) {
    int is_read = (fcntl(fd, F_GETFL) & O_ACCMODE) == O_RDONLY;
    places[fd] = is_read && !fstat(fd, &found) && S_ISREG(found.st_mode) ? lseek(fd, 0, SEEK_CUR) : -1;
  }
  int at = free_place();
  told[at].sum = 0, told[at].refused = 0;
  pid_t pid = fork();
  if (pid < 0) stop(70);
  if (pid) {
    copies[at] = (struct Copy){pid, number};
    return 0;
  }
  is_copy = 1;
  told += at;
  open_again(places);
  alarm(60);
  return 1;
}

void *malloc(size_t size) {
  if (!next_malloc) next_malloc = dlsym(RTLD_NEXT, "malloc");
  return is_refused() ? 0 : next_malloc(size);
}

void *realloc(void *old, size_t size) {
  if (!next_realloc) next_realloc = dlsym(RTLD_NEXT, "realloc");
  return is_refused() ? 0 : next_realloc(old, size);
}

static void count_refused(const char *text, size_t size) {
  for (size_t at = 0; at < size; at++) {
    if (text[at] == '\n') {
      refused += in_line == 7 && !memcmp(line, "refused", 7);
      in_line = 0;
    } else {
      if (in_line < sizeof line) line[in_line] = text[at];
      in_line++;
    }
  }
}

ssize_t write(int fd, const void *text, size_t size) {
  if (!is_ready || (fd != 1 && fd != 2)) return next_write(fd, text, size);
  if (fd == 2) {
    count_refused(text, size);
  } else {
    if (size > MOST_BYTES - written) stop(70);
    memcpy(output + written, text, size);
    written += size;
  }
  return is_copy ? (ssize_t)size : next_write(fd, text, size);
}

/* puts what was written into a file of this name, unless one stands there */
static void keep(const char *name) {
  char path[4096];
  snprintf(path, sizeof path, "%s/%s", room, name);
  int to = open(path, O_WRONLY | O_CREAT | O_EXCL, 0600);
  for (size_t at = 0; to >= 0 && at < written;) {
    ssize_t count = next_write(to, output + at, written - at);
    if (count <= 0) stop(70);
    at += count;
  }
}

__attribute__((destructor)) static void end(void) {
  if (!is_ready) return;
  is_ready = 0;
  if (!is_copy) {
    for (int at = 0; at < side; at++)
      while (copies[at].pid) end_of_copy();
    keep("all");
    return;
  }
  uint64_t sum = 14695981039346656037u;
  for (size_t at = 0; at < written; at++) sum = (sum ^ (unsigned char)output[at]) * 1099511628211u;
  char name[32];
  snprintf(name, sizeof name, "%016llx", (unsigned long long)sum);
  keep(name);
  told->sum = sum, told->refused = refused;
}

/* a program that ends by this call runs no destructors */
_Noreturn void _exit(int status) {
  end();
  stop(status);
}
