/* Refuses one making of a thread, that whose number REFUSED says, or one allocation, whose number REFUSED_ALLOCATION
   says, from 1 on, as a system that can give no more; and says so on standard error. */
#define _GNU_SOURCE
#include <dlfcn.h>
#include <errno.h>
#include <pthread.h>
#include <stdlib.h>
#include <unistd.h>

typedef int making(pthread_t *, const pthread_attr_t *, void *(*)(void *), void *);

static int is_refused(const char *setting, int *made) {
  const char *number = getenv(setting);
  if (__atomic_add_fetch(made, 1, __ATOMIC_SEQ_CST) != (number ? atoi(number) : 0)) return 0;
  return write(2, "refused\n", 8) == 8;
}

int pthread_create(pthread_t *thread, const pthread_attr_t *how, void *(*run)(void *), void *with) {
  static int made;
  if (is_refused("REFUSED", &made)) return EAGAIN;
  return ((making *)dlsym(RTLD_NEXT, "pthread_create"))(thread, how, run, with);
}

static int allocated;

void *malloc(size_t size) {
  static void *(*next)(size_t);
  if (!next) next = (void *(*)(size_t))dlsym(RTLD_NEXT, "malloc");
  return is_refused("REFUSED_ALLOCATION", &allocated) ? 0 : next(size);
}

void *realloc(void *old, size_t size) {
  static void *(*next)(void *, size_t);
  if (!next) next = (void *(*)(void *, size_t))dlsym(RTLD_NEXT, "realloc");
  return is_refused("REFUSED_ALLOCATION", &allocated) ? 0 : next(old, size);
}
