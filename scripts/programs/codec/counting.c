/* The memory of each decoding of scripts/programs/codec, loaded before the C library. A request of 2^44 and n bytes
   begins a decoding of n bytes, one of 2^45 ends it; both are refused. What is taken between them is added up, what
   is given back taken off, and the most of it, with the most beyond the input's length, is printed at the end. */
#define _GNU_SOURCE
#include <dlfcn.h>
#include <malloc.h>
#include <stddef.h>
#include <stdio.h>
#include <stdlib.h>

#define BEGIN ((size_t)1 << 44)
#define END ((size_t)1 << 45)

static int counts;
static long length, taken, peak, most, beyond = -1000000000, decodings;

static int marked(size_t size) {
  if (size >= END) {
    counts = 0;
    if (peak > most) most = peak;
    if (peak - length > beyond) beyond = peak - length;
    return 1;
  }
  if (size >= BEGIN) {
    counts = 1, decodings++;
    length = size - BEGIN, taken = 0, peak = 0;
    return 1;
  }
  return 0;
}

static void *took(void *block) {
  if (counts && block) {
    taken += malloc_usable_size(block);
    if (taken > peak) peak = taken;
  }
  return block;
}

static void gave(void *block) {
  if (counts && block) taken -= malloc_usable_size(block);
}

#define REAL(name) static __typeof__(&name) real; if (!real) real = (__typeof__(real))dlsym(RTLD_NEXT, #name)

void *malloc(size_t size) {
  REAL(malloc);
  return marked(size) ? NULL : took(real(size));
}

void *aligned_alloc(size_t align, size_t size) {
  REAL(aligned_alloc);
  return marked(size) ? NULL : took(real(align, size));
}

int posix_memalign(void **block, size_t align, size_t size) {
  REAL(posix_memalign);
  int answer = marked(size) ? 12 : real(block, align, size);
  if (!answer) took(*block);
  return answer;
}

void *realloc(void *block, size_t size) {
  REAL(realloc);
  size_t before = block ? malloc_usable_size(block) : 0;
  void *after = real(block, size);
  if (counts && after) {
    /* while it is moved both may be there */
    long there = taken + malloc_usable_size(after);
    if (there > peak) peak = there;
    taken += (long)malloc_usable_size(after) - (long)before;
  }
  return after;
}

void free(void *block) {
  REAL(free);
  gave(block);
  real(block);
}

__attribute__((destructor)) static void tell(void) {
  fprintf(stderr, "decodings %ld, at most %ld bytes taken, at most %ld beyond the input\n", decodings, most, beyond);
}
