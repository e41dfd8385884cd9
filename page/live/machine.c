// What the program wants of a machine, for a page: memory, input, output and arguments. It has no threads, and no
// environment. What it asks of the page are the four `page_` functions, which page/live/program.mjs gives.
typedef unsigned long Size;
typedef long Signed;

extern Signed page_read(void *to, Size most);
extern Signed page_write(int number, const void *from, Size many);
extern Signed page_argument(Size place, void *to, Size most);
extern void page_exit(int status);

// ---- Memory: blocks of powers of two. What is freed waits in a list for the next one of its size. ----
#define PAGE 65536UL
#define PAGES_AT_ONCE 256UL
#define HEAD 16UL
#define LEAST_SIZE 5UL  // a block that is freed has room for where the next one is
#define GREATEST_SIZE 40UL

typedef struct Block { struct Block *next; } Block;
typedef struct { Size ok; void *block; } Tried;

extern unsigned char __heap_base;
static Size unused;
static Block *freed[GREATEST_SIZE + 1];
static unsigned char nothing;

static Size power_of(Size many) {
  Size power = LEAST_SIZE;
  while (power <= GREATEST_SIZE && (1UL << power) < many) power++;
  return power;
}

// Whether there could be so many pages more. Where addresses were shortened, what is refused is -1 of 32 bits.
static int grows(Size pages) { return (unsigned)__builtin_wasm_memory_grow(0, pages) != ~0U; }

// Whether memory reaches this far, or could be made to.
static int reaches(Size end) {
  Size wanted = (end + PAGE - 1) / PAGE, there = __builtin_wasm_memory_size(0);
  if (wanted <= there) return 1;
  return grows(wanted - there + PAGES_AT_ONCE) || grows(wanted - there);
}

void *malloc(Size many) {
  Size power = power_of(many + HEAD);
  if (many > 1UL << GREATEST_SIZE || power > GREATEST_SIZE) return 0;
  Block *again = freed[power];
  if (again) {
    freed[power] = again->next;
    return again;
  }
  if (!unused) unused = ((Size)&__heap_base + HEAD - 1) / HEAD * HEAD;
  Size end = unused + (1UL << power);
  if (!reaches(end)) return 0;
  Size *head = (Size *)unused;
  unused = end;
  head[0] = power;
  return (unsigned char *)head + HEAD;
}

void free(void *block) {
  if (!block || block == &nothing) return;
  Size power = ((Size *)block)[-2];
  Block *first = block;
  first->next = freed[power];
  freed[power] = first;
}

// Blocks lie at multiples of 16; nothing of the program wants more.
Tried rattle_alloc(Size many, Size align) {
  void *block = align <= HEAD ? malloc(many) : 0;
  return (Tried){block != 0, block ? block : &nothing};
}

void rattle_dealloc(void *block) { free(block); }

void *memcpy(void *to, const void *from, Size many) {
  unsigned char *into = to;
  const unsigned char *at = from;
  for (; many >= sizeof(Size); many -= sizeof(Size), into += sizeof(Size), at += sizeof(Size)) {
    Size word;
    __builtin_memcpy_inline(&word, at, sizeof(Size));
    __builtin_memcpy_inline(into, &word, sizeof(Size));
  }
  while (many--) *into++ = *at++;
  return to;
}

void *memmove(void *to, const void *from, Size many) {
  unsigned char *into = to;
  const unsigned char *at = from;
  if (into <= at) return memcpy(to, from, many);
  while (many--) into[many] = at[many];
  return to;
}

void *memset(void *to, int value, Size many) {
  unsigned char *into = to;
  while (many--) *into++ = value;
  return to;
}

int memcmp(const void *one, const void *other, Size many) {
  const unsigned char *left = one, *right = other;
  for (Size place = 0; place < many; place++)
    if (left[place] != right[place]) return left[place] < right[place] ? -1 : 1;
  return 0;
}

int bcmp(const void *one, const void *other, Size many) { return memcmp(one, other, many); }

Tried rattle_realloc(void *block, Size kept, Size many, Size align) {
  Tried other = rattle_alloc(many, align);
  if (!other.ok) return (Tried){0, block};
  memcpy(other.block, block, kept < many ? kept : many);
  free(block);
  return other;
}

// ---- Input, output, arguments, and the end ----
Signed read(int number, void *to, Size most) { return page_read(to, most); }
Signed write(int number, const void *from, Size many) { return page_write(number, from, many); }
Signed rattle_arg(Size place, void *to, Size most) { return page_argument(place, to, most); }
Signed rattle_env(const void *name, void *to, Size most) { return -1; }
Signed rattle_env_at(Size place, void *to, Size most) { return -1; }

static int error;
int rattle_errno(void) { return error; }
void rattle_set_errno(int number) { error = number; }

void _exit(int status) {
  page_exit(status);
  __builtin_trap();
}

void abort(void) { _exit(134); }
void *__sysv_signal(int number, void *handler) { return 0; }

// ---- Threads: each attempt to make one is refused ----
#define REFUSED 11
int sched_yield(void) { return 0; }
int pthread_attr_init(void *attributes) { return REFUSED; }
int pthread_attr_destroy(void *attributes) { return 0; }
int pthread_attr_setguardsize(void *attributes, Size many) { return 0; }
int pthread_attr_setstacksize(void *attributes, Size many) { return 0; }
int pthread_create(void *thread, void *attributes, void *function, void *argument) { return REFUSED; }
int pthread_detach(Size thread) { return 0; }
int pthread_join(Size thread, void *result) { return 0; }
Size pthread_self(void) { return 1; }
Signed syscall(Signed number, Signed one, Signed two, Signed three, Signed four, Signed five) { return -1; }

// ---- Numbers of 128 bits, which the translated program calls functions for ----
typedef __int128 Wide;
typedef unsigned __int128 WidePositive;
typedef union { Wide all; struct { Size low; Signed high; } half; } Halves;
#define HALF 32
#define LOW 0xffffffffUL
#define WORD 64

static Halves product(Size left, Size right) {
  Size low = (left & LOW) * (right & LOW), cross = (left & LOW) * (right >> HALF);
  Size other = (left >> HALF) * (right & LOW), high = (left >> HALF) * (right >> HALF);
  Size middle = (low >> HALF) + (cross & LOW) + (other & LOW);
  return (Halves){.half = {(low & LOW) | (middle << HALF),
                           high + (cross >> HALF) + (other >> HALF) + (middle >> HALF)}};
}

Wide __multi3(Wide left, Wide right) {
  Halves one = {left}, other = {right}, result = product(one.half.low, other.half.low);
  result.half.high += one.half.high * other.half.low + one.half.low * other.half.high;
  return result.all;
}

static WidePositive divided(WidePositive number, WidePositive by, WidePositive *rest) {
  WidePositive quotient = 0, left = 0;
  for (int place = 2 * WORD - 1; place >= 0; place--) {
    left = (left << 1) | ((number >> place) & 1);
    if (left >= by) {
      left -= by;
      quotient |= (WidePositive)1 << place;
    }
  }
  *rest = left;
  return quotient;
}

WidePositive __udivti3(WidePositive number, WidePositive by) {
  WidePositive rest;
  return divided(number, by, &rest);
}

WidePositive __umodti3(WidePositive number, WidePositive by) {
  WidePositive rest;
  divided(number, by, &rest);
  return rest;
}

Wide __ashlti3(Wide number, int by) {
  Halves from = {number};
  if (!by) return number;
  if (by >= WORD) return (Halves){.half = {0, from.half.low << (by - WORD)}}.all;
  return (Halves){.half = {from.half.low << by, (from.half.high << by) | (from.half.low >> (WORD - by))}}.all;
}

Wide __lshrti3(Wide number, int by) {
  Halves from = {number};
  if (!by) return number;
  if (by >= WORD) return (Halves){.half = {(Size)from.half.high >> (by - WORD), 0}}.all;
  return (Halves){.half = {(from.half.low >> by) | ((Size)from.half.high << (WORD - by)),
                           (Size)from.half.high >> by}}.all;
}
