/* host.c: a tiny cluster in C, of one process for each node, with journals on disk, over UDP on this machine.
 *
 *   host node SECRET PORT INDEX FOLDER    host INDEX of 0 to 3, or, with 4, the coordinator
 *   host put SECRET PORT KEY VALUE        writes a value of at most 64 bytes, and prints its version
 *   host get SECRET PORT KEY              reads it, confirmed
 *
 * SECRET is a file of 32 bytes or more that all have, and nobody else; nodes listen at PORT and the ports behind it.
 * Four hosts, each segment with its master and one replica: any host may be killed, and one at a time is no loss. It is
 * small, and no more than an example: datagrams have at most 60,000 bytes, so it serves as long as what one node says
 * about a log fits there; a journal is never made short (sevunthi_save does that); and nothing guards against an older
 * copy of a folder. The duties of whoever has a node are numbered as docs/EMBEDDING.md has them. */
#define _GNU_SOURCE
#include "sevunthi.h"
#include <arpa/inet.h>
#include <errno.h>
#include <fcntl.h>
#include <poll.h>
#include <stdio.h>
#include <stdlib.h>
#include <sys/file.h>
#include <sys/socket.h>
#include <sys/stat.h>
#include <time.h>
#include <unistd.h>

#if SEVUNTHI_ABI_VERSION != 1
#error "host.c is written for version 1 of sevunthi.h"
#endif

enum { HOSTS = 4, TABLE = 1, SEGMENT = 64, MOST = 60000, SUM = 32, TICK = 100, SILENCE = 1000, LATER = 64, VALUE = 64 };

/* What the first byte says of what is no message, which begins with 1: a heartbeat with an id; "begin anew", with an
 * id; a client's request, with a number and a key of eight bytes and perhaps a value; and the answer to it, with the
 * number, a version and a value. */
enum { BEAT = 0, NOT_UP = 255, PUT = 'P', GET = 'G', DONE = 'D', REFUSED = 'R' };

/* A client's request until the write at its place is acknowledged: of a get that is the write that confirms it. */
typedef struct {
  bool is_there;
  uint16_t segment;
  uint64_t offset;
  struct sockaddr_in client;
  uint8_t answer[18 + VALUE];
  size_t length;
} request;

static sevunthi_node node; /* all zeros: empty */
static sevunthi_id server;
static int place, port, line, journal, known, folder;
static uint8_t secret[SUM], room[1 << 23], out[1 << 20];
static request later[LATER];
static uint64_t granted_last, heard_at[HOSTS];
static bool has_range, is_replaced;
static sevunthi_id heard[HOSTS];

static void fail(const char *what) {
  fprintf(stderr, "host %d: %s: %s\n", place, what, strerror(errno));
  exit(1);
}

static uint64_t now(void) {
  struct timespec time;
  clock_gettime(CLOCK_MONOTONIC, &time);
  return (uint64_t)time.tv_sec * 1000 + (uint64_t)time.tv_nsec / 1000000;
}

static struct sockaddr_in at(int where) {
  struct sockaddr_in address = {.sin_family = AF_INET, .sin_port = htons((uint16_t)(port + where))};
  address.sin_addr.s_addr = htonl(INADDR_LOOPBACK);
  return address;
}

/* Sends it behind a sum that only who has the secret can make: no message is forged. It may be lost. */
static void say(struct sockaddr_in to, const uint8_t *bytes, size_t length) {
  static uint8_t sealed[SUM + MOST];
  if (length > MOST)
    return;
  sevunthi_mac(secret, sizeof secret, bytes, length, sealed, SUM);
  memcpy(sealed + SUM, bytes, length);
  (void)sendto(line, sealed, SUM + length, 0, (struct sockaddr *)&to, sizeof to);
}

static sevunthi_info_t info(void) {
  sevunthi_info_t now_is;
  sevunthi_info(&node, &now_is);
  return now_is;
}

/* Duties 1, 2 and 5: what the node has written down stands at the journal's end; then it is synced, noted elsewhere how
 * much that is, and said. A write or a sync that fails ends the process. */
static void write_journal(void) {
  size_t needed = 0;
  uint32_t taken = sevunthi_take_journal(&node, room, sizeof room, &needed);
  if (taken != SEVUNTHI_DONE || write(journal, room, needed) != (ssize_t)needed)
    fail("journal");
  if (!info().is_waiting)
    return;
  uint64_t length = info().written;
  if (fdatasync(journal) != 0 || pwrite(known, &length, sizeof length, 0) != sizeof length)
    fail("sync");
  sevunthi_synced(&node, length);
}

/* A node comes back from its journal, or begins with a new one. Duties 3 and 4. */
static void open_node(const char *path) {
  folder = open(path, O_RDONLY | O_DIRECTORY);
  if (folder < 0 || flock(folder, LOCK_EX | LOCK_NB) != 0)
    fail(path);
  known = openat(folder, "known", O_RDWR | O_CREAT, 0600);
  journal = openat(folder, "journal", O_RDWR | O_APPEND);
  uint64_t safe = 0;
  if (pread(known, &safe, sizeof safe, 0) < 0)
    fail("known");
  if (journal >= 0) {
    struct stat found;
    uint8_t *bytes = fstat(journal, &found) == 0 ? malloc((size_t)found.st_size + 1) : NULL;
    if (bytes == NULL || pread(journal, bytes, (size_t)found.st_size, 0) != found.st_size || fsync(folder) != 0)
      fail("journal");
    uint32_t came = sevunthi_come_back(&node, bytes, (size_t)found.st_size, safe);
    free(bytes);
    if (came != SEVUNTHI_DONE || ftruncate(journal, (off_t)(info().written - info().untaken)) != 0)
      fail("this node must not start");
  } else {
    if (safe != 0)
      fail("this node must not start: its journal is gone");
    uint32_t made =
        place == HOSTS ? sevunthi_coordinator(&node) : sevunthi_host(&node, (uint8_t)place, 1, SEGMENT, true);
    journal = openat(folder, "journal", O_RDWR | O_APPEND | O_CREAT, 0600);
    if (made != SEVUNTHI_DONE || journal < 0)
      fail("new node");
  }
  size_t needed = 0;
  if (sevunthi_take_journal(&node, room, sizeof room, &needed) != SEVUNTHI_DONE ||
      write(journal, room, needed) != (ssize_t)needed || fsync(journal) != 0 || fsync(folder) != 0)
    fail("journal");
  uint64_t length = info().written;
  if (pwrite(known, &length, sizeof length, 0) != sizeof length || fsync(known) != 0)
    fail("known");
  sevunthi_synced(&node, length);
}

static void refuse(struct sockaddr_in client, const uint8_t *number) {
  uint8_t answer[9] = {REFUSED};
  memcpy(answer + 1, number, 8);
  say(client, answer, sizeof answer);
}

/* A write is durable: it is answered, or the read that it confirms. */
static void acknowledge(const sevunthi_written *written) {
  for (int i = 0; i < LATER; i++) {
    if (!later[i].is_there || later[i].segment != written->segment || later[i].offset != written->offset)
      continue;
    if (written->key % 2 == 0)
      sevunthi_put_number(later[i].answer + 9, written->version, 8);
    say(later[i].client, later[i].answer, later[i].length);
    later[i].is_there = false;
  }
}

/* What may leave does. An answer to a read is left in `found`, if somebody waits for one. */
static void leave(request *found) {
  size_t length = 0, message_length = 0;
  while (sevunthi_leave(&node, out, sizeof out, &length) == SEVUNTHI_DONE) {
    const uint8_t *rest = out, *message = NULL;
    sevunthi_envelope envelope;
    sevunthi_written written;
    sevunthi_found read;
    while (sevunthi_next(&rest, &length, &message, &message_length)) {
      if (!sevunthi_read_envelope(message, message_length, &envelope))
        continue;
      if (envelope.to.sort != SEVUNTHI_AT_OUTSIDE) {
        say(at(envelope.to.sort == SEVUNTHI_AT_SERVER ? envelope.to.id.index : HOSTS), message, message_length);
      } else if (sevunthi_read_written(&envelope, &written)) {
        acknowledge(&written);
      } else if (found != NULL && sevunthi_read_found(&envelope, &read) && read.length <= VALUE) {
        found->is_there = true;
        sevunthi_put_number(found->answer + 9, read.version, 8);
        found->answer[17] = read.has_value;
        if (read.length != 0)
          memcpy(found->answer + 18, read.value, read.length);
        found->length = 18 + read.length;
      }
    }
  }
}

/* A client's request: of a key its node's is twice as great, and the last one of the range is this host's own. No
 * answer names its request: where the head has one entry more, that is the write. */
static void ask(struct sockaddr_in client, const uint8_t *bytes, size_t length) {
  request asked = {.client = client, .length = 18, .answer = {DONE}};
  request *free_one = later;
  while (free_one < later + LATER && free_one->is_there)
    free_one++;
  uint64_t key = 2 * sevunthi_number(bytes + 9, 8);
  if (length < 17 || length > 17 + VALUE || !has_range || free_one == later + LATER)
    return refuse(client, bytes + 1);
  memcpy(asked.answer + 1, bytes + 1, 8);
  uint8_t code[30 + VALUE];
  leave(NULL);
  if (bytes[0] == GET) {
    sevunthi_deliver(&node, code, sevunthi_put_read(code, server, TABLE, key));
    leave(&asked);
    if (!asked.is_there)
      return refuse(client, bytes + 1);
    length = 17; /* a write to the last key confirms it */
    key = granted_last;
  }
  sevunthi_info_t before = info();
  sevunthi_deliver(&node, code, sevunthi_put_write(code, server, TABLE, key, bytes + 17, length - 17));
  sevunthi_info_t after = info();
  if (after.head != before.head || after.entries != before.entries + 1)
    return refuse(client, bytes + 1);
  asked.is_there = true;
  asked.segment = before.head;
  asked.offset = before.entries;
  *free_one = asked;
}

/* The server begins anew, with a new id. Nobody answers what was asked of the old one. */
static void begin(void) {
  memset(later, 0, sizeof later);
  has_range = is_replaced = false;
  sevunthi_start(&node);
  sevunthi_info_t started = info();
  server = (sevunthi_id){started.index, started.generation};
  fprintf(stderr, "host %d: server %d.%u begins\n", place, server.index, server.generation);
}

/* What came. */
static void take(struct sockaddr_in from, const uint8_t *bytes, size_t length) {
  sevunthi_envelope envelope;
  sevunthi_granted granted;
  if (length >= 6 && bytes[0] == BEAT && bytes[1] < HOSTS) {
    heard[bytes[1]] = sevunthi_read_id(bytes + 1);
    heard_at[bytes[1]] = now();
  } else if (length >= 6 && bytes[0] == NOT_UP) {
    sevunthi_id id = sevunthi_read_id(bytes + 1);
    is_replaced |= id.index == server.index && id.generation == server.generation;
  } else if (length >= 17 && (bytes[0] == PUT || bytes[0] == GET)) {
    ask(from, bytes, length);
  } else if (sevunthi_read_envelope(bytes, length, &envelope)) {
    int to = envelope.to.sort == SEVUNTHI_AT_SERVER ? envelope.to.id.index : HOSTS;
    if (envelope.to.sort == SEVUNTHI_AT_OUTSIDE || to != place ||
        sevunthi_deliver(&node, bytes, length) != SEVUNTHI_DONE)
      return;
    if (sevunthi_read_granted(&envelope, &granted) && envelope.to.id.generation == server.generation) {
      has_range = true;
      granted_last = granted.last;
    }
  }
}

/* The coordinator: suspects who is silent, decides recoveries, has who was replaced begin anew, and makes the table. */
static void do_dues(uint64_t began) {
  static uint8_t lists[2][8 + 5 * HOSTS], rows[1 << 16];
  static const uint8_t none[8];
  size_t counts[2] = {0, 0}, needed = 0;
  uint8_t *ends[2] = {lists[0] + 8, lists[1] + 8}, work[SEVUNTHI_MOST_WORK];
  if (now() < began + 2 * SILENCE || sevunthi_servers(&node, rows, sizeof rows, &needed) != SEVUNTHI_DONE)
    return;
  sevunthi_id owner = {0, 0};
  for (size_t at = 8; at + 6 <= needed; at += 6) {
    sevunthi_id id = sevunthi_read_id(rows + at);
    bool speaks = heard[id.index].generation == id.generation && now() < heard_at[id.index] + SILENCE;
    if (rows[at + 5] == 1 && speaks)
      owner = id;
    if (id.generation < heard[id.index].generation || !(speaks || rows[at + 5] == 1))
      continue; /* (of each host its newest server alone) */
    if (counts[!speaks] < HOSTS) {
      ends[!speaks] = sevunthi_put_id(ends[!speaks], id);
      counts[!speaks]++;
    }
  }
  for (int list = 0; list < 2; list++)
    sevunthi_put_number(lists[list], counts[list], 8);
  if (sevunthi_dues(&node, lists[0], (size_t)(ends[0] - lists[0]), lists[1], (size_t)(ends[1] - lists[1]), none, 8,
                    rows, sizeof rows, &needed) == SEVUNTHI_DONE)
    for (size_t at_row = 0; at_row + 7 <= needed; at_row += 7) {
      sevunthi_id id = sevunthi_read_id(rows + at_row + 2);
      uint8_t not_up[6] = {NOT_UP};
      sevunthi_put_id(not_up + 1, id);
      if (rows[at_row + 1] == 3)
        say(at(id.index), not_up, sizeof not_up);
      else
        sevunthi_step(&node, rows + at_row, 7);
    }
  if (sevunthi_tablets(&node, rows, sizeof rows, &needed) == SEVUNTHI_DONE && needed == 8 && owner.generation != 0)
    sevunthi_step(&node, work, sevunthi_put_create(work, TABLE, owner));
}

/* Takes what has come, for some milliseconds. */
static void take_turn(void) {
  static uint8_t sealed[SUM + MOST];
  uint8_t sum[SUM];
  struct pollfd polled = {.fd = line, .events = POLLIN};
  for (int count = 0; count < 64 && poll(&polled, 1, count == 0 ? 10 : 0) > 0; count++) {
    struct sockaddr_in from;
    socklen_t size = sizeof from;
    ssize_t length = recvfrom(line, sealed, sizeof sealed, 0, (struct sockaddr *)&from, &size);
    if (length < SUM)
      continue;
    sevunthi_mac(secret, sizeof secret, sealed + SUM, (size_t)length - SUM, sum, SUM);
    if (memcmp(sum, sealed, SUM) == 0)
      take(from, sealed + SUM, (size_t)length - SUM);
  }
}

static _Noreturn void run(const char *path) {
  uint64_t began = now(), ticked = began;
  uint8_t tick[SEVUNTHI_MOST_WORK], beat[6] = {BEAT};
  open_node(path);
  struct sockaddr_in mine = at(place);
  if (bind(line, (struct sockaddr *)&mine, sizeof mine) != 0)
    fail("bind");
  if (place != HOSTS)
    begin();
  for (;;) {
    take_turn();
    if (now() >= ticked + TICK) {
      ticked = now();
      sevunthi_step(&node, tick, sevunthi_put_tick(tick));
      sevunthi_put_id(beat + 1, server);
      if (place == HOSTS)
        do_dues(began);
      else
        say(at(HOSTS), beat, sizeof beat);
    }
    if (place != HOSTS && (is_replaced || info().is_deposed || !info().runs))
      begin();
    leave(NULL);
    write_journal();
    leave(NULL);
  }
}

/* A client: asks one host after another until one has done it. A put that is asked again may be done twice. */
static int call(char **words, bool puts_value) {
  uint8_t bytes[17 + VALUE] = {puts_value ? PUT : GET}, sum[SUM], answer[SUM + 18 + VALUE];
  size_t length = puts_value ? strlen(words[1]) : 0;
  if (length > VALUE)
    return 2;
  sevunthi_put_number(bytes + 1, now(), 8);
  sevunthi_put_number(bytes + 9, strtoull(words[0], NULL, 10), 8);
  if (puts_value)
    memcpy(bytes + 17, words[1], length);
  struct pollfd polled = {.fd = line, .events = POLLIN};
  for (int turn = 0; turn < 400; turn++) {
    say(at(turn % HOSTS), bytes, 17 + length);
    while (poll(&polled, 1, 100) > 0) {
      ssize_t count = recv(line, answer, sizeof answer, 0);
      sevunthi_mac(secret, sizeof secret, answer + SUM, count < SUM ? 0 : (size_t)count - SUM, sum, SUM);
      if (count < SUM + 9 || memcmp(sum, answer, SUM) != 0 || memcmp(answer + SUM + 1, bytes + 1, 8) != 0)
        continue;
      if (answer[SUM] == REFUSED)
        break;
      printf("version %llu", (unsigned long long)sevunthi_number(answer + SUM + 9, 8));
      if (!puts_value && answer[SUM + 17])
        printf(" %.*s", (int)(count - SUM - 18), (const char *)answer + SUM + 18);
      puts("");
      return 0;
    }
  }
  return 1;
}

int main(int count, char **words) {
  line = socket(AF_INET, SOCK_DGRAM, 0);
  int file = count < 5 ? -1 : open(words[2], O_RDONLY);
  if (file >= 0 && read(file, secret, sizeof secret) == sizeof secret) {
    port = atoi(words[3]);
    if (count == 6 && strcmp(words[1], "node") == 0) {
      place = atoi(words[4]);
      run(words[5]);
    }
    if (count == (strcmp(words[1], "put") == 0 ? 6 : 5))
      return call(words + 4, count == 6);
  }
  fputs("usage: host node SECRET PORT INDEX FOLDER | host put SECRET PORT KEY VALUE | host get SECRET PORT KEY\n",
        stderr);
  return 2;
}
