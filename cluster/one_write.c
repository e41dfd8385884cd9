/* One write, acknowledged, from C: three hosts and a coordinator in one process, without a disk. A server writes what
 * sevunthi_take_journal gives to its journal's file, and syncs, before it says what is safe. */
#include "sevunthi.h"
#include <stdio.h>
#include <stdlib.h>
#include <string.h>

enum { HOSTS = 3, NODES = 4, ROOM = 1 << 16 };

static sevunthi_node nodes[NODES]; /* all zeros: empty */
static uint8_t mail[1 << 20], room[ROOM];
static size_t mailed, taken;

static void must(uint32_t answer, const char *what) {
  if (answer != SEVUNTHI_DONE) {
    fprintf(stderr, "%s: %u\n", what, answer);
    exit(1);
  }
}

/* Takes all that a node wants to write and to send. */
static void collect(sevunthi_node *node) {
  size_t needed = 0;
  sevunthi_info_t info;
  must(sevunthi_take_journal(node, room, sizeof room, &needed), "journal");
  must(sevunthi_info(node, &info), "info");
  must(sevunthi_synced(node, info.written), "synced");
  while (sevunthi_leave(node, mail + mailed, sizeof mail - mailed, &needed) == SEVUNTHI_DONE)
    mailed += needed;
}

/* Brings all messages, and theirs, until none is left. Says whether a WriteOk came for the outside. */
static bool settle(void) {
  bool acknowledged = false;
  for (int i = 0; i < NODES; i++)
    collect(&nodes[i]);
  while (taken < mailed) {
    const uint8_t *rest = mail + taken, *message = NULL;
    size_t left = mailed - taken, length = 0;
    sevunthi_envelope envelope;
    sevunthi_written written;
    if (!sevunthi_next(&rest, &left, &message, &length) || !sevunthi_read_envelope(message, length, &envelope))
      exit(1);
    taken = mailed - left;
    if (envelope.to.sort == SEVUNTHI_AT_OUTSIDE) {
      acknowledged |= sevunthi_read_written(&envelope, &written) && written.table == 7 && written.key == 5;
    } else {
      sevunthi_node *node = &nodes[envelope.to.sort == SEVUNTHI_AT_SERVER ? envelope.to.id.index : HOSTS];
      must(sevunthi_deliver(node, message, length), "deliver");
      collect(node);
    }
  }
  mailed = taken = 0;
  return acknowledged;
}

int main(void) {
  const sevunthi_id owner = {0, 1};
  uint8_t create[SEVUNTHI_MOST_WORK], write[64];
  for (uint8_t i = 0; i < HOSTS; i++)
    must(sevunthi_host(&nodes[i], i, 2, 1024, true), "host");
  must(sevunthi_coordinator(&nodes[HOSTS]), "coordinator");
  settle();
  for (int i = 0; i < HOSTS; i++)
    must(sevunthi_start(&nodes[i]), "start");
  settle();
  must(sevunthi_step(&nodes[HOSTS], create, sevunthi_put_create(create, 7, owner)), "create");
  settle();
  must(sevunthi_deliver(&nodes[0], write, sevunthi_put_write(write, owner, 7, 5, "hi", 2)), "write");
  bool acknowledged = settle();
  bool misused = sevunthi_host(&nodes[0], 0, 2, 1024, true) == SEVUNTHI_MISUSED;
  bool malformed = sevunthi_step(&nodes[0], create, 1) == SEVUNTHI_MALFORMED;
  for (int i = 0; i < NODES; i++)
    sevunthi_free(&nodes[i]);
  bool empty = sevunthi_start(&nodes[0]) == SEVUNTHI_MISUSED;
  puts(acknowledged && misused && malformed && empty ? "acknowledged" : "wrong");
  return !(acknowledged && misused && malformed && empty);
}
