/* sevunthi.h: nodes of a replicated log, for C.
 *
 * A node lives behind a `sevunthi_node`, a place in the caller's memory that is all zeros where it is empty. It is used by one
 * thread at a time, and stays on the thread that filled it. Bytes are a pointer, which is not null, and a length. Each call
 * answers a number; after any but SEVUNTHI_DONE nothing has changed, unless its words say so. `cluster/check-header` compares
 * this file with the exports. sevunthi_messages.h reads and writes what goes in and comes out. */
#ifndef SEVUNTHI_H
#define SEVUNTHI_H

#include <stdbool.h>
#include <stddef.h>
#include <stdint.h>

#include "sevunthi_messages.h"

/* The version of what is declared here. It rises with each change that makes a program wrong that was compiled before:
 * of a parameter, a field, a number, or of what a call means. The library does not say its own: take both of one build.
 * #if SEVUNTHI_ABI_VERSION != 1 is how a program says which one it was written for. */
#define SEVUNTHI_ABI_VERSION 1

enum {
  SEVUNTHI_DONE = 0,
  SEVUNTHI_NO_MEMORY = 1,
  SEVUNTHI_MISUSED = 2,      /* the place is empty, or, for what fills one, full */
  SEVUNTHI_MALFORMED = 3,    /* the bytes are no work, or no message */
  SEVUNTHI_REFUSED = 4,      /* it can't be done now */
  SEVUNTHI_USED_UP = 5,      /* the node's numbers are used up */
  SEVUNTHI_NO_ROOM = 6,      /* the caller's bytes are too few */
  SEVUNTHI_OUT_OF_RANGE = 7, /* a number is out of its range */
  SEVUNTHI_NOTHING = 8,      /* nothing may leave now */
  SEVUNTHI_NO_SAVE = 9,      /* the file begins with no save: the node must not start */
  SEVUNTHI_TOO_SHORT = 10    /* bytes of the file are missing that were safe: the node must not start */
};

typedef struct {
  bool full;
  void *at;
} sevunthi_node;

/* A node at a glance. What only a host or its server has is 0, or false, of another node. */
typedef struct {
  size_t written;      /* how many bytes the journal's file has, with those that were not taken yet */
  size_t safe;         /* how many of them are known to be safe */
  size_t untaken;      /* how many of them were not taken yet */
  size_t entries;      /* how many entries the newest segment of its log has: the place of the next one */
  uint32_t generation; /* of the server of the host's last start; 0 where it was never started */
  uint16_t head;       /* the newest segment of its log */
  uint8_t index;       /* the host's */
  bool runs;           /* whether a server runs on the host */
  bool is_deposed;     /* whether that has learnt that the coordinator holds it for dead */
  bool is_waiting;     /* whether something is held back until more is safe, or was not taken */
  bool is_saving;      /* whether a save was begun that has not taken the journal's place */
  bool has_room;       /* whether the node's numbers suffice for one more step */
} sevunthi_info_t;

#ifdef __cplusplus
extern "C" {
#endif

/* The coordinator, before anything has happened, in an empty place. What sevunthi_take_journal gives is the whole file to
 * begin with, and has to be safe before the node is given anything. */
uint32_t sevunthi_coordinator(sevunthi_node *node);

/* A host that was never started, in an empty place: index 0 to 63, factor 1 to 5, segment 1 to 1,024 entries. */
uint32_t sevunthi_host(sevunthi_node *node, uint8_t index, uint8_t factor, uint16_t segment, bool free);

/* The node that comes back from its journal's file, in an empty place, stopped. Cut the file to `written` less `untaken`,
 * add what sevunthi_take_journal gives, and sync: nothing is safe yet. `known` bytes of the file were known to be safe. */
uint32_t sevunthi_come_back(sevunthi_node *node, const uint8_t *file, size_t file_length, size_t known);

/* Frees the node, if there is one: the place is empty then. */
void sevunthi_free(sevunthi_node *node);

/* Gives the node a coded work. */
uint32_t sevunthi_step(sevunthi_node *node, const uint8_t *work, size_t work_length);

/* Delivers a coded message, which has to be for this node. */
uint32_t sevunthi_deliver(sevunthi_node *node, const uint8_t *message, size_t message_length);

/* Starts the host's server anew, with all open replicas that the host has. Where it fails the server may be stopped. */
uint32_t sevunthi_start(sevunthi_node *node);

/* So many bytes of the journal's file are safe: they will be there after any crash. */
uint32_t sevunthi_synced(sevunthi_node *node, size_t count);

/* Begins a save, which is to be the second file. From now on what sevunthi_take_journal gives belongs at the end of both. */
uint32_t sevunthi_save(sevunthi_node *node);

/* The second file has taken the journal's place, and that is safe. */
uint32_t sevunthi_saved(sevunthi_node *node);

/* Moves what has to be added to the journal's file into `to`, if there is room. `needed` is how many bytes it takes. */
uint32_t sevunthi_take_journal(sevunthi_node *node, uint8_t *to, size_t to_length, size_t *needed);

/* Moves the second file of a save into `to`, if there is room. */
uint32_t sevunthi_take_second(sevunthi_node *node, uint8_t *to, size_t to_length, size_t *needed);

/* Lets what one step has sent leave, into `to`, if there is room: each message behind its length in four bytes. Call it
 * until it answers SEVUNTHI_NOTHING. */
uint32_t sevunthi_leave(sevunthi_node *node, uint8_t *to, size_t to_length, size_t *needed);

/* Shows the node. */
uint32_t sevunthi_info(sevunthi_node *node, sevunthi_info_t *info);

/* The coordinator's tablets: how many, in eight bytes, and of each table (4), first key (8), last key (8), owner (5), term
 * (4), and whether the owner has crashed (1). */
uint32_t sevunthi_tablets(sevunthi_node *node, uint8_t *to, size_t to_length, size_t *needed);

/* The coordinator's servers: how many, in eight bytes, and of each the id (5), and whether it is up (1). */
uint32_t sevunthi_servers(sevunthi_node *node, uint8_t *to, size_t to_length, size_t *needed);

/* What is due at the coordinator, for who was heard, who was silent, and which owners are stuck: each list is how many, in
 * eight bytes, and ids. Each due takes seven bytes: a coded Suspect or Decide, or a Stop with the id of who has to begin
 * anew. */
uint32_t sevunthi_dues(sevunthi_node *node, const uint8_t *heard, size_t heard_length, const uint8_t *silent,
                       size_t silent_length, const uint8_t *stuck, size_t stuck_length, uint8_t *to, size_t to_length,
                       size_t *needed);

/* HMAC with SHA-256 of a message under a key, in the first 32 bytes of `to`. */
uint32_t sevunthi_mac(const uint8_t *key, size_t key_length, const uint8_t *message, size_t message_length, uint8_t *to,
                      size_t to_length);

#ifdef __cplusplus
}
#endif

#endif
