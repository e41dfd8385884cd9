/* sevunthi_messages.h: messages and works as bytes, for a C host of nodes: what kind a message is, for whom it is, what
 * an answer says, and how a client's requests and the works are coded. Nothing here needs the library. Numbers stand
 * with the least byte first. What reads answers false where the bytes are something else; what writes needs the room
 * that is named, and gives the length. `cluster/check-header` compares the kinds with those of the library. */
#ifndef SEVUNTHI_MESSAGES_H
#define SEVUNTHI_MESSAGES_H

#include <stdbool.h>
#include <stddef.h>
#include <stdint.h>
#include <string.h>

/* The kinds of messages. */
typedef enum {
  SEVUNTHI_KIND_WRITE = 0,      /* a client's write */
  SEVUNTHI_KIND_READ = 1,       /* a client's read */
  SEVUNTHI_KIND_WRITE_OK = 2,   /* a write is durable: sevunthi_read_written */
  SEVUNTHI_KIND_READ_OK = 3,    /* what was read: sevunthi_read_found */
  SEVUNTHI_KIND_REFUSED = 4,    /* a refusal: sevunthi_read_refused */
  SEVUNTHI_KIND_PLACE = 5,      /* a segment's replica is to be kept, whole */
  SEVUNTHI_KIND_APPEND = 6,     /* entries are to be added to a replica */
  SEVUNTHI_KIND_CLOSE = 7,      /* a replica is to be closed */
  SEVUNTHI_KIND_STORED = 8,     /* what is kept of a replica */
  SEVUNTHI_KIND_COMMIT = 9,     /* a segment's epoch is to be committed */
  SEVUNTHI_KIND_COMMIT_OK = 10, /* it is */
  SEVUNTHI_KIND_ENLIST = 11,    /* a server is there */
  SEVUNTHI_KIND_READY = 12,     /* a server has a head, and can take tablets */
  SEVUNTHI_KIND_LIST = 13,      /* the list of servers */
  SEVUNTHI_KIND_GATHER = 14,    /* a backup is to fence a crashed master, and to say what it holds of it */
  SEVUNTHI_KIND_REPLICAS = 15,  /* what it holds */
  SEVUNTHI_KIND_PLAN = 16,      /* a recovery begins */
  SEVUNTHI_KIND_FETCH = 17,     /* entries are to be sent to a recovery's master */
  SEVUNTHI_KIND_DATA = 18,      /* these entries */
  SEVUNTHI_KIND_RECOVERED = 19, /* they are durable there */
  SEVUNTHI_KIND_OWN = 20,       /* a range is granted: sevunthi_read_granted */
  SEVUNTHI_KIND_SPLIT_OK = 21,  /* a tablet was split */
  SEVUNTHI_KIND_FREE = 22       /* a segment is dead, and need not be kept */
} sevunthi_kind;

/* Where a message comes from or goes to. */
typedef enum { SEVUNTHI_AT_COORDINATOR = 0, SEVUNTHI_AT_SERVER = 1, SEVUNTHI_AT_OUTSIDE = 2 } sevunthi_sort;

/* A server: one run of one host. It takes five bytes. */
typedef struct {
  uint8_t index;       /* the host, 0 to 63 */
  uint32_t generation; /* the number of the start, from 1 */
} sevunthi_id;

typedef struct {
  sevunthi_sort sort;
  sevunthi_id id; /* of a server */
} sevunthi_address;

/* The front of a message, and the bytes of its body. */
typedef struct {
  sevunthi_address from, to;
  sevunthi_kind kind;
  const uint8_t *body;
  size_t length;
} sevunthi_envelope;

/* A write that is durable, at this place of the server's log, has this version. */
typedef struct {
  uint16_t segment;
  uint64_t offset;
  uint32_t table;
  uint64_t key, version;
} sevunthi_written;

/* A key's greatest durable version, 0 where there is none, and its value, if there is one. */
typedef struct {
  uint32_t table;
  uint64_t key, version;
  bool has_value;
  const uint8_t *value;
  size_t length;
} sevunthi_found;

/* A range that is granted, both keys included. */
typedef struct {
  uint32_t table;
  uint64_t first, last;
} sevunthi_granted;

/* A number of so many bytes. */
static inline uint64_t sevunthi_number(const uint8_t *bytes, size_t count) {
  uint64_t number = 0;
  for (size_t at = count; at-- > 0;)
    number = number << 8 | bytes[at];
  return number;
}

/* Writes it, and gives the place behind it. */
static inline uint8_t *sevunthi_put_number(uint8_t *to, uint64_t number, size_t count) {
  for (size_t at = 0; at < count; at++)
    *to++ = (uint8_t)(number >> 8 * at);
  return to;
}

static inline uint8_t *sevunthi_put_id(uint8_t *to, sevunthi_id id) {
  *to = id.index;
  return sevunthi_put_number(to + 1, id.generation, 4);
}

static inline sevunthi_id sevunthi_read_id(const uint8_t *bytes) {
  sevunthi_id id = {bytes[0], (uint32_t)sevunthi_number(bytes + 1, 4)};
  return id;
}

/* The next of the messages that stand behind one another, each behind its length in four bytes, as sevunthi_leave gives
 * them. `*bytes` and `*length` are what is left behind it. */
static inline bool sevunthi_next(const uint8_t **bytes, size_t *length, const uint8_t **message,
                                 size_t *message_length) {
  if (*length < 4)
    return false;
  uint64_t count = sevunthi_number(*bytes, 4);
  if (*length - 4 < count)
    return false;
  *message = *bytes + 4;
  *message_length = (size_t)count;
  *bytes += 4 + count;
  *length -= 4 + (size_t)count;
  return true;
}

/* Takes an address from the front. */
static inline bool sevunthi_take_address(const uint8_t **bytes, size_t *length, sevunthi_address *address) {
  if (*length < 1 || (*bytes)[0] > SEVUNTHI_AT_OUTSIDE)
    return false;
  size_t count = (*bytes)[0] == SEVUNTHI_AT_SERVER ? 6 : 1;
  if (*length < count)
    return false;
  sevunthi_id none = {0, 0};
  address->sort = (sevunthi_sort)(*bytes)[0];
  address->id = count == 6 ? sevunthi_read_id(*bytes + 1) : none;
  *bytes += count;
  *length -= count;
  return true;
}

/* The front of a coded message. Bring it to the node that `to` names: a server's is that of its host's index, whatever
 * the generation. The coordinator does not look at `to`: bring it nothing else. */
static inline bool sevunthi_read_envelope(const uint8_t *message, size_t length, sevunthi_envelope *envelope) {
  if (length < 1 || message[0] != 1)
    return false;
  message++;
  length--;
  if (!sevunthi_take_address(&message, &length, &envelope->from) ||
      !sevunthi_take_address(&message, &length, &envelope->to) || length < 1 || message[0] > SEVUNTHI_KIND_FREE)
    return false;
  envelope->kind = (sevunthi_kind)message[0];
  envelope->body = message + 1;
  envelope->length = length - 1;
  return true;
}

static inline bool sevunthi_read_written(const sevunthi_envelope *envelope, sevunthi_written *written) {
  const uint8_t *body = envelope->body;
  if (envelope->kind != SEVUNTHI_KIND_WRITE_OK || envelope->length < 34)
    return false;
  written->segment = (uint16_t)sevunthi_number(body, 2);
  written->offset = sevunthi_number(body + 2, 8);
  written->table = (uint32_t)sevunthi_number(body + 14, 4); /* behind the term */
  written->key = sevunthi_number(body + 18, 8);
  written->version = sevunthi_number(body + 26, 8);
  return true;
}

static inline bool sevunthi_read_found(const sevunthi_envelope *envelope, sevunthi_found *found) {
  const uint8_t *body = envelope->body;
  if (envelope->kind != SEVUNTHI_KIND_READ_OK || envelope->length < 21)
    return false;
  found->table = (uint32_t)sevunthi_number(body, 4);
  found->key = sevunthi_number(body + 4, 8);
  found->version = sevunthi_number(body + 12, 8);
  found->has_value = body[20] != 0;
  if (found->has_value && (envelope->length < 29 || envelope->length - 29 < sevunthi_number(body + 21, 8)))
    return false;
  found->value = found->has_value ? body + 29 : NULL;
  found->length = found->has_value ? (size_t)sevunthi_number(body + 21, 8) : 0;
  return true;
}

/* The number behind the F. */
static inline bool sevunthi_read_refused(const sevunthi_envelope *envelope, uint8_t *code) {
  if (envelope->kind != SEVUNTHI_KIND_REFUSED || envelope->length < 1)
    return false;
  *code = envelope->body[0];
  return true;
}

static inline bool sevunthi_read_granted(const sevunthi_envelope *envelope, sevunthi_granted *granted) {
  if (envelope->kind != SEVUNTHI_KIND_OWN || envelope->length < 20)
    return false;
  granted->table = (uint32_t)sevunthi_number(envelope->body, 4);
  granted->first = sevunthi_number(envelope->body + 4, 8);
  granted->last = sevunthi_number(envelope->body + 12, 8);
  return true;
}

/* A client's read, of 21 bytes. */
static inline size_t sevunthi_put_read(uint8_t *to, sevunthi_id server, uint32_t table, uint64_t key) {
  uint8_t *at = to;
  *at++ = 1;
  *at++ = SEVUNTHI_AT_OUTSIDE;
  *at++ = SEVUNTHI_AT_SERVER;
  at = sevunthi_put_id(at, server);
  *at++ = SEVUNTHI_KIND_READ;
  at = sevunthi_put_number(at, table, 4);
  at = sevunthi_put_number(at, key, 8);
  return (size_t)(at - to);
}

/* A client's write, of 30 bytes and those of the value, 1,024 at most; null deletes. Deliver each at most once. */
static inline size_t sevunthi_put_write(uint8_t *to, sevunthi_id server, uint32_t table, uint64_t key,
                                        const void *value, size_t length) {
  uint8_t *at = to + sevunthi_put_read(to, server, table, key);
  to[8] = SEVUNTHI_KIND_WRITE;
  *at++ = value != NULL;
  if (value != NULL) {
    at = sevunthi_put_number(at, length, 8);
    if (length != 0)
      memcpy(at, value, length);
    at += length;
  }
  return (size_t)(at - to);
}

/* The works, for sevunthi_step: at most 14 bytes. */
enum { SEVUNTHI_MOST_WORK = 14 };

/* The timer of the coordinator, or of the server that runs on the host. */
static inline size_t sevunthi_put_tick(uint8_t *to) {
  to[0] = 1;
  to[1] = 2;
  return 2;
}

/* The server that runs on the host stops. */
static inline size_t sevunthi_put_stop(uint8_t *to) {
  to[0] = 1;
  to[1] = 3;
  return 2;
}

/* To the coordinator: this server is believed dead. */
static inline size_t sevunthi_put_suspect(uint8_t *to, sevunthi_id id) {
  to[0] = 1;
  to[1] = 5;
  return (size_t)(sevunthi_put_id(to + 2, id) - to);
}

/* To the coordinator: decide the recovery of this server. */
static inline size_t sevunthi_put_decide(uint8_t *to, sevunthi_id id) {
  size_t length = sevunthi_put_suspect(to, id);
  to[1] = 6;
  return length;
}

/* To the coordinator: create this table, which must be new, for this owner. */
static inline size_t sevunthi_put_create(uint8_t *to, uint32_t table, sevunthi_id owner) {
  to[0] = 1;
  to[1] = 7;
  return (size_t)(sevunthi_put_id(sevunthi_put_number(to + 2, table, 4), owner) - to);
}

/* To the coordinator: split the tablet of this table that holds this key before it. */
static inline size_t sevunthi_put_split(uint8_t *to, uint32_t table, uint64_t key) {
  to[0] = 1;
  to[1] = 8;
  return (size_t)(sevunthi_put_number(sevunthi_put_number(to + 2, table, 4), key, 8) - to);
}

#endif
