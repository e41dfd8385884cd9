/* sevunthi_client.h: a client of a cluster of Sevunthi, for C. It needs sockets alone, and no other library;
 * docs/WIRE.md has the bytes. A client asks one thing after another, and is used by one thread at a time. It finds the
 * owner of each key, and waits where that is of use. All is said in clear, so the cluster has to take clients of this
 * machine so.
 *
 * Each call answers a number: SEVUNTHI_CLIENT_DONE; SEVUNTHI_CLIENT_UNKNOWN, where nobody knows; or, with any other
 * number, that it was not done. A write that is unknown may have been done, or may still be done, once. It is not asked
 * again by itself; a read is. Tables are made by `sevunthi create`. */
#ifndef SEVUNTHI_CLIENT_H
#define SEVUNTHI_CLIENT_H

#include <stdbool.h>
#include <stddef.h>
#include <stdint.h>

enum {
  SEVUNTHI_CLIENT_DONE = 0,
  /* 1 to 21 are the refusals F1 to F21 */
  SEVUNTHI_CLIENT_NOT_OWNER = 2,
  SEVUNTHI_CLIENT_ROLLING = 3,
  SEVUNTHI_CLIENT_NO_BACKUPS = 4,
  SEVUNTHI_CLIENT_DEPOSED = 5,
  SEVUNTHI_CLIENT_VALUE_TOO_LONG = 7,
  SEVUNTHI_CLIENT_NOT_READY = 11,
  SEVUNTHI_CLIENT_NO_TABLE = 13,
  SEVUNTHI_CLIENT_RECOVERING = 16,
  SEVUNTHI_CLIENT_UNKNOWN = 101,  /* nobody knows whether a write was done; a read has no answer */
  SEVUNTHI_CLIENT_WRONG = 102,    /* a key above 2^63 - 1, or whoever answers is another */
  SEVUNTHI_CLIENT_NO_ROOM = 103,  /* too few hosts have room on their disks */
  SEVUNTHI_CLIENT_MISMATCH = 105, /* the condition did not hold: *found is what is there, confirmed */
  SEVUNTHI_CLIENT_IN_CLEAR = 108, /* a proof of the clients' secret is wanted, and this client has none to give */
  SEVUNTHI_CLIENT_NOBODY = 200    /* nobody was asked: who should be does not answer */
};

enum { SEVUNTHI_CLIENT_MOST_VALUE = 1024 };

/* What stands at a key. */
typedef struct {
  uint64_t version; /* of its newest write, a put or a delete; 0 where there was none */
  bool has_value;
  size_t length;
  uint8_t value[SEVUNTHI_CLIENT_MOST_VALUE];
} sevunthi_client_found;

typedef struct sevunthi_client sevunthi_client;

/* A client of a cluster whose processes listen on this address: host 0 at this port, the others at those that follow,
 * and then the one coordinator. Null where there is no memory, or there are no such ports. */
sevunthi_client *sevunthi_client_open(const char *address, uint16_t port, unsigned hosts);

/* A client of the cluster of this file: on each line a host's index, or `coordinator`, and where it listens. There may
 * be several coordinators, of which one leads. Null where the file is no such one. */
sevunthi_client *sevunthi_client_open_file(const char *path);

/* Ends its connections, and gives its memory back. */
void sevunthi_client_close(sevunthi_client *client);

/* A request is tried for so many milliseconds in all, 10,000 at first, and one answer is waited for 3,000 at first. */
void sevunthi_client_set_times(sevunthi_client *client, unsigned patience, unsigned wait);

/* Each of these leaves in *found what was written, with its version and without its value, or what is there. It may be
 * null where nobody wants to know. */
int sevunthi_client_put(sevunthi_client *client, uint32_t table, uint64_t key, const void *value, size_t length,
                        sevunthi_client_found *found);
int sevunthi_client_delete(sevunthi_client *client, uint32_t table, uint64_t key, sevunthi_client_found *found);
/* Reads, confirmed: no write is missed that was answered before this was asked. */
int sevunthi_client_get(sevunthi_client *client, uint32_t table, uint64_t key, sevunthi_client_found *found);
/* Writes, if the version of the key's newest write is this one. */
int sevunthi_client_put_if(sevunthi_client *client, uint32_t table, uint64_t key, uint64_t version, const void *value,
                           size_t length, sevunthi_client_found *found);
/* Writes, if there is no value. */
int sevunthi_client_put_if_absent(sevunthi_client *client, uint32_t table, uint64_t key, const void *value,
                                  size_t length, sevunthi_client_found *found);
/* Deletes, if the version of the key's newest write is this one. */
int sevunthi_client_delete_if(sevunthi_client *client, uint32_t table, uint64_t key, uint64_t version,
                              sevunthi_client_found *found);

/* What an answer says, in words. */
const char *sevunthi_client_reason(int answer);

#endif
