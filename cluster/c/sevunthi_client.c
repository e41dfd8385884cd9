/* A client of a cluster, over sockets; sevunthi_client.h says what it does, docs/WIRE.md what it sends. */
#define _POSIX_C_SOURCE 200809L
#include "sevunthi_client.h"

#include <errno.h>
#include <netdb.h>
#include <netinet/in.h>
#include <netinet/tcp.h>
#include <stdio.h>
#include <stdlib.h>
#include <string.h>
#include <sys/socket.h>
#include <sys/time.h>
#include <time.h>
#include <unistd.h>

enum { PUT = 0, DELETE = 1, GET = 2, OWNER = 6, PUT_IF = 9, PUT_IF_ABSENT = 10, DELETE_IF = 11 };
enum { NO_VALUE = 100, MISMATCH_NO_VALUE = 106, NOT_LEADING = 107 };
enum { HEAD = 25, ANSWER_HEAD = 21, MOST_HOSTS = 64, MOST_COORDINATORS = 7, MOST_KNOWN = 16 };
enum { MOST_PLACES = MOST_HOSTS + MOST_COORDINATORS };
/* a coordinator that does not lead knows nothing of the owner */
static const uint64_t NO_HINT = UINT64_MAX;
enum { COORDINATOR_WAIT = 300, PAUSE = 10 };

/* A table's owner, as the coordinator said last. */
struct known {
  bool is_known, is_doubted;
  uint32_t table;
  unsigned owner;
};

struct sevunthi_client {
  unsigned hosts;
  unsigned coordinators;    /* of which one leads */
  char *names[MOST_PLACES]; /* of hosts, and then of the coordinators */
  char ports[MOST_PLACES][8];
  int sockets[MOST_PLACES]; /* -1 where there is none */
  struct known known[MOST_KNOWN];
  unsigned next_known;
  unsigned leads; /* the coordinator that has led last, as far as it has answered */
  unsigned guess; /* the host that is tried next, where nobody says who owns a key */
  unsigned patience, wait;
  uint64_t number;
};

/* A request, and what was answered. */
struct asked {
  uint8_t op;
  uint32_t table;
  uint64_t key;
  uint64_t version; /* of PUT_IF and DELETE_IF */
  const void *value;
  size_t length;
};

struct answer {
  int code;
  uint64_t version;
  size_t length;
  uint8_t value[SEVUNTHI_CLIENT_MOST_VALUE];
};

enum sent { ANSWERED, NOT_SENT, LOST };

static void put_number(uint8_t *to, uint64_t number, unsigned bytes) {
  for (unsigned at = 0; at < bytes; at++) to[at] = (uint8_t)(number >> (8 * at));
}

static uint64_t number_at(const uint8_t *from, unsigned bytes) {
  uint64_t number = 0;
  for (unsigned at = 0; at < bytes; at++) number |= (uint64_t)from[at] << (8 * at);
  return number;
}

static int64_t now(void) {
  struct timespec time;
  clock_gettime(CLOCK_MONOTONIC, &time);
  return (int64_t)time.tv_sec * 1000 + time.tv_nsec / 1000000;
}

static void pause_for(unsigned milliseconds) {
  struct timespec time = {milliseconds / 1000, (long)(milliseconds % 1000) * 1000000};
  nanosleep(&time, NULL);
}

static void set_timeout(int stream, int name, unsigned milliseconds) {
  struct timeval time = {milliseconds / 1000, (long)(milliseconds % 1000) * 1000};
  if (milliseconds == 0) time.tv_usec = 1; /* none would be for ever */
  setsockopt(stream, SOL_SOCKET, name, &time, sizeof time);
}

static bool send_all(int stream, const uint8_t *bytes, size_t length) {
  while (0 < length) {
    ssize_t count = send(stream, bytes, length, MSG_NOSIGNAL);
    if (count < 0 && errno == EINTR) continue;
    if (count <= 0) return false;
    bytes += count;
    length -= (size_t)count;
  }
  return true;
}

static bool read_all(int stream, uint8_t *bytes, size_t length, int64_t end) {
  while (0 < length) {
    int64_t left = end - now();
    if (left <= 0) return false;
    set_timeout(stream, SO_RCVTIMEO, (unsigned)left);
    ssize_t count = recv(stream, bytes, length, 0);
    if (count < 0 && errno == EINTR) continue;
    if (count <= 0) return false;
    bytes += count;
    length -= (size_t)count;
  }
  return true;
}

/* Connects to whoever has this place; -1 where it is not reached. */
static int dial(const sevunthi_client *client, unsigned place) {
  struct addrinfo wanted = {.ai_socktype = SOCK_STREAM}, *found = NULL;
  if (getaddrinfo(client->names[place], client->ports[place], &wanted, &found) != 0) return -1;
  int stream = -1, yes = 1;
  for (struct addrinfo *at = found; at != NULL && stream < 0; at = at->ai_next) {
    stream = socket(at->ai_family, at->ai_socktype | SOCK_CLOEXEC, at->ai_protocol);
    if (stream < 0) continue;
    set_timeout(stream, SO_SNDTIMEO, client->wait);
    if (connect(stream, at->ai_addr, at->ai_addrlen) == 0) {
      setsockopt(stream, IPPROTO_TCP, TCP_NODELAY, &yes, sizeof yes);
      if (send_all(stream, (const uint8_t *)"C", 1)) continue;
    }
    close(stream);
    stream = -1;
  }
  freeaddrinfo(found);
  return stream;
}

/* The connection to this place, a new one where the last was ended: one that asks nothing makes room for others. */
static int stream_to(sevunthi_client *client, unsigned place) {
  int stream = client->sockets[place];
  uint8_t byte;
  if (0 <= stream) {
    ssize_t count = recv(stream, &byte, 1, MSG_PEEK | MSG_DONTWAIT);
    if (0 < count || (count < 0 && (errno == EAGAIN || errno == EWOULDBLOCK))) return stream;
    close(stream);
  }
  return client->sockets[place] = dial(client, place);
}

/* Takes answers until the one of this number has come. */
static bool take_answer(int stream, uint64_t number, int64_t end, struct answer *answer) {
  for (;;) {
    uint8_t head[ANSWER_HEAD];
    if (!read_all(stream, head, sizeof head, end)) return false;
    uint64_t length = number_at(head, 4);
    if (length < 17 || length - 17 > sizeof answer->value) return false;
    answer->code = head[4];
    answer->version = number_at(head + 13, 8);
    answer->length = length - 17;
    if (!read_all(stream, answer->value, answer->length, end)) return false;
    if (number_at(head + 5, 8) == number) return true;
  }
}

/* Asks whoever has this place, once. */
static enum sent call(sevunthi_client *client, unsigned place, const struct asked *asked, unsigned wait,
                      struct answer *answer) {
  uint8_t request[HEAD + 8 + SEVUNTHI_CLIENT_MOST_VALUE];
  bool has_version = asked->op == PUT_IF || asked->op == DELETE_IF;
  size_t length = HEAD + (has_version ? 8 : 0) + asked->length;
  put_number(request, length - 4, 4);
  request[4] = asked->op;
  put_number(request + 5, ++client->number, 8);
  put_number(request + 13, asked->table, 4);
  put_number(request + 17, asked->key, 8);
  if (has_version) put_number(request + HEAD, asked->version, 8);
  if (0 < asked->length) memcpy(request + length - asked->length, asked->value, asked->length);
  int stream = stream_to(client, place);
  if (stream < 0) return NOT_SENT;
  set_timeout(stream, SO_SNDTIMEO, wait);
  if (send_all(stream, request, length) && take_answer(stream, client->number, now() + wait, answer)) return ANSWERED;
  close(stream);
  client->sockets[place] = -1;
  return LOST;
}

static struct known *known_of(sevunthi_client *client, uint32_t table) {
  for (unsigned at = 0; at < MOST_KNOWN; at++) {
    if (client->known[at].is_known && client->known[at].table == table) return &client->known[at];
  }
  return NULL;
}

/* Notes who owns a table's keys. */
static void note_owner(sevunthi_client *client, uint32_t table, unsigned owner) {
  struct known *known = known_of(client, table);
  if (known == NULL) known = &client->known[client->next_known++ % MOST_KNOWN];
  *known = (struct known){.is_known = true, .table = table, .owner = owner};
}

/* Asks the coordinator that has led last who owns the key, and then the others; says whether one has answered for sure.
 * Where none leads one may have a hint: whoever does not own the key refuses. */
static bool ask_coordinators(sevunthi_client *client, uint32_t table, uint64_t key, struct answer *answer) {
  struct asked asked = {.op = OWNER, .table = table, .key = key};
  unsigned wait = client->wait < COORDINATOR_WAIT ? client->wait : COORDINATOR_WAIT;
  bool is_hint = false;
  uint64_t hint = 0;
  for (unsigned asked_so_far = 0; asked_so_far < client->coordinators; asked_so_far++) {
    if (call(client, client->hosts + client->leads, &asked, wait, answer) == ANSWERED) {
      if (answer->code != NOT_LEADING) return true;
      if (answer->version != NO_HINT) is_hint = true, hint = answer->version;
    }
    client->leads = (client->leads + 1) % client->coordinators;
  }
  *answer = (struct answer){.code = SEVUNTHI_CLIENT_DONE, .version = hint};
  return is_hint;
}

/* Finds the owner of the key: as the coordinator said last, or, where that is in doubt, says now. */
static int find_owner(sevunthi_client *client, uint32_t table, uint64_t key, unsigned *owner) {
  struct known *known = known_of(client, table);
  if (known != NULL && !known->is_doubted) {
    *owner = known->owner;
    return SEVUNTHI_CLIENT_DONE;
  }
  struct answer answer;
  if (!ask_coordinators(client, table, key, &answer)) {
    if (known == NULL) return SEVUNTHI_CLIENT_NOBODY;
    *owner = known->owner; /* it is tried once more */
    return SEVUNTHI_CLIENT_DONE;
  }
  if (answer.code != SEVUNTHI_CLIENT_DONE) return answer.code;
  if (client->hosts <= answer.version) return SEVUNTHI_CLIENT_WRONG;
  *owner = (unsigned)answer.version;
  note_owner(client, table, *owner);
  return SEVUNTHI_CLIENT_DONE;
}

/* What an answer says, and leaves in *found. */
static int judge(const struct asked *asked, const struct answer *answer, sevunthi_client_found *found) {
  bool is_mismatch = answer->code == SEVUNTHI_CLIENT_MISMATCH || answer->code == MISMATCH_NO_VALUE;
  bool is_done = answer->code == SEVUNTHI_CLIENT_DONE || answer->code == NO_VALUE;
  if (!is_mismatch && !is_done) return answer->code;
  if (is_done && (asked->op == PUT_IF || asked->op == DELETE_IF) && answer->version != asked->version + 1) {
    return SEVUNTHI_CLIENT_UNKNOWN;
  }
  if (found != NULL) {
    found->version = answer->version;
    found->has_value = answer->code == SEVUNTHI_CLIENT_MISMATCH || (asked->op == GET && answer->code == 0);
    found->length = found->has_value ? answer->length : 0;
    memcpy(found->value, answer->value, found->length);
  }
  return is_mismatch ? SEVUNTHI_CLIENT_MISMATCH : SEVUNTHI_CLIENT_DONE;
}

/* Asks a host once. */
static int ask_at(sevunthi_client *client, unsigned owner, const struct asked *asked, sevunthi_client_found *found) {
  struct answer answer;
  switch (call(client, owner, asked, client->wait, &answer)) {
    case NOT_SENT: return SEVUNTHI_CLIENT_NOBODY;
    case LOST: return SEVUNTHI_CLIENT_UNKNOWN;
    case ANSWERED: break;
  }
  return judge(asked, &answer, found);
}

/* Nobody says who owns the key: asks one host after another. Those that do not own it refuse, and do nothing. */
static int ask_any(sevunthi_client *client, const struct asked *asked, sevunthi_client_found *found) {
  unsigned owner = client->guess++ % client->hosts;
  int code = ask_at(client, owner, asked, found);
  if (code == SEVUNTHI_CLIENT_DONE || code == SEVUNTHI_CLIENT_MISMATCH) note_owner(client, asked->table, owner);
  return code == SEVUNTHI_CLIENT_NOT_OWNER ? SEVUNTHI_CLIENT_NOBODY : code;
}

/* Asks the owner of the key once. */
static int ask_once(sevunthi_client *client, const struct asked *asked, sevunthi_client_found *found) {
  unsigned owner;
  int code = find_owner(client, asked->table, asked->key, &owner);
  if (code == SEVUNTHI_CLIENT_NOBODY) return ask_any(client, asked, found);
  return code == SEVUNTHI_CLIENT_DONE ? ask_at(client, owner, asked, found) : code;
}

/* Whether it is of use to ask again. A write of which nobody knows is not: that would be another write. */
static bool passes(int code, uint8_t op) {
  switch (code) {
    case SEVUNTHI_CLIENT_NOT_OWNER:
    case SEVUNTHI_CLIENT_ROLLING:
    case SEVUNTHI_CLIENT_NO_BACKUPS:
    case SEVUNTHI_CLIENT_DEPOSED:
    case SEVUNTHI_CLIENT_RECOVERING:
    case SEVUNTHI_CLIENT_NOBODY: return true;
    case SEVUNTHI_CLIENT_UNKNOWN: return op == GET;
    default: return false;
  }
}

static int ask(sevunthi_client *client, const struct asked *asked, sevunthi_client_found *found) {
  if (asked->key >> 63 != 0) return SEVUNTHI_CLIENT_WRONG;
  if (SEVUNTHI_CLIENT_MOST_VALUE < asked->length) return SEVUNTHI_CLIENT_VALUE_TOO_LONG;
  int64_t end = now() + client->patience;
  bool hurries = true; /* of a table that was split another host may own the key: that is asked at once */
  for (;;) {
    int code = ask_once(client, asked, found);
    if (code == SEVUNTHI_CLIENT_DONE || code == SEVUNTHI_CLIENT_MISMATCH) return code;
    struct known *known = known_of(client, asked->table);
    if (known != NULL) known->is_doubted = true;
    if (!passes(code, asked->op) || end <= now()) return code;
    if (code != SEVUNTHI_CLIENT_NOT_OWNER || !hurries) pause_for(PAUSE);
    hurries = false;
  }
}

int sevunthi_client_put(sevunthi_client *client, uint32_t table, uint64_t key, const void *value, size_t length,
                        sevunthi_client_found *found) {
  struct asked asked = {.op = PUT, .table = table, .key = key, .value = value, .length = length};
  return ask(client, &asked, found);
}

int sevunthi_client_delete(sevunthi_client *client, uint32_t table, uint64_t key, sevunthi_client_found *found) {
  struct asked asked = {.op = DELETE, .table = table, .key = key};
  return ask(client, &asked, found);
}

int sevunthi_client_get(sevunthi_client *client, uint32_t table, uint64_t key, sevunthi_client_found *found) {
  struct asked asked = {.op = GET, .table = table, .key = key};
  return ask(client, &asked, found);
}

int sevunthi_client_put_if(sevunthi_client *client, uint32_t table, uint64_t key, uint64_t version, const void *value,
                           size_t length, sevunthi_client_found *found) {
  struct asked asked = {PUT_IF, table, key, version, value, length};
  return ask(client, &asked, found);
}

int sevunthi_client_put_if_absent(sevunthi_client *client, uint32_t table, uint64_t key, const void *value,
                                  size_t length, sevunthi_client_found *found) {
  struct asked asked = {.op = PUT_IF_ABSENT, .table = table, .key = key, .value = value, .length = length};
  return ask(client, &asked, found);
}

int sevunthi_client_delete_if(sevunthi_client *client, uint32_t table, uint64_t key, uint64_t version,
                              sevunthi_client_found *found) {
  struct asked asked = {.op = DELETE_IF, .table = table, .key = key, .version = version};
  return ask(client, &asked, found);
}

static sevunthi_client *new_client(void) {
  sevunthi_client *client = calloc(1, sizeof *client);
  if (client == NULL) return NULL;
  for (unsigned place = 0; place < MOST_PLACES; place++) client->sockets[place] = -1;
  sevunthi_client_set_times(client, 10000, 3000);
  return client;
}

sevunthi_client *sevunthi_client_open(const char *address, uint16_t port, unsigned hosts) {
  if (hosts == 0 || MOST_HOSTS < hosts || UINT16_MAX < port + hosts) return NULL;
  sevunthi_client *client = new_client();
  if (client == NULL) return NULL;
  client->hosts = hosts;
  client->coordinators = 1;
  for (unsigned place = 0; place <= hosts; place++) {
    client->names[place] = strdup(address);
    snprintf(client->ports[place], sizeof client->ports[place], "%u", port + place);
    if (client->names[place] == NULL) {
      sevunthi_client_close(client);
      return NULL;
    }
  }
  return client;
}

/* Notes where this place is: a name, a number or, in brackets, an IPv6 number, with a port. */
static bool note_place(sevunthi_client *client, unsigned place, const char *at) {
  const char *colon = strrchr(at, ':');
  if (colon == NULL || strlen(colon + 1) == 0 || 5 < strlen(colon + 1) || client->names[place] != NULL) return false;
  bool has_brackets = at[0] == '[' && at < colon && colon[-1] == ']';
  const char *first = has_brackets ? at + 1 : at, *last = has_brackets ? colon - 1 : colon;
  client->names[place] = strndup(first, (size_t)(last - first));
  strcpy(client->ports[place], colon + 1);
  return client->names[place] != NULL;
}

/* Takes the lines of a file. The coordinators have the last places, which are known at the end. */
static bool read_places(sevunthi_client *client, FILE *file) {
  char line[512], who[64], at[300], coordinators[MOST_COORDINATORS][300];
  unsigned hosts = 0, count = 0;
  while (fgets(line, sizeof line, file) != NULL) {
    line[strcspn(line, "#\n")] = 0;
    int words = sscanf(line, "%63s %299s", who, at);
    if (words <= 0) continue;
    if (words != 2) return false;
    if (strcmp(who, "coordinator") == 0) {
      if (count == MOST_COORDINATORS) return false;
      strcpy(coordinators[count++], at);
    } else {
      char *end;
      unsigned long index = strtoul(who, &end, 10);
      if (strcmp(at, "gone") == 0) strcpy(at, "127.0.0.1:1"); /* a host that has left: nobody listens */
      if (*end != 0 || MOST_HOSTS <= index || !note_place(client, (unsigned)index, at)) return false;
      hosts++;
    }
  }
  for (unsigned place = 0; place < hosts; place++) {
    if (client->names[place] == NULL) return false;
  }
  for (unsigned each = 0; each < count; each++) {
    if (!note_place(client, hosts + each, coordinators[each])) return false;
  }
  client->hosts = hosts;
  client->coordinators = count;
  return 0 < hosts && 0 < count;
}

sevunthi_client *sevunthi_client_open_file(const char *path) {
  FILE *file = fopen(path, "r");
  if (file == NULL) return NULL;
  sevunthi_client *client = new_client();
  if (client != NULL && !read_places(client, file)) {
    sevunthi_client_close(client);
    client = NULL;
  }
  fclose(file);
  return client;
}

void sevunthi_client_close(sevunthi_client *client) {
  if (client == NULL) return;
  for (unsigned place = 0; place < MOST_PLACES; place++) {
    if (0 <= client->sockets[place]) close(client->sockets[place]);
    free(client->names[place]);
  }
  free(client);
}

void sevunthi_client_set_times(sevunthi_client *client, unsigned patience, unsigned wait) {
  client->patience = patience;
  client->wait = wait;
}

const char *sevunthi_client_reason(int answer) {
  static const char *const refusals[] = {
      "done", "F1: memory was refused", "F2: no range granted to the host holds the key",
      "F3: the host is not writing, or begins a new segment", "F4: too few hosts are up for the factor",
      "F5: the host was replaced", "F6: the last segment is full", "F7: the value has more than 1,024 bytes"};
  if (0 <= answer && (size_t)answer < sizeof refusals / sizeof *refusals) return refusals[answer];
  switch (answer) {
    case SEVUNTHI_CLIENT_NOT_READY: return "F11: no host is ready";
    case SEVUNTHI_CLIENT_NO_TABLE: return "F13: there is no such table";
    case SEVUNTHI_CLIENT_RECOVERING: return "F16: the tablet's owner has crashed";
    case SEVUNTHI_CLIENT_UNKNOWN: return "unknown: it may have been done, or may still be done";
    case SEVUNTHI_CLIENT_WRONG: return "the request is none, or who answers is another";
    case SEVUNTHI_CLIENT_NO_ROOM: return "too few hosts have room on their disks";
    case SEVUNTHI_CLIENT_MISMATCH: return "not done: another version is there";
    case SEVUNTHI_CLIENT_IN_CLEAR: return "a proof of the secret is wanted, and this client has no security";
    case SEVUNTHI_CLIENT_NOBODY: return "nobody was asked: who should be does not answer";
    default: return "a refusal that this client does not know";
  }
}
