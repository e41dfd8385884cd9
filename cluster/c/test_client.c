/* test_client PORT FILE ALONE: tries the client on a cluster of four hosts on this machine, with table 1, whose keys 500
 * to 510 nobody else writes. FILE is the cluster's file, ALONE the same with nobody in the coordinator's place. Says
 * `passed`, or where it failed. */
#include "sevunthi_client.h"

#include <stdio.h>
#include <stdlib.h>
#include <string.h>

#define WANT(is_so)                                                    \
  do {                                                                 \
    if (!(is_so)) {                                                    \
      printf("%s:%d: not so: %s\n", __FILE__, __LINE__, #is_so);       \
      exit(1);                                                         \
    }                                                                  \
  } while (0)

static bool is(const sevunthi_client_found *found, uint64_t version, const char *value) {
  if (found->version != version || found->has_value != (value != NULL)) return false;
  return value == NULL || (found->length == strlen(value) && memcmp(found->value, value, found->length) == 0);
}

static void try_calls(sevunthi_client *client) {
  sevunthi_client_found found;
  WANT(sevunthi_client_get(client, 1, 500, &found) == SEVUNTHI_CLIENT_DONE && is(&found, 0, NULL));
  WANT(sevunthi_client_put(client, 1, 500, "hello", 5, &found) == SEVUNTHI_CLIENT_DONE && is(&found, 1, NULL));
  WANT(sevunthi_client_get(client, 1, 500, &found) == SEVUNTHI_CLIENT_DONE && is(&found, 1, "hello"));
  WANT(sevunthi_client_put(client, 1, 500, "", 0, NULL) == SEVUNTHI_CLIENT_DONE);
  WANT(sevunthi_client_get(client, 1, 500, &found) == SEVUNTHI_CLIENT_DONE && is(&found, 2, ""));
  WANT(sevunthi_client_delete(client, 1, 500, &found) == SEVUNTHI_CLIENT_DONE && is(&found, 3, NULL));
  WANT(sevunthi_client_get(client, 1, 500, &found) == SEVUNTHI_CLIENT_DONE && is(&found, 3, NULL));
}

static void try_conditions(sevunthi_client *client) {
  sevunthi_client_found found;
  WANT(sevunthi_client_put_if_absent(client, 1, 501, "a", 1, &found) == SEVUNTHI_CLIENT_DONE && is(&found, 1, NULL));
  WANT(sevunthi_client_put_if_absent(client, 1, 501, "b", 1, &found) == SEVUNTHI_CLIENT_MISMATCH && is(&found, 1, "a"));
  WANT(sevunthi_client_put_if(client, 1, 501, 1, "b", 1, &found) == SEVUNTHI_CLIENT_DONE && is(&found, 2, NULL));
  WANT(sevunthi_client_put_if(client, 1, 501, 1, "c", 1, &found) == SEVUNTHI_CLIENT_MISMATCH && is(&found, 2, "b"));
  WANT(sevunthi_client_delete_if(client, 1, 501, 9, &found) == SEVUNTHI_CLIENT_MISMATCH && is(&found, 2, "b"));
  WANT(sevunthi_client_delete_if(client, 1, 501, 2, &found) == SEVUNTHI_CLIENT_DONE && is(&found, 3, NULL));
  WANT(sevunthi_client_put_if(client, 1, 501, 2, "d", 1, &found) == SEVUNTHI_CLIENT_MISMATCH && is(&found, 3, NULL));
}

static void try_refusals(sevunthi_client *client) {
  uint8_t much[1025] = {0};
  WANT(sevunthi_client_put(client, 1, 502, much, 1024, NULL) == SEVUNTHI_CLIENT_DONE);
  WANT(sevunthi_client_put(client, 1, 502, much, 1025, NULL) == SEVUNTHI_CLIENT_VALUE_TOO_LONG);
  WANT(sevunthi_client_put_if(client, 1, 502, 1, much, 1024, NULL) == SEVUNTHI_CLIENT_DONE);
  WANT(sevunthi_client_put(client, 1, UINT64_C(1) << 63, "x", 1, NULL) == SEVUNTHI_CLIENT_WRONG);
  WANT(sevunthi_client_get(client, 999, 5, NULL) == SEVUNTHI_CLIENT_NO_TABLE);
  WANT(strcmp(sevunthi_client_reason(SEVUNTHI_CLIENT_NO_TABLE), "F13: there is no such table") == 0);
  sevunthi_client *nobody = sevunthi_client_open("127.0.0.1", 1, 4);
  WANT(nobody != NULL);
  sevunthi_client_set_times(nobody, 100, 100);
  WANT(sevunthi_client_get(nobody, 1, 5, NULL) == SEVUNTHI_CLIENT_NOBODY);
  sevunthi_client_close(nobody);
  WANT(sevunthi_client_open("127.0.0.1", 65535, 4) == NULL);
  WANT(sevunthi_client_open_file("/dev/null") == NULL);
}

int main(int count, char **words) {
  if (count != 4) return 2;
  sevunthi_client *client = sevunthi_client_open("127.0.0.1", (uint16_t)atoi(words[1]), 4);
  WANT(client != NULL);
  try_calls(client);
  try_conditions(client);
  try_refusals(client);
  sevunthi_client_close(client);
  client = sevunthi_client_open_file(words[2]);
  sevunthi_client_found found;
  WANT(client != NULL && sevunthi_client_get(client, 1, 500, &found) == SEVUNTHI_CLIENT_DONE && is(&found, 3, NULL));
  sevunthi_client_close(client);
  client = sevunthi_client_open_file(words[3]);
  WANT(client != NULL && sevunthi_client_get(client, 1, 500, &found) == SEVUNTHI_CLIENT_DONE && is(&found, 3, NULL));
  sevunthi_client_close(client);
  puts("passed");
  return 0;
}
