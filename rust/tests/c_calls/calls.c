/*
 * Makes one call of the header, for ../c_header.rs:
 *
 *     calls NAME FIRST SECOND
 *
 * Standard input has the old store and then the outcomes; for the walk, the
 * descriptors. Standard output gets a line with the answer and the number of
 * requests, then the new store and the log; for the walk, the answer and the
 * record.
 */
#include <inttypes.h>
#include <stdio.h>
#include <stdlib.h>
#include <string.h>

#include "lidrumak.h"

static uint8_t input[LIDRUMAK_STORE_LENGTH + 65536];
static size_t input_length;
static uint8_t new_store[LIDRUMAK_STORE_LENGTH];
static uint8_t log_bytes[4096];
static uint8_t record[LIDRUMAK_RECORD_LENGTH];

#define LENT                                                                            \
    input, LIDRUMAK_STORE_LENGTH, new_store, sizeof new_store,                          \
    input + LIDRUMAK_STORE_LENGTH, input_length - LIDRUMAK_STORE_LENGTH,                \
    log_bytes, sizeof log_bytes

static struct lidrumak_reply call(const char *name, uint32_t first, uint32_t second)
{
    struct lidrumak_reply none = {1, 0};
    if (strcmp(name, "root_attach") == 0)
        return lidrumak_root_attach(LENT, first);
    if (strcmp(name, "scan") == 0)
        return lidrumak_scan(LENT, first);
    if (strcmp(name, "port_check") == 0)
        return lidrumak_port_check(LENT, first, second);
    if (strcmp(name, "child_reset") == 0)
        return lidrumak_child_reset(LENT, first, second);
    if (strcmp(name, "child_check") == 0)
        return lidrumak_child_check(LENT, first, second);
    if (strcmp(name, "retried_reset") == 0)
        return lidrumak_retried_reset(LENT, first, second);
    if (strcmp(name, "connection_change") == 0)
        return lidrumak_connection_change(LENT, first, second);
    return none;
}

static void walk(void)
{
    printf("%" PRId32 "\n", lidrumak_configuration_walk(input, input_length, record, sizeof record));
    fwrite(record, 1, sizeof record, stdout);
}

int main(int count, char **words)
{
    input_length = fread(input, 1, sizeof input, stdin);
    if (count == 2 && strcmp(words[1], "configuration_walk") == 0) {
        walk();
        return 0;
    }
    if (count != 4 || input_length < LIDRUMAK_STORE_LENGTH)
        return 1;
    struct lidrumak_reply reply = call(words[1], (uint32_t)strtoul(words[2], NULL, 10),
                                       (uint32_t)strtoul(words[3], NULL, 10));
    printf("%" PRId32 " %" PRIu64 "\n", reply.answer, reply.requests);
    fwrite(new_store, 1, sizeof new_store, stdout);
    fwrite(log_bytes, 1, sizeof log_bytes, stdout);
    return 0;
}
