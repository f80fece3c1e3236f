/* Attaches an empty store at high speed with the outcomes on standard input; prints the answer and the number of requests. */
#include <inttypes.h>
#include <stdio.h>

#include "lidrumak.h"

static uint8_t old_store[LIDRUMAK_STORE_LENGTH];
static uint8_t new_store[LIDRUMAK_STORE_LENGTH];
static uint8_t outcomes[65536];
static uint8_t log_bytes[65536];

int main(void)
{
    size_t length = fread(outcomes, 1, sizeof outcomes, stdin);
    struct lidrumak_reply reply = lidrumak_root_attach(old_store, sizeof old_store, new_store, sizeof new_store,
                                                       outcomes, length, log_bytes, sizeof log_bytes, 0);
    printf("answer %" PRId32 ", %" PRIu64 " requests\n", reply.answer, reply.requests);
    return reply.answer == LIDRUMAK_OK ? 0 : 1;
}
