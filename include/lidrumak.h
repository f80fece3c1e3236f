/*
 * Lidrumak: a USB core and hub driver whose promises are proved by machine.
 * Link with liblidrumak.a. It needs at most memcpy and memset, today only memset.
 *
 * Its code is for x86-64. It uses the 128 bytes below the stack pointer (the red
 * zone) and SSE registers, and there is no option against either. A kernel calls
 * it where no interrupt can overwrite those bytes (interrupts off, or handled on
 * another stack), with SSE enabled, and with its registers saved before the call
 * and restored after it, as for user code.
 *
 * A slice is a pointer and a length in bytes. Slices may have any length and
 * content. Those that a call writes (new_store, log, record) overlap no other
 * slice of the call. Pointers are not null, also where a length is 0.
 */
#ifndef LIDRUMAK_H
#define LIDRUMAK_H

#include <stddef.h>
#include <stdint.h>

#ifdef __cplusplus
extern "C" {
#endif

#define LIDRUMAK_STORE_LENGTH 36864 /* bytes of a store; an empty one is all zero */
#define LIDRUMAK_RECORD_LENGTH 968  /* bytes of a configuration's record */
#define LIDRUMAK_ACTION_LENGTH 16   /* bytes of an action in the log */

/* Answers. Those from -1 to -9 are a transfer's own, or the driver's. */
enum {
    LIDRUMAK_OK = 0,
    LIDRUMAK_ERROR_GENERAL = -1,
    LIDRUMAK_ERROR_ARGUMENT = -2, /* also: store length, root speed above 3, no such hub, child or port, not that hub's child */
    LIDRUMAK_ERROR_RETRY = -3,
    LIDRUMAK_ERROR_DEVICE = -4, /* also: the root hub is already attached */
    LIDRUMAK_ERROR_INCOMPATIBLE = -5,
    LIDRUMAK_ERROR_COMPILER = -6,
    LIDRUMAK_ERROR_MEMORY = -7,
    LIDRUMAK_ERROR_TIMEOUT = -8,
    LIDRUMAK_ERROR_DISCONNECTED = -9,
    LIDRUMAK_GARBLED_CONFIGURATION = -10,
    LIDRUMAK_BUS_FULL = -11,
    LIDRUMAK_ROOT_SPEED = -12,
    LIDRUMAK_GARBLED_OUTCOME = -13, /* -13 to -15 stop the call; it is repeated from the old store */
    LIDRUMAK_OUTCOMES_SPENT = -14,
    LIDRUMAK_LOG_FULL = -15,
    LIDRUMAK_STORE_DAMAGED = -16
};

struct lidrumak_reply {
    int32_t answer;
    uint64_t requests; /* how many requests the call logged */
};

/* What the seven calls below take: the old store, which is read; the new store; the outcomes of the transfers; the log. */
#define LIDRUMAK_SLICES                                 \
    const uint8_t *old_store, size_t old_store_length,  \
    uint8_t *new_store, size_t new_store_length,        \
    const uint8_t *outcomes, size_t outcomes_length,    \
    uint8_t *log, size_t log_length

/* UsbAttachRootHub: the root hub and all behind it. Speed: 0 high, 1 full, 2 low. */
struct lidrumak_reply lidrumak_root_attach(LIDRUMAK_SLICES, uint32_t speed);

/* HubCheckForChange: every port of the hub at this place (0 is the root hub), and of the hubs behind it. */
struct lidrumak_reply lidrumak_scan(LIDRUMAK_SLICES, uint32_t hub);

/* HubCheckConnection: one port, counted from 0. */
struct lidrumak_reply lidrumak_port_check(LIDRUMAK_SLICES, uint32_t hub, uint32_t port);

/* HubChildReset: the port on which the device at place child stands. */
struct lidrumak_reply lidrumak_child_reset(LIDRUMAK_SLICES, uint32_t hub, uint32_t child);

/* HubCheckConnectionDevice: the same port's check. */
struct lidrumak_reply lidrumak_child_check(LIDRUMAK_SLICES, uint32_t hub, uint32_t child);

/* HubPortReset: in up to three tries. */
struct lidrumak_reply lidrumak_retried_reset(LIDRUMAK_SLICES, uint32_t hub, uint32_t port);

/* HubPortConnectionChanged: attaches what was connected, also where an earlier one cleared the change and failed, so that a scan sees none. */
struct lidrumak_reply lidrumak_connection_change(LIDRUMAK_SLICES, uint32_t hub, uint32_t port);

/* The configuration walk alone, over at most 65,535 descriptor bytes. Returns the answer. */
int32_t lidrumak_configuration_walk(const uint8_t *descriptors, size_t descriptors_length,
                                    uint8_t *record, size_t record_length);

#undef LIDRUMAK_SLICES

#ifdef __cplusplus
}
#endif

#endif
