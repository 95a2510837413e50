/* TPEG-Loc text locations: the calls of libtpegloc.a. docs/FORMAT.md,
   docs/SENDING.md and docs/REFUSALS.md define every answer. */
#ifndef TPEGLOC_H
#define TPEGLOC_H

#include <stddef.h>
#include <stdint.h>

#ifdef __cplusplus
extern "C" {
#endif

/* What a refusal's number is added to. */
#define TPEGLOC_REFUSED 1000000u

/* How many rows the container in the `length` bytes at `bytes` tells, or TPEGLOC_REFUSED plus the number of the
   refusal. The bytes are only read. `bytes` points to `length` readable bytes and is not null. */
uint32_t check(const uint8_t *bytes, size_t length);

/* Sends the rows that the container in the `length` bytes at `bytes` tells, as the one container that stands for them,
   into the front of the `room` bytes at `out`. Answers how many bytes were sent, at most 65535, or TPEGLOC_REFUSED plus
   the number of the refusal. The bytes of `out` behind those sent stay as they are, and after a refusal all of them do.
   The two ranges do not overlap. `bytes` and `out` are not null. */
uint32_t restate(const uint8_t *bytes, size_t length, uint8_t *out, size_t room);

#ifdef __cplusplus
}
#endif

#endif
