/*
 * A log of what a controller did, whoever made it, which `nvmearb audit` judges (docs/FORMATS.md, "Log"). To be copied:
 * it needs nothing else of this repository.
 *
 * Call log_start where the controller is enabled, since a log has one start. Then make one call for each doorbell,
 * fetched entry and completion, in the order in which they happen for the controller:
 *   - a doorbell with the value that the host wrote, bits 15:00, also one that the controller refuses;
 *   - a fetch before anything comes of the command;
 *   - a completion before the host can see its phase tag, so that no doorbell which answers it stands before it.
 * All of them have to be there: a judge takes what isn't told for what didn't happen. Calls with one file run one
 * after another. Whether a write failed is told by ferror.
 */
#ifndef LOG_H
#define LOG_H

#include <stdint.h>
#include <stdio.h>

enum { LOG_SQE_BYTES = 64, LOG_CQE_BYTES = 16 };

/* Writes the head. The admin queues have so many slots: the fields of AQA plus 1. */
static inline void log_start(FILE *to, unsigned asq_slots, unsigned acq_slots)
{
    fprintf(to, "{\"log\":1,\"tells\":[\"tail\",\"head\",\"fetch\",\"post\"],\"asq\":%u,\"acq\":%u}\n", asq_slots,
            acq_slots);
}

/* The host wrote the tail doorbell of a submission queue. */
static inline void log_tail(FILE *to, uint16_t qid, uint16_t slot)
{
    fprintf(to, "{\"tail\":%u,\"slot\":%u}\n", qid, slot);
}

/* The host wrote the head doorbell of a completion queue. */
static inline void log_head(FILE *to, uint16_t cqid, uint16_t slot)
{
    fprintf(to, "{\"head\":%u,\"slot\":%u}\n", cqid, slot);
}

/* Writes an event of an entry, whose bytes are told in hexadecimal. */
static inline void log_entry(FILE *to, const char *kind, uint16_t queue, uint16_t slot, const char *name,
                             const uint8_t *bytes, unsigned count)
{
    char digits[2 * LOG_SQE_BYTES + 1] = "";
    for (unsigned k = 0; k < count; k++) {
        digits[2 * k] = "0123456789abcdef"[bytes[k] >> 4];
        digits[2 * k + 1] = "0123456789abcdef"[bytes[k] & 15];
    }
    fprintf(to, "{\"%s\":%u,\"slot\":%u,\"%s\":\"%s\"}\n", kind, queue, slot, name, digits);
}

/* The controller fetched this entry from a slot of a submission queue. */
static inline void log_fetch(FILE *to, uint16_t qid, uint16_t slot, const uint8_t bytes[LOG_SQE_BYTES])
{
    log_entry(to, "fetch", qid, slot, "sqe", bytes, LOG_SQE_BYTES);
}

/* It writes this completion into a slot of a completion queue. */
static inline void log_post(FILE *to, uint16_t cqid, uint16_t slot, const uint8_t bytes[LOG_CQE_BYTES])
{
    log_entry(to, "post", cqid, slot, "cqe", bytes, LOG_CQE_BYTES);
}

#endif
