/* Between the files of the device of nvme.h. */
#ifndef NVME_PARTS_H
#define NVME_PARTS_H

#include "nvme.h"

enum { NVME_MQES = 4095 }; /* CAP.MQES: the largest QSIZE */

/* Opcodes, and status codes that the library has no name for. */
enum { NVME_GET_LOG_PAGE = 0x02, NVME_IDENTIFY = 0x06, NVME_EVENT_REQUEST = 0x0c, NVME_VENDOR = 0xc0 };
enum { NVME_COMPARE = 0x05, NVME_WRITE_ZEROES = 0x08, NVME_DATASET_MANAGEMENT = 0x09, NVME_VERIFY = 0x0c };

/* Features of the device's. */
enum {
    NVME_POWER = 2,
    NVME_TEMPERATURE = 4,
    NVME_RECOVERY = 5,
    NVME_CACHE = 6,
    NVME_COALESCING = 8,
    NVME_VECTOR = 9,
    NVME_ATOMICITY = 10,
    NVME_EVENTS = 11
};

/* The registers, by their number of four bytes, and bits of CSTS. */
enum { CAP_LOW, CAP_HIGH, VS, INTMS, INTMC, CC, CSTS = 7, AQA = 9, ASQ, ASQ_HIGH, ACQ, ACQ_HIGH, CRTO = 26 };
enum { RDY = 1, CFS = 2, SHUTTING_DOWN = 4, SHUT_DOWN = 8 };

/* Events, by their bits in `pending` and `told`. Those of errors are first. */
enum { INVALID_REGISTER, INVALID_VALUE, NAMESPACE_CHANGED, EVENTS };

static const nvmearb_status nvme_success = {NVMEARB_SCT_GENERIC, NVMEARB_SC_SUCCESS};
static const nvmearb_status nvme_invalid_field = {NVMEARB_SCT_GENERIC, NVMEARB_SC_INVALID_FIELD};

static inline int nvme_is_error(nvmearb_status status)
{
    return status.sct != 0 || status.sc != 0;
}

/* nvme.c: ends a command of this tag. Whether a queue may have this ring. */
void nvme_complete(struct nvme *device, uint32_t tag, nvmearb_status status, uint32_t dw0);
int nvme_is_ring(const struct nvme *device, const struct nvme_ring *ring);

/* prp.c: finds what the PRPs of a command name; copies between the device's bytes and these. */
nvmearb_status nvme_find(struct nvme *device, const nvmearb_sqe *entry, size_t length, struct nvme_piece *pieces,
                         uint16_t *count);
nvmearb_status nvme_move(struct nvme *device, const struct nvme_piece *pieces, unsigned count, uint8_t *bytes,
                         int to_guest);
/* Both in one. */
nvmearb_status nvme_transfer(struct nvme *device, const nvmearb_sqe *entry, uint8_t *bytes, size_t length,
                             int to_guest);

/* io.c: begins an I/O command, or ends it at once. Ends the command that an Abort names, if it can. */
void nvme_begin(struct nvme *device, const nvmearb_command *command);
int nvme_abort(struct nvme *device, uint32_t tag);
/* Flushes all namespaces, and then says in CSTS that the shutdown is complete. */
void nvme_shut_down(struct nvme *device);
/* CC.EN became 0: what is in flight isn't answered any more. Whether none of it may still write. */
void nvme_drop(struct nvme *device);
int nvme_is_quiet(const struct nvme *device);

/* admin.c: tells the controller which admin commands are the device's, and executes one of them. */
void nvme_own(struct nvme *device);
void nvme_admin(struct nvme *device, const nvmearb_command *command);
/* After a reset. */
void nvme_reset_features(struct nvme *device);
/* Answers a request with an event that is pending. Notes an error event. */
void nvme_tell_event(struct nvme *device);
void nvme_note_error(struct nvme *device, uint16_t qid, int event);
/* What a feature belongs to, or 0: there is no such feature. */
enum { NVME_OF_CONTROLLER = 1, NVME_OF_NAMESPACE };
int nvme_feature_scope(uint32_t fid);
/* Whether each feature has a value that may be set. */
int nvme_are_features(const struct nvme_state *state);

/* pages.c */
nvmearb_status nvme_identify(struct nvme *device, const nvmearb_sqe *entry);
nvmearb_status nvme_get_log_page(struct nvme *device, const nvmearb_sqe *entry);

/* registers.c: the device stops, once no Write is in flight any more; then it may be enabled again. */
void nvme_stop(struct nvme *device);
/* Sees an entry of the admin queue before the controller does. */
void nvme_see(const struct nvme *device, uint8_t entry[NVMEARB_SQE_BYTES]);
/* Whether registers are those of a device with nothing in flight, and go with its controller and admin queues. */
int nvme_are_registers(const struct nvme_state *state);

#endif
