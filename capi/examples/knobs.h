/*
 * What tests choose of a device, and count: a limit on the rate of picks, a block whose Reads fail, a namespace that
 * answers late, and an admin command of opcode C0h by which a guest does so. No part of a device.
 */
#ifndef NVME_KNOBS_H
#define NVME_KNOBS_H

#include "nvme.h"

/* Puts the knobs between a device and its backends. To be called once, before nvme_init. */
void knobs_init(struct nvme *device);

/* Goes on with what waits for time, before nvme_turn. Returns the milliseconds after which to call it again, or -1. */
int knobs_turn(void);

/* Nothing is late any more, so that `settle` of the backends can wait for all. */
void knobs_settle(void);

/* Tells that an interrupt was sent. */
void knobs_interrupt(void);

#endif
