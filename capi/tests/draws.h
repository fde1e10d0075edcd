/* What the host of hostile.c draws: identifiers, addresses, sizes, entries. Mostly they fit what the account has. */
#ifndef DRAWS_H
#define DRAWS_H

#include "account.h"
#include "tell.h"

enum { IDENTIFIERS = 6 };

static uint64_t seed;

static uint32_t upto(uint32_t n)
{
    return (uint32_t)((drawn(&seed) >> 20) % n);
}

/* An identifier of a queue: mostly a small one, and some of those about the largest. */
static uint16_t draw_identifier(void)
{
    return (uint16_t)(upto(10) ? upto(IDENTIFIERS) : QUEUES - 3 + upto(4));
}

/* That of an I/O queue of which `most` are allotted: mostly one that may be. */
static uint32_t draw_allotted(uint16_t most)
{
    return upto(6) ? 1 + upto(most < IDENTIFIERS ? most : IDENTIFIERS) : draw_identifier();
}

/* Mostly that of a queue which is open. */
static uint16_t draw_qid(void)
{
    uint16_t qid = draw_identifier();
    if (account.stirs && upto(3) == 0)
        return 0;
    for (int k = 0; k < 3 && !open_sq(qid); k++)
        qid = draw_identifier();
    return upto(60) ? qid : (uint16_t)upto(0x10000);
}

/* An address for a queue that may lie anywhere: one of a few, that of a queue which is or was there, or any other. */
static uint64_t draw_address(void)
{
    uint32_t page = account.placement.page;
    uint64_t any = drawn(&seed);
    switch (upto(8)) {
    case 0:
        return account.sqs[upto(IDENTIFIERS)].address;
    case 1:
        return account.cqs[upto(IDENTIFIERS)].address;
    case 2:
        return upto(2) ? any : any - any % page;
    case 3:
        return (uint64_t)page * upto(6) + upto(page);
    }
    return (uint64_t)page * (1 + upto(6));
}

/* QSIZE of such a queue: a small one, or one about the largest. */
static uint32_t draw_qsize(void)
{
    uint32_t mqes = account.placement.mqes;
    if (upto(6))
        return upto(mqes < 24 ? mqes + 1 : 24);
    return (upto(3) ? mqes - 1 + upto(3) : LARGEST_QSIZE - 1u + upto(3)) & 0xffff;
}

/* IV of a completion queue: mostly one that there is. */
static uint32_t draw_vector(void)
{
    uint32_t vectors = account.placement.vectors;
    return upto(8) && vectors ? upto(vectors) : (vectors - 1 + upto(2)) & 0xffff;
}

/* PRP1 and QSIZE of a Create, which mostly fit. */
static void draw_place(nvmearb_sqe *it)
{
    const struct regions *regions = it->opcode == NVMEARB_OPC_CREATE_SQ ? &account.sq_regions : &account.cq_regions;
    const nvmearb_region *region = &regions->at[upto(regions->n)];
    it->prp1 = account.is_anywhere ? draw_address() : upto(20) ? region->address : drawn(&seed);
    it->cdw10 |= (account.is_anywhere ? draw_qsize() : upto(20) ? region->slots - 1u : upto(0x10000)) << 16;
}

/* NSQR or NCQR: a small number, or the one that isn't valid. */
static uint32_t draw_number(void)
{
    return upto(20) ? upto(8) : 0xffff;
}

/* An entry for the admin queue, whose fields mostly fit what is there. */
static void draw_admin(nvmearb_sqe *it)
{
    static const uint8_t opcodes[] = {0, 1, 1, 1, 4, 5, 5, 8, 8, 8, 9, 10, 10, 6, 0x0c}, fids[] = {1, 7, 2, 0x0b, 1};
    static const uint8_t of_queues[] = {0, 0, 1, 1, 1, 4, 5};
    uint32_t sel = upto(8);
    it->opcode = account.stirs && upto(6) ? of_queues[upto(sizeof of_queues)] : opcodes[upto(sizeof opcodes)];
    it->flags = (uint8_t)(upto(30) ? 0 : upto(256));
    it->cdw10 = draw_allotted(upto(2) ? account.nsq : account.ncq);
    it->cdw11 = (upto(30) != 0) | upto(4) << 1;
    if (it->opcode == NVMEARB_OPC_ABORT)
        it->cdw10 |= upto(12) << 16;
    else
        draw_place(it);
    it->cdw11 |= (it->opcode == NVMEARB_OPC_CREATE_CQ ? draw_vector() : draw_allotted(account.ncq)) << 16;
    if (it->opcode == NVMEARB_OPC_SET_FEATURES || it->opcode == NVMEARB_OPC_GET_FEATURES) {
        it->cdw10 = fids[upto(sizeof fids)] | (sel < 4 ? sel << 8 : 0) | (upto(40) ? 0 : 0x80000000u);
        it->cdw11 = upto(2) ? (uint32_t)drawn(&seed) : draw_number() | draw_number() << 16;
    }
}

/* What the host has in a slot when it is read: each reading finds something else. */
static void draw_entry(uint16_t qid, uint8_t *bytes)
{
    nvmearb_sqe it;
    draw_into(&seed, &it, sizeof it);
    it.cid = (uint16_t)upto(12);
    if (qid == 0)
        draw_admin(&it);
    nvmearb_sqe_encode(&it, bytes);
}

#endif
