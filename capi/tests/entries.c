/* The version, entries, outcomes, admin fields and settings: worked examples, and a million random calls. */
#include <nvmearb.h>

#include <string.h>

#include "library.h"
#include "tell.h"

/* The structs are laid out as the library has them. */
_Static_assert(sizeof(nvmearb_sqe) == 64, "nvmearb_sqe");
_Static_assert(offsetof(nvmearb_sqe, cdw15) == 60, "nvmearb_sqe");
_Static_assert(sizeof(nvmearb_status) == 2, "nvmearb_status");
_Static_assert(sizeof(nvmearb_cqe) == 16, "nvmearb_cqe");
_Static_assert(offsetof(nvmearb_cqe, status) == 11, "nvmearb_cqe");
_Static_assert(sizeof(nvmearb_admin) == 32, "nvmearb_admin");
_Static_assert(offsetof(nvmearb_admin, sv) == 25, "nvmearb_admin");
_Static_assert(offsetof(nvmearb_admin, cid) == 26, "nvmearb_admin");
_Static_assert(sizeof(nvmearb_settings) == 12, "nvmearb_settings");

/* The preprocessor can compare versions. */
#if NVMEARB_VERSION / 0x10000 != NVMEARB_VERSION_MAJOR || NVMEARB_VERSION % 0x100 != NVMEARB_VERSION_PATCH
#error "NVMEARB_VERSION"
#endif

/* The library is that of the header, and says whether it is proved. Numbers that no state has give 0. */
static void version(void)
{
    CHECK(IS_OF_HEADER);
    CHECK(nvmearb_size(NVMEARB_STATE_ARBITER) == sizeof(nvmearb_arbiter));
    CHECK(nvmearb_size(NVMEARB_STATE_BOARD) == sizeof(nvmearb_board));
    CHECK(nvmearb_size(NVMEARB_STATE_TABLE) == sizeof(nvmearb_table));
    CHECK(nvmearb_size(NVMEARB_STATE_CTRL) == sizeof(nvmearb_ctrl));
    CHECK(nvmearb_size(NVMEARB_STATE_SLOT) == sizeof(nvmearb_slot));
    CHECK(nvmearb_size(0) == 0 && nvmearb_size(6) == 0 && nvmearb_size(UINT32_MAX) == 0);
}

static void submission_fields_by_place(void)
{
    uint8_t bytes[NVMEARB_SQE_BYTES], again[NVMEARB_SQE_BYTES];
    nvmearb_sqe entry;
    for (int k = 0; k < NVMEARB_SQE_BYTES; k++) {
        bytes[k] = (uint8_t)(k + 1);
    }
    nvmearb_sqe_decode(bytes, &entry);
    CHECK(entry.opcode == 0x01);
    CHECK(entry.flags == 0x02);
    CHECK(entry.cid == 0x0403);
    CHECK(entry.nsid == 0x08070605);
    CHECK(entry.cdw2 == 0x0c0b0a09);
    CHECK(entry.cdw3 == 0x100f0e0d);
    CHECK(entry.mptr == 0x1817161514131211);
    CHECK(entry.prp1 == 0x201f1e1d1c1b1a19);
    CHECK(entry.prp2 == 0x2827262524232221);
    CHECK(entry.cdw10 == 0x2c2b2a29);
    CHECK(entry.cdw11 == 0x302f2e2d);
    CHECK(entry.cdw12 == 0x34333231);
    CHECK(entry.cdw13 == 0x38373635);
    CHECK(entry.cdw14 == 0x3c3b3a39);
    CHECK(entry.cdw15 == 0x403f3e3d);
    nvmearb_sqe_encode(&entry, again);
    CHECK(memcmp(again, bytes, sizeof bytes) == 0);
}

static void completion_fields_by_place(void)
{
    static const uint8_t want[NVMEARB_CQE_BYTES] = {0x04, 0x03, 0x02, 0x01, 0, 0, 0, 0,
                                                    0x08, 0x07, 0x06, 0x05, 0x34, 0x12, 0x4b, 0x0b};
    const nvmearb_cqe done = {0x01020304, 0x0708, 0x0506, 0x1234, 1, {5, 0xa5}};
    uint8_t bytes[NVMEARB_CQE_BYTES];
    nvmearb_cqe again;
    CHECK(nvmearb_cqe_encode(&done, bytes) == NVMEARB_OK);
    CHECK(memcmp(bytes, want, sizeof want) == 0);
    CHECK(nvmearb_cqe_decode(bytes, &again) == NVMEARB_OK);
    CHECK(again.dw0 == 0x01020304 && again.sqhd == 0x0708 && again.sqid == 0x0506 && again.cid == 0x1234);
    CHECK(again.phase == 1 && again.status.sct == 5 && again.status.sc == 0xa5);
}

/* Do Not Retry is bit 31 of Dword 3, and More bit 30. The fields are those without them. */
static void completions_with_flags(void)
{
    static const uint8_t want[] = {0, NVMEARB_MORE, NVMEARB_DNR, NVMEARB_MORE | NVMEARB_DNR};
    const nvmearb_cqe done = {0x01020304, 0x0708, 0x0506, 0x1234, 1, {7, 0xff}};
    uint8_t bytes[NVMEARB_CQE_BYTES], flags = 0xee;
    nvmearb_cqe again;
    CHECK(nvmearb_cqe_encode(&done, bytes) == NVMEARB_OK && bytes[15] == 0x0f);
    for (unsigned k = 0; k < 4; k++) {
        bytes[15] = (uint8_t)(0x0f | k << 6);
        CHECK(nvmearb_cqe_decode_with(bytes, &again, &flags) == NVMEARB_OK && flags == want[k]);
        CHECK(again.dw0 == done.dw0 && again.sqhd == done.sqhd && again.sqid == done.sqid && again.cid == done.cid);
        CHECK(again.phase == 1 && again.status.sct == 7 && again.status.sc == 0xff);
    }
}

static void refused_completions(void)
{
    uint8_t bytes[NVMEARB_CQE_BYTES] = {0, 0, 0, 0, 0, 0, 0, 0, 1, 0, 1, 0, 7, 0, 1, 0x80};
    uint8_t kept[NVMEARB_CQE_BYTES];
    uint8_t flags = 0xee;
    nvmearb_cqe entry, before;
    memset(&entry, 0xee, sizeof entry);
    memcpy(&before, &entry, sizeof entry);
    CHECK(nvmearb_cqe_decode(bytes, &entry) == NVMEARB_EARG); /* Do Not Retry is set */
    bytes[15] = 0;
    bytes[4] = 1;
    CHECK(nvmearb_cqe_decode(bytes, &entry) == NVMEARB_EARG); /* Dword 1 isn't 0 */
    CHECK(memcmp(&entry, &before, sizeof entry) == 0);
    CHECK(nvmearb_cqe_decode_with(bytes, &entry, &flags) == NVMEARB_EARG);
    bytes[4] = 0;
    bytes[15] = 0xd0;
    CHECK(nvmearb_cqe_decode_with(bytes, &entry, &flags) == NVMEARB_EARG); /* bit 28, of CRD, is set */
    bytes[15] = 0x20;
    CHECK(nvmearb_cqe_decode_with(bytes, &entry, &flags) == NVMEARB_EARG); /* bit 29 is */
    CHECK(memcmp(&entry, &before, sizeof entry) == 0 && flags == 0xee);
    bytes[15] = 0;
    CHECK(nvmearb_cqe_decode(bytes, &entry) == NVMEARB_OK);
    memcpy(kept, bytes, sizeof bytes);
    entry.phase = 2;
    CHECK(nvmearb_cqe_encode(&entry, bytes) == NVMEARB_EARG);
    entry.phase = 1;
    entry.status.sct = 8;
    CHECK(nvmearb_cqe_encode(&entry, bytes) == NVMEARB_EARG);
    CHECK(memcmp(bytes, kept, sizeof bytes) == 0);
    entry.status.sct = 7;
    entry.status.sc = 255;
    CHECK(nvmearb_cqe_encode(&entry, bytes) == NVMEARB_OK);
}

/* The status of an I/O command as a number: the type in bits 15:8, the code in bits 7:0. */
static unsigned outcome(uint8_t opcode, uint8_t flags, uint32_t nsid, uint64_t slba, uint32_t nlb, size_t count)
{
    static const uint64_t sizes[17] = {1000, 1000, 1000, 1000, 1000, 1000, 1000, 1000, 1000,
                                       1000, 1000, 1000, 1000, 1000, 1000, 1000, 1000};
    nvmearb_sqe entry;
    nvmearb_status status = {0xee, 0xee};
    memset(&entry, 0, sizeof entry);
    entry.opcode = opcode;
    entry.flags = flags;
    entry.nsid = nsid;
    entry.cdw10 = (uint32_t)slba;
    entry.cdw11 = (uint32_t)(slba >> 32);
    entry.cdw12 = nlb;
    if (nvmearb_outcome(&entry, sizes, count, &status) != NVMEARB_OK) {
        CHECK(status.sct == 0xee && status.sc == 0xee);
        return 0xffff;
    }
    return (unsigned)((unsigned)status.sct << 8 | status.sc);
}

static void outcomes(void)
{
    static const uint64_t empty[2] = {5, 0};
    nvmearb_sqe entry;
    nvmearb_status status;
    CHECK(outcome(0x00, 0, 0xffffffff, 0, 0, 16) == 0x0000);
    CHECK(outcome(0x02, 0, 0xffffffff, 0, 0, 16) == 0x0002);
    CHECK(outcome(0x02, 0, 17, 0, 0, 16) == 0x000b);
    CHECK(outcome(0x02, 0, 16, 0, 0, 16) == 0x0000);
    CHECK(outcome(0x02, 0, 0, 0, 0, 16) == 0x000b);
    CHECK(outcome(0x02, 1, 1, 0, 0, 16) == 0x0002);
    CHECK(outcome(0x09, 0, 1, 0, 0, 16) == 0x0001);
    CHECK(outcome(0x02, 0, 1, 999, 0, 1) == 0x0000);
    CHECK(outcome(0x01, 0, 1, 999, 1, 1) == 0x0080);
    CHECK(outcome(0x01, 0, 1, UINT64_MAX, 0xffff, 1) == 0x0080);
    CHECK(outcome(0x02, 0, 1, 0, 0, 0) == 0x000b);
    CHECK(outcome(0x02, 0, 1, 0, 0, 17) == 0xffff);
    memset(&entry, 0, sizeof entry);
    CHECK(nvmearb_outcome(&entry, empty, 2, &status) == NVMEARB_EARG);
    CHECK(nvmearb_outcome(&entry, empty, 1, &status) == NVMEARB_OK);
}

/* The status that `call` writes of a command over namespaces of which the second is inactive, as a number. */
static unsigned answered(void (*call)(const nvmearb_sqe *, const uint64_t *, size_t, nvmearb_status *), uint8_t opcode,
                         uint8_t flags, uint32_t nsid, uint64_t slba, uint32_t nlb)
{
    static const uint64_t sizes[3] = {1000, 0, 0x100000000};
    nvmearb_sqe entry;
    nvmearb_status status = {0xee, 0xee};
    memset(&entry, 0, sizeof entry);
    entry.opcode = opcode;
    entry.flags = flags;
    entry.nsid = nsid;
    entry.cdw10 = (uint32_t)slba;
    entry.cdw11 = (uint32_t)(slba >> 32);
    entry.cdw12 = nlb;
    call(&entry, sizes, 3, &status);
    return (unsigned)((unsigned)status.sct << 8 | status.sc);
}

static void checks(void)
{
    static const uint64_t many[17] = {1, 1, 1, 1, 1, 1, 1, 1, 1, 1, 1, 1, 1, 1, 1, 1, 1};
    nvmearb_sqe entry;
    nvmearb_status status;
    CHECK(answered(nvmearb_check, 0x00, 0x00, 0xffffffff, 0, 0) == 0x0000);
    CHECK(answered(nvmearb_check, 0x00, 0x00, 2, 0, 0) == 0x0002);
    CHECK(answered(nvmearb_check, 0x00, 0x40, 1, 0, 0) == 0x0002);
    CHECK(answered(nvmearb_check, 0x02, 0x00, 0xffffffff, 0, 0) == 0x0002);
    CHECK(answered(nvmearb_check, 0x02, 0x00, 2, 0, 0) == 0x0002);
    CHECK(answered(nvmearb_check, 0x02, 0x00, 4, 0, 0) == 0x000b);
    CHECK(answered(nvmearb_check, 0x02, 0x00, 0, 0, 0) == 0x000b);
    CHECK(answered(nvmearb_check, 0x02, 0x01, 1, 0, 0) == 0x0002);
    CHECK(answered(nvmearb_check, 0x02, 0x3c, 1, 0, 0) == 0x0000);
    CHECK(answered(nvmearb_check, 0x02, 0x40, 1, 0, 0) == 0x0002);
    CHECK(answered(nvmearb_check, 0x01, 0x80, 1, 0, 0) == 0x0002);
    CHECK(answered(nvmearb_check, 0x01, 0xc0, 1, 0, 0) == 0x0002);
    CHECK(answered(nvmearb_check, 0x05, 0x40, 1, 0, 0) == 0x0002);
    CHECK(answered(nvmearb_check, 0x05, 0x00, 1, 0, 0) == 0x0001);
    CHECK(answered(nvmearb_check, 0x02, 0x00, 1, 999, 0) == 0x0000);
    CHECK(answered(nvmearb_check, 0x01, 0x00, 1, 999, 1) == 0x0080);
    CHECK(answered(nvmearb_check, 0x02, 0x00, 3, 0xffffffff, 0) == 0x0000);
    CHECK(answered(nvmearb_check, 0x02, 0x00, 3, UINT64_MAX, 0xffff) == 0x0080);
    memset(&entry, 0, sizeof entry);
    entry.opcode = NVMEARB_OPC_READ;
    entry.nsid = 17;
    nvmearb_check(&entry, many, 17, &status);
    CHECK(status.sct == 0 && status.sc == NVMEARB_SC_SUCCESS);
    nvmearb_check(&entry, many, 0, &status);
    CHECK(status.sct == 0 && status.sc == NVMEARB_SC_INVALID_NAMESPACE);
}

static void ranges(void)
{
    CHECK(answered(nvmearb_range, 0x05, 0x41, 1, 990, 9) == 0x0000);
    CHECK(answered(nvmearb_range, 0x05, 0x41, 1, 990, 10) == 0x0080);
    CHECK(answered(nvmearb_range, 0x08, 0x00, 2, 0, 0) == 0x0002);
    CHECK(answered(nvmearb_range, 0x08, 0x00, 0xffffffff, 0, 0) == 0x0002);
    CHECK(answered(nvmearb_range, 0x0c, 0x00, 0, 0, 0) == 0x000b);
    CHECK(answered(nvmearb_range, 0x0c, 0x00, 4, 0, 0) == 0x000b);
    CHECK(answered(nvmearb_range, 0x04, 0x00, 3, 0xffff0001, 0xfffe) == 0x0000);
    CHECK(answered(nvmearb_range, 0x04, 0x00, 3, 0xffff0001, 0xffff) == 0x0080);
}

static nvmearb_admin admin(uint8_t opcode, uint32_t cdw10, uint32_t cdw11, uint64_t prp1)
{
    nvmearb_sqe entry;
    nvmearb_admin command;
    memset(&entry, 0, sizeof entry);
    memset(&command, 0xee, sizeof command);
    entry.opcode = opcode;
    entry.cdw10 = cdw10;
    entry.cdw11 = cdw11;
    entry.prp1 = prp1;
    nvmearb_admin_of(&entry, &command);
    return command;
}

static void admin_fields(void)
{
    nvmearb_admin it = admin(0x01, 0x00ff0003, 0x00050003, 0x1234567890);
    CHECK(it.kind == NVMEARB_ADMIN_CREATE_SQ && it.qid == 3 && it.qsize == 255 && it.cqid == 5);
    CHECK(it.qprio == 1 && it.pc == 1 && it.prp1 == 0x1234567890);
    CHECK(it.fid == 0 && it.sv == 0 && it.cdw11 == 0 && it.cid == 0);
    it = admin(0x05, 0x00010002, 0x00050002, 0x1000);
    CHECK(it.kind == NVMEARB_ADMIN_CREATE_CQ && it.qid == 2 && it.qsize == 1 && it.pc == 0 && it.prp1 == 0x1000);
    CHECK(it.cqid == 0 && it.qprio == 0);
    it = admin(0x00, 7, 0, 0);
    CHECK(it.kind == NVMEARB_ADMIN_DELETE_SQ && it.qid == 7 && it.qsize == 0);
    it = admin(0x04, 8, 0, 0);
    CHECK(it.kind == NVMEARB_ADMIN_DELETE_CQ && it.qid == 8);
    it = admin(0x09, 0x80000007, 0x00030003, 0);
    CHECK(it.kind == NVMEARB_ADMIN_SET_FEATURES && it.fid == 7 && it.sv == 1 && it.cdw11 == 0x00030003);
    it = admin(0x0a, 0x00000001, 0, 0);
    CHECK(it.kind == NVMEARB_ADMIN_GET_FEATURES && it.fid == 1 && it.qid == 0);
    it = admin(0x08, 0x12340056, 0xffffffff, 0xffff);
    CHECK(it.kind == NVMEARB_ADMIN_ABORT && it.qid == 0x56 && it.cid == 0x1234);
    CHECK(it.qsize == 0 && it.cqid == 0 && it.prp1 == 0 && it.cdw11 == 0 && it.fid == 0 && it.pc == 0);
    it = admin(0x0c, 1, 1, 1);
    CHECK(it.kind == NVMEARB_ADMIN_OTHER && it.qid == 0 && it.cid == 0 && it.prp1 == 0 && it.cdw11 == 0);
}

static void settings(void)
{
    nvmearb_settings it;
    nvmearb_settings_of(0x030100f9, &it);
    CHECK(it.cdw11 == 0x03010001);
    CHECK(it.burst == 2 && it.high == 4 && it.medium == 2 && it.low == 1);
    nvmearb_settings_of(0xffffffff, &it);
    CHECK(it.cdw11 == 0xffffff07);
    CHECK(it.burst == 0 && it.high == 256 && it.medium == 256 && it.low == 256);
}

/* A million rounds of random bytes in every argument: bytes to fields and back, and every call. */
static void random_calls(void)
{
    uint64_t state = 1;
    unsigned wrong = 0;
    for (int round = 0; round < 1000000; round++) {
        uint8_t sq[NVMEARB_SQE_BYTES], sq_again[NVMEARB_SQE_BYTES];
        uint8_t cq[NVMEARB_CQE_BYTES], cq_again[NVMEARB_CQE_BYTES], flags;
        nvmearb_sqe entry;
        nvmearb_cqe done, random;
        nvmearb_status status, told, fit;
        nvmearb_admin command;
        nvmearb_settings values;
        uint64_t sizes[20];
        uint64_t word = drawn(&state);
        size_t count = word % 20;
        int reserved;
        draw_into(&state, sq, sizeof sq);
        draw_into(&state, cq, sizeof cq);
        draw_into(&state, &random, sizeof random);
        draw_into(&state, sizes, sizeof sizes);
        nvmearb_sqe_decode(sq, &entry);
        nvmearb_sqe_encode(&entry, sq_again);
        wrong += memcmp(sq, sq_again, sizeof sq) != 0;
        if (word >> 63) {
            memset(cq + 4, 0, 4);
            cq[15] &= 0x0f;
        }
        reserved = (cq[4] | cq[5] | cq[6] | cq[7]) != 0 || cq[15] >> 4 != 0;
        wrong += nvmearb_cqe_decode_with(cq, &done, &flags) !=
                 (cq[4] | cq[5] | cq[6] | cq[7] | (cq[15] & 0x30) ? NVMEARB_EARG : NVMEARB_OK);
        wrong += nvmearb_cqe_decode(cq, &done) != (reserved ? NVMEARB_EARG : NVMEARB_OK);
        if (!reserved) {
            wrong += nvmearb_cqe_encode(&done, cq_again) != NVMEARB_OK;
            wrong += memcmp(cq, cq_again, sizeof cq) != 0;
        }
        wrong += nvmearb_cqe_encode(&random, cq) !=
                 (random.phase > 1 || random.status.sct > 7 ? NVMEARB_EARG : NVMEARB_OK);
        if (word >> 62 & 1) {
            sizes[word % 19] = 0;
        }
        reserved = count > NVMEARB_MAX_NAMESPACES;
        for (size_t i = 0; i < count; i++) {
            reserved |= sizes[i] == 0;
        }
        entry.opcode &= 3;
        entry.flags &= (uint8_t)(word >> 32);
        entry.nsid &= 31;
        wrong += nvmearb_outcome(&entry, sizes, count, &status) != (reserved ? NVMEARB_EARG : NVMEARB_OK);
        nvmearb_check(&entry, sizes, count, &told);
        nvmearb_range(&entry, sizes, count, &fit);
        if (entry.flags & 0xc0) {
            wrong += told.sct != 0 || told.sc != NVMEARB_SC_INVALID_FIELD;
        } else if (!reserved) {
            wrong += memcmp(&told, &status, sizeof told) != 0;
        }
        if ((entry.flags & 0xc3) == 0 && (entry.opcode == NVMEARB_OPC_WRITE || entry.opcode == NVMEARB_OPC_READ)) {
            wrong += memcmp(&told, &fit, sizeof told) != 0;
        }
        nvmearb_admin_of(&entry, &command);
        wrong += command.kind > NVMEARB_ADMIN_ABORT;
        nvmearb_settings_of((uint32_t)word, &values);
        wrong += values.cdw11 != ((uint32_t)word & 0xffffff07);
    }
    CHECK(wrong == 0);
}

int main(void)
{
    version();
    submission_fields_by_place();
    completion_fields_by_place();
    completions_with_flags();
    refused_completions();
    outcomes();
    checks();
    ranges();
    admin_fields();
    settings();
    random_calls();
    return told();
}
