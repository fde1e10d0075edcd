/*
 * Tags that are used up: a device that completes a command twice, or late, ends no other command. A tag is a slot and
 * that slot's generation, the next of 65,536 for each command that the device takes of the slot.
 */
#include "drive.h"

enum { POOL = 2, NEXT = 0x10000 };

/* A command goes to the device, under the tag that is told. It is the last one of the admin queue. */
static int goes(uint32_t *tag)
{
    return submits(IDENTIFY, 0, 0) && is_passed(tag);
}

/* The completion of the last command is posted, with its tag and this Dword 0, and the host reads it. */
static int posts(uint32_t dw0, uint32_t tag)
{
    nvmearb_post post;
    nvmearb_cqe cqe;
    return nvmearb_ctrl_post(&ctrl, slots, count, 0, &post) == NVMEARB_OK && post.tag == tag &&
           nvmearb_cqe_decode(post.bytes, &cqe) == NVMEARB_OK && cqe.cid == last() && cqe.dw0 == dw0 &&
           nvmearb_ctrl_cq_head(&ctrl, 0, (uint16_t)((post.slot + 1) % ADMIN_RING)) == NVMEARB_OK;
}

static int goes_through(uint32_t dw0, uint32_t *tag)
{
    return goes(tag) && completes(*tag, success, dw0) && posts(dw0, *tag);
}

/* No call knows a tag, and none changes anything. */
static int is_used_up(uint32_t tag)
{
    static nvmearb_ctrl before;
    static nvmearb_slot slots_before[POOL];
    nvmearb_command it;
    before = ctrl, memcpy(slots_before, slots, sizeof slots_before);
    return nvmearb_ctrl_complete(&ctrl, slots, count, tag, &success, 99) == NVMEARB_NONE &&
           nvmearb_ctrl_complete_with(&ctrl, slots, count, tag, &success, 99, NVMEARB_DNR) == NVMEARB_NONE &&
           nvmearb_ctrl_command(&ctrl, slots, count, tag, &it) == NVMEARB_NONE &&
           memcmp(&ctrl, &before, sizeof ctrl) == 0 && memcmp(slots, slots_before, sizeof slots_before) == 0;
}

/* The device has the command with this identifier under this tag. */
static int is_out(uint16_t cid, uint32_t tag)
{
    nvmearb_command it;
    uint32_t named = 0;
    return nvmearb_ctrl_command(&ctrl, slots, count, tag, &it) == NVMEARB_OK && it.tag == tag && it.entry.cid == cid &&
           nvmearb_ctrl_named(&ctrl, slots, count, 0, cid, &named) == NVMEARB_OK && named == tag;
}

/* The first command of each slot has generation 1, where zeros lay there. */
static void first_tags(void)
{
    uint32_t first = 0, second = 0;
    memset(slots, 0, sizeof slots);
    CHECK(is_made(&config, 2) && is_used_up(0) && is_used_up(1) && is_used_up(2) && is_used_up(UINT32_MAX));
    CHECK(goes(&first) && goes(&second) && first == NEXT && second == NEXT + 1);
    CHECK(NVMEARB_SLOT_OF(first) == 0 && NVMEARB_SLOT_OF(second) == 1 && is_out(0, first) && is_out(1, second));
    CHECK(is_used_up(0) && is_used_up(1) && is_used_up(NEXT + 2) && is_used_up(2 * NEXT) && is_used_up(2 * NEXT + 1));
    CHECK(completes(second, success, 5) && posts(5, second) && is_out(0, first));
    CHECK(completes(first, success, 6) && is_answered(0, 0, success, 6));
}

static void completed_twice(void)
{
    uint32_t tag = 0, named = 7;
    CHECK(is_made(&config, 1) && goes(&tag) && is_out(0, tag) && completes(tag, success, 1) && is_used_up(tag));
    CHECK(nvmearb_ctrl_named(&ctrl, slots, count, 0, 0, &named) == NVMEARB_NONE && named == 7);
    CHECK(posts(1, tag) && is_used_up(tag));
}

/* Late after a post: the slot holds another command, which waits, is picked, or is with the device. */
static void late_after_a_post(void)
{
    uint32_t first = 0, second = 0;
    nvmearb_step step;
    CHECK(is_made(&config, 1) && goes_through(2, &first) && submits(IDENTIFY, 0, 0) && is_used_up(first));
    CHECK(picks(1, NVMEARB_PASSED, &step) && is_used_up(first));
    CHECK(takes(&second) && second == first + NEXT && is_used_up(first) && is_out(1, second));
    CHECK(is_used_up(second + NEXT)); /* (nor is a tag known before its time) */
    CHECK(completes(second, success, 3) && is_used_up(first) && posts(3, second));
}

/* Late after another making over the same slots, whatever the first one left there. */
static void late_after_an_init(void)
{
    uint32_t first = 0, second = 0, third = 0;
    CHECK(is_made(&config, 1) && goes(&first) && is_made(&config, 1) && is_used_up(first));
    CHECK(goes(&second) && second == first + NEXT && is_used_up(first) && is_out(0, second));
    CHECK(completes(second, success, 4) && is_made(&config, 1) && is_used_up(second));
    CHECK(goes(&third) && third == second + NEXT && is_used_up(first) && is_used_up(second));
    CHECK(completes(third, success, 5) && posts(5, third));
}

/* A making that is refused leaves the commands with the device. */
static void late_after_a_refused_init(void)
{
    static const nvmearb_config none;
    uint32_t tag = 0;
    CHECK(is_made(&config, 1) && goes(&tag) && nvmearb_ctrl_init(&ctrl, slots, count, &none) == NVMEARB_EARG);
    CHECK(is_out(0, tag) && completes(tag, success, 6) && posts(6, tag));
}

/* A making takes the generations that lie in the slots, whatever they are. After the last one comes 0. */
static void any_generations(void)
{
    uint32_t first = 0, second = 0;
    memset(slots, 0xff, sizeof slots);
    CHECK(is_made(&config, 2) && is_used_up(0xffff0000) && is_used_up(0xffff0001));
    CHECK(goes_through(1, &first) && first == 0 && goes_through(2, &second) && second == 1);
    CHECK(goes_through(3, &first) && first == NEXT && is_used_up(0) && is_used_up(1));
    memset(slots, 0xa5, sizeof slots);
    CHECK(is_made(&config, 1) && goes_through(4, &first) && first == 0xa5a60000);
}

/*
 * A command that the controller carries out itself gives its slot no generation. Its completion has the last tag of the
 * slot, or what lay there.
 */
static void other_commands(void)
{
    uint32_t first = 0, second = 0;
    memset(slots, 0xa5, sizeof slots);
    CHECK(is_made(&config, 1) && submits(NVMEARB_OPC_GET_FEATURES, NVMEARB_FID_ARBITRATION, 0) && comes_to(NVMEARB_DONE));
    CHECK(is_used_up(0xa5a50000) && posts(7, 0xa5a50000) && goes_through(1, &first) && first == 0xa5a60000);
    for (int k = 0; k < 10; k++)
        CHECK(submits(NVMEARB_OPC_GET_FEATURES, NVMEARB_FID_ARBITRATION, 0) && comes_to(NVMEARB_DONE) &&
              is_used_up(first) && posts(7, first));
    CHECK(goes(&second) && second == first + NEXT && is_used_up(first));
}

/* A tag comes again with the 65,536th command that is taken from its slot after it, and not before. */
static void comes_again(void)
{
    uint32_t first = 0, tag = 0, before, refused = 0;
    CHECK(is_made(&config, 1) && goes_through(0, &first));
    before = first;
    for (uint32_t k = 1; k < 65536; k++, before = tag) {
        if (!goes_through(k, &tag) || tag != before + NEXT)
            break;
        refused += is_used_up(first) && is_used_up(before);
    }
    CHECK(refused == 65535 && NVMEARB_SLOT_OF(before) == NVMEARB_SLOT_OF(first));
    CHECK(goes(&tag) && tag == first && is_out(last(), first) && completes(first, success, 8) && posts(8, first));
}

int main(void)
{
    first_tags();
    completed_twice();
    late_after_a_post();
    late_after_an_init();
    late_after_a_refused_init();
    any_generations();
    other_commands();
    comes_again();
    return told();
}
