/* nvmearb_is_of_this_header over other libraries, whose version and sizes stand here, and texts of results. */
#include "tell.h"
#include <nvmearb.h>
#include <string.h>

static uint32_t version = NVMEARB_VERSION;
static uint32_t sizes[] = {0, sizeof(nvmearb_arbiter), sizeof(nvmearb_board), sizeof(nvmearb_table),
                           sizeof(nvmearb_ctrl), sizeof(nvmearb_slot)};

uint32_t nvmearb_version(void)
{
    return version;
}

uint32_t nvmearb_size(uint32_t state)
{
    return sizes[state];
}

#ifdef NVMEARB_ALLOW_UNPROVED
#define IS_ALLOWED 1
#else
#define IS_ALLOWED 0
#endif

/* A library of this version is taken or not, and one of other sizes isn't. */
static void of(uint32_t its_version, int is_taken)
{
    version = its_version;
    CHECK(nvmearb_is_of_this_header() == is_taken);
    for (int k = NVMEARB_STATE_ARBITER; k <= (int)NVMEARB_STATE_SLOT; k++) {
        sizes[k] -= 8;
        CHECK(nvmearb_is_of_this_header() == 0);
        sizes[k] += 8;
    }
}

/* Each text begins with the name. (tests/capi looks that each result of the header has one.) */
static void texts(void)
{
    CHECK(!strcmp(nvmearb_text(NVMEARB_OK), "NVMEARB_OK: done"));
    CHECK(!strcmp(nvmearb_text(NVMEARB_EARG), "NVMEARB_EARG: an argument isn't valid"));
    CHECK(!strcmp(nvmearb_text(NVMEARB_NOROOM), "NVMEARB_NOROOM: the device has room for no command"));
    CHECK(!strcmp(nvmearb_text(NVMEARB_ESLOT), "NVMEARB_ESLOT: the entry of another slot is to be fetched next"));
    CHECK(!strcmp(nvmearb_text(NVMEARB_ESLOT + 1), "no result of nvmearb.h"));
    CHECK(!strcmp(nvmearb_text(UINT32_MAX), "no result of nvmearb.h"));
}

int main(void)
{
    texts();
    of(NVMEARB_VERSION | NVMEARB_UNPROVED, IS_ALLOWED);
    of(NVMEARB_VERSION, 1);
    version -= 0x100;
    CHECK(nvmearb_is_of_this_header() == 0);
    return told();
}
