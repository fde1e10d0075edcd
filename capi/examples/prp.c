/*
 * Guest memory that PRPs name. To be written anew where a device takes SGLs, or maps guest memory to hand pieces of it
 * to its backend; where it has another page size than 4 KiB, too.
 */
#include "parts.h"

#include <string.h>

#define IN_PAGE (NVME_PAGE / 8) /* the entries of a page of a PRP list */

static const nvmearb_status bad_offset = {NVMEARB_SCT_GENERIC, NVMEARB_SC_PRP_OFFSET_INVALID};
static const nvmearb_status bad_transfer = {NVMEARB_SCT_GENERIC, NVMEARB_SC_DATA_TRANSFER_ERROR};

/* Adds a page, or the first bytes of it where no more are left. */
static nvmearb_status add_page(uint64_t page, size_t *left, struct nvme_piece *pieces, uint16_t *count)
{
    uint32_t length = *left < NVME_PAGE ? (uint32_t)*left : NVME_PAGE;
    if (page % NVME_PAGE)
        return bad_offset;
    pieces[(*count)++] = (struct nvme_piece){page, length};
    *left -= length;
    return nvme_success;
}

/* Adds what a PRP list names. Each entry is read once. The last one of a page names the rest, where there is a rest. */
static nvmearb_status add_list(struct nvme *d, uint64_t list, size_t left, struct nvme_piece *pieces, uint16_t *count)
{
    uint64_t entries[IN_PAGE];
    nvmearb_status status = nvme_success;
    if (list % 8)
        return bad_offset;
    while (left && !nvme_is_error(status)) {
        size_t wanted = (left + NVME_PAGE - 1) / NVME_PAGE, n = (NVME_PAGE - list % NVME_PAGE) / 8;
        int has_rest = wanted > n;
        n = has_rest ? n : wanted;
        if (!d->host.copy(d->host.context, list, entries, n * 8, 0))
            return bad_transfer;
        for (size_t k = 0; k + (size_t)has_rest < n && !nvme_is_error(status); k++)
            status = add_page(entries[k], &left, pieces, count);
        list = entries[n - 1];
        if (has_rest && list % NVME_PAGE)
            return bad_offset;
    }
    return status;
}

/* Goes by PRP 1, and PRP 2 or the list that it names. `pieces` has room for NVME_PIECES, enough for NVME_MOST_BYTES. */
nvmearb_status nvme_find(struct nvme *d, const nvmearb_sqe *entry, size_t length, struct nvme_piece *pieces,
                         uint16_t *count)
{
    size_t room = NVME_PAGE - entry->prp1 % NVME_PAGE, first = length < room ? length : room, left = length - first;
    *count = 0;
    if (entry->flags >> 6) /* PSDT: SGLs */
        return nvme_invalid_field;
    if (entry->prp1 % 4)
        return bad_offset;
    pieces[(*count)++] = (struct nvme_piece){entry->prp1, (uint32_t)first};
    if (left == 0)
        return nvme_success;
    return left <= NVME_PAGE ? add_page(entry->prp2, &left, pieces, count)
                             : add_list(d, entry->prp2, left, pieces, count);
}

nvmearb_status nvme_move(struct nvme *d, const struct nvme_piece *pieces, unsigned count, uint8_t *bytes, int to_guest)
{
    for (unsigned k = 0; k < count; bytes += pieces[k++].length)
        if (!d->host.copy(d->host.context, pieces[k].address, bytes, pieces[k].length, to_guest))
            return bad_transfer;
    return nvme_success;
}

nvmearb_status nvme_transfer(struct nvme *d, const nvmearb_sqe *entry, uint8_t *bytes, size_t length, int to_guest)
{
    struct nvme_piece pieces[NVME_PIECES];
    uint16_t count;
    nvmearb_status status = nvme_find(d, entry, length, pieces, &count);
    return nvme_is_error(status) ? status : nvme_move(d, pieces, count, bytes, to_guest);
}
