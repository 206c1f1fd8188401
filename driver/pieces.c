#include "pieces.h"

#include <assert.h>
#include <inttypes.h>
#include <stdio.h>
#include <stdlib.h>
#include <string.h>

#include "words.h"

#define ADDRESS_END ((uint64_t)UINT32_MAX + 1)

static int grow_list(pieces *p)
{
    assert(p->count <= p->room && (p->room == 0) == (p->list == NULL));
    if (p->count < p->room)
        return 0;
    size_t room = p->room == 0 ? 256 : 2 * p->room;
    piece *list = realloc(p->list, room * sizeof *list);
    if (list == NULL)
        return complain(STATUS_OTHER, "no memory");
    p->list = list;
    p->room = room;
    return 0;
}

static int grow_store(pieces *p, size_t length)
{
    if (p->store.length + length > MOP_FILE_MOST)
        return complain(STATUS_IMAGE, "there are %zu bytes or more, and an image file has at most %d: leave bytes out",
            p->store.length + length, MOP_FILE_MOST);
    if (p->store.length + length <= p->store_room)
        return 0;
    size_t room = 2 * (p->store.length + length);
    uint8_t *bytes = realloc(p->store.bytes, room);
    if (bytes == NULL)
        return complain(STATUS_OTHER, "no memory");
    p->store.bytes = bytes;
    p->store_room = room;
    return 0;
}

int pieces_add(pieces *p, uint64_t address, const uint8_t *bytes, size_t length)
{
    if (length == 0)
        return 0;
    if (address + length > ADDRESS_END)
        return complain(STATUS_IMAGE, "the bytes at 0x%08" PRIX64 " end above address 0xFFFFFFFF", address);
    int status = grow_store(p, length);
    if (status == 0)
        status = grow_list(p);
    if (status != 0)
        return status;
    memcpy(p->store.bytes + p->store.length, bytes, length);
    piece *last = p->count == 0 ? NULL : &p->list[p->count - 1];
    if (last != NULL && last->address + last->length == address)
        last->length += length;
    else
        p->list[p->count++] = (piece){address, p->store.length, length};
    p->store.length += length;
    return 0;
}

static int by_address(const void *a, const void *b)
{
    uint64_t first = ((const piece *)a)->address, second = ((const piece *)b)->address;
    return first < second ? -1 : first > second;
}

/* The store in the order of the addresses. */
static int sort_store(pieces *p)
{
    contents sorted = {malloc(p->store.length), 0};
    if (sorted.bytes == NULL)
        return complain(STATUS_OTHER, "no memory");
    for (size_t i = 0; i < p->count; i++) {
        piece *one = &p->list[i];
        memcpy(sorted.bytes + sorted.length, p->store.bytes + one->at, one->length);
        one->at = sorted.length;
        sorted.length += one->length;
    }
    free(p->store.bytes);
    p->store = sorted;
    p->store_room = sorted.length;
    return 0;
}

int pieces_join(pieces *p)
{
    size_t kept = 0;
    if (p->count == 0)
        return complain(STATUS_IMAGE, "there are no bytes to put into an image");
    qsort(p->list, p->count, sizeof *p->list, by_address);
    int status = sort_store(p);
    if (status != 0)
        return status;
    for (size_t i = 1; i < p->count; i++) {
        piece *before = &p->list[kept];
        const piece *one = &p->list[i];
        uint64_t end = before->address + before->length;
        if (one->address < end)
            return complain(STATUS_IMAGE, "two inputs overlap at address 0x%08" PRIX64, one->address);
        if (one->address == end)
            before->length += one->length;
        else
            p->list[++kept] = *one;
    }
    p->count = kept + 1;
    if (p->count > MOP_REGIONS_MOST)
        return complain(STATUS_IMAGE,
            "there are %zu regions with gaps between, and an image holds at most %d: fill gaps with bytes", p->count,
            MOP_REGIONS_MOST);
    return 0;
}

static uint8_t *put(uint8_t *at, uint64_t number, int bytes)
{
    for (int i = 0; i < bytes; i++)
        *at++ = (uint8_t)(number >> 8 * i);
    return at;
}

/* Of one region there is no gap to fill. */
static int too_long(const pieces *p, size_t behind)
{
    char gaps[60] = "";
    if (p->count > 1)
        snprintf(gaps, sizeof gaps, ", or fill gaps of under %d bytes", IMAGE_ENTRY);
    return complain(STATUS_IMAGE,
        "%zu bytes of regions and %zu of directory and trailer are %zu, and an image file has at most %d: leave bytes "
        "out%s",
        p->store.length, behind, p->store.length + behind, MOP_FILE_MOST, gaps);
}

int pieces_image(const pieces *p, contents *image)
{
    const size_t behind = IMAGE_ENTRY * p->count + IMAGE_TRAILER;
    image->length = p->store.length + behind;
    if (image->length > MOP_FILE_MOST)
        return too_long(p, behind);
    image->bytes = malloc(image->length);
    if (image->bytes == NULL)
        return complain(STATUS_OTHER, "no memory");
    memcpy(image->bytes, p->store.bytes, p->store.length);
    uint8_t *at = image->bytes + p->store.length;
    for (size_t i = 0; i < p->count; i++) {
        at = put(at, p->list[i].address, 4);
        at = put(at, p->list[i].at, 4);
        at = put(at, p->list[i].length, 4);
    }
    at = put(at, p->store.length, 4);
    at = put(at, p->count, 4);
    at = put(at, p->transfer, 4);
    put(at, image->length, 4);
    return 0;
}

void pieces_free(pieces *p)
{
    free(p->list);
    free(p->store.bytes);
    *p = (pieces){0};
}
