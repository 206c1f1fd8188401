#include "lda.h"

#include <inttypes.h>
#include <stdlib.h>
#include <string.h>

#include "mop.h"
#include "words.h"

#define SPACE 0x10000 /* addresses of the loader */
#define BLOCK 1       /* the byte that a block begins with */
#define HEADER 6      /* bytes of a block before its data: 1, 0, count 2, address 2 */

/* The file, how far it is read, and the memory that it is laid in. */
typedef struct reading {
    const char *path;
    const contents *file;
    size_t at;      /* where the next block begins, or is looked for */
    size_t blocks;  /* that were taken */
    bool over;      /* the block that ends the program has come */
    uint32_t start; /* its address */
    uint8_t memory[SPACE];
    uint8_t laid[SPACE]; /* 1 for each byte that a block gave */
} reading;

/* What is wrong with the block, and at which of its bytes. */
static int bad(const reading *r, size_t byte, const char *why)
{
    return complain(
        STATUS_FILE, "%s, byte %zu, in the block that begins at byte %zu: %s", r->path, r->at + byte, r->at, why);
}

static size_t low_first(const uint8_t *bytes)
{
    return (size_t)(bytes[0] | bytes[1] << 8);
}

static uint8_t sum(const uint8_t *bytes, size_t length)
{
    uint8_t total = 0;
    for (size_t i = 0; i < length; i++)
        total = (uint8_t)(total + bytes[i]);
    return total;
}

/* ---- What a block is ------------------------------------------------- */

/* The length of the block that stands at this byte, by its count; 0 if its second byte or its count is wrong, or the
 * file ends before it does. */
static size_t block_length(const contents *file, size_t at)
{
    const uint8_t *block = file->bytes + at;
    const size_t left = file->length - at;
    if (left <= HEADER || block[1] != 0)
        return 0;
    const size_t count = low_first(block + 2);
    return count >= HEADER && count < left ? count + 1 : 0;
}

/* Whether its checksum is right, where it begins with 1 as it must. */
static bool sums_up(const contents *file, size_t at, size_t length)
{
    return length > 0 && (uint8_t)(BLOCK + sum(file->bytes + at + 1, length - 1)) == 0;
}

/* ---- The blocks ------------------------------------------------------ */

/* Of what stands before the first block: a block whose first byte alone is wrong, which ends there but for zeros. */
static int check_leader(const reading *r)
{
    const contents *file = r->file;
    size_t last = r->at;
    while (last > 0 && file->bytes[last - 1] == 0)
        last--;
    for (size_t at = 0; at < last; at++) {
        const size_t length = block_length(file, at), end = at + length;
        if (end >= last && end <= r->at && sums_up(file, at, length))
            return complain(STATUS_FILE, "%s, byte %zu: a block begins here with 0x%02X and not with 1: it is damaged",
                r->path, at, file->bytes[at]);
    }
    return 0;
}

/* Goes on to the first byte that begins a block. What stands before it may be a leader, punched to be read by eye. */
static int skip_leader(reading *r)
{
    const contents *file = r->file;
    size_t skipped = 0, first = 0;
    for (; r->at < file->length && file->bytes[r->at] != BLOCK; r->at++)
        if (file->bytes[r->at] != 0 && skipped++ == 0)
            first = r->at;
    if (skipped == 0 || r->at == file->length)
        return 0;
    complain(0, "%s: bytes before the first block are skipped: %zu other than 0, the first at byte %zu", r->path,
        skipped, first);
    return check_leader(r);
}

/* Goes on to the next byte other than 0; false if there is none. */
static bool skip_zeros(reading *r)
{
    while (r->at < r->file->length && r->file->bytes[r->at] == 0)
        r->at++;
    return r->at < r->file->length;
}

/* A good block: its data, or the start address where it has none. */
static void lay_block(reading *r, const uint8_t *block, size_t count, size_t address)
{
    memcpy(r->memory + address, block + HEADER, count - HEADER);
    memset(r->laid + address, 1, count - HEADER);
    r->over = count == HEADER;
    r->start = (uint32_t)address;
    r->blocks += 1;
    r->at += count + 1;
}

/* The count is of the header and the data; one byte follows that makes the sum of all 0. */
static int take_block(reading *r)
{
    const uint8_t *block = r->file->bytes + r->at;
    const size_t left = r->file->length - r->at;
    if (block[0] != BLOCK)
        return complain(STATUS_FILE,
            "%s, byte %zu: 0x%02X stands where a block is to begin with 1: it is damaged, or bytes were lost or added",
            r->path, r->at, block[0]);
    if (left < HEADER)
        return bad(r, left, "the file ends before the block does");
    if (block[1] != 0)
        return bad(r, 1, "the block's second byte is not 0");
    const size_t count = low_first(block + 2), address = low_first(block + 4);
    if (count < HEADER)
        return bad(r, 2, "the block's count is under 6");
    if (address + count - HEADER > SPACE)
        return bad(r, 4, "the block runs over address 0xFFFF");
    if (left <= count)
        return bad(r, left, "the file ends before the block does");
    if (sum(block, count + 1) != 0)
        return bad(r, count, "the block's checksum is wrong");
    lay_block(r, block, count, address);
    return 0;
}

static int take_blocks(reading *r)
{
    int status = skip_leader(r);
    while (status == 0 && !r->over && skip_zeros(r))
        status = take_block(r);
    return status;
}

/* ---- The memory ------------------------------------------------------ */

/* The first address behind this one whose mark is another. */
static size_t run_end(const reading *r, size_t from)
{
    const uint8_t *end = memchr(r->laid + from, 1 - r->laid[from], SPACE - from);
    return end == NULL ? SPACE : (size_t)(end - r->laid);
}

static int add_runs(pieces *p, const reading *r)
{
    int status = 0;
    for (size_t at = 0, end = 0; status == 0 && at < SPACE; at = end) {
        end = run_end(r, at);
        if (r->laid[at] != 0)
            status = pieces_add(p, at, r->memory + at, end - at);
    }
    return status;
}

/* ---- The file -------------------------------------------------------- */

/* Goes on to the next good block, or to the file's end. With the sum of all that stands before each byte, no block's
 * own has to be counted: there may be many, and long ones. */
static int find_block(const contents *file, size_t *at)
{
    uint8_t *sums = calloc(file->length + 1, 1);
    if (sums == NULL)
        return complain(STATUS_OTHER, "no memory");
    for (size_t i = 0; i < file->length; i++)
        sums[i + 1] = (uint8_t)(sums[i] + file->bytes[i]);
    for (; *at < file->length; *at += 1) {
        const size_t length = file->bytes[*at] == BLOCK ? block_length(file, *at) : 0;
        if (length > 0 && sums[*at + length] == sums[*at])
            break;
    }
    free(sums);
    return 0;
}

/* What stands behind the block that ends the program: zeros, or other bytes, which is told. Where another block is
 * among them the file is no program: of an object file the block that ends its symbols looks like an end block. */
static int check_behind(const reading *r)
{
    const contents *file = r->file;
    size_t first = r->at;
    while (first < file->length && file->bytes[first] == 0)
        first++;
    size_t block = first;
    int status = find_block(file, &block);
    if (status == 0 && block < file->length)
        status = complain(STATUS_FILE,
            "%s: the program ends before byte %zu, and another block begins at byte %zu: it is an object file, which "
            "is not linked yet, or two programs one behind the other (head -c %zu gives the first)",
            r->path, r->at, block, r->at);
    else if (status == 0 && first < file->length)
        complain(0, "%s: the program ends before byte %zu, and what stands behind is not read: at byte %zu it is not 0",
            r->path, r->at, first);
    return status;
}

int lda_bytes(pieces *p, const char *path, const contents *file)
{
    reading r = {.path = path, .file = file};
    int status = take_blocks(&r);
    if (status != 0)
        return status;
    if (r.blocks == 0)
        return complain(STATUS_FILE, "%s has no block: it is not in the absolute loader format", path);
    if (!r.over)
        return complain(STATUS_FILE, "%s has no end block: it was cut short", path);
    status = check_behind(&r);
    if (status != 0)
        return status;
    if (r.start % 2 == 0) {
        p->transfer = r.start;
        p->has_transfer = true;
    } else {
        complain(0, "%s: its start address 0o%" PRIo32 " is odd, which means none", path, r.start);
    }
    return add_runs(p, &r);
}

bool lda_likely(const contents *file)
{
    size_t at = 0;
    while (at < file->length && file->bytes[at] == 0)
        at++;
    return at < file->length && file->bytes[at] == BLOCK && sums_up(file, at, block_length(file, at));
}

int lda_read(pieces *p, const char *path)
{
    contents file;
    int status = file_read(path, MOP_FILE_MOST, &file);
    if (status == 0)
        status = lda_bytes(p, path, &file);
    free(file.bytes);
    return status;
}
