/* The absolute loader format: what the driver reads is what a loader gets that takes one byte at a time, and the image
 * made of it holds that. */
#include "lda.h"

#include <inttypes.h>
#include <stdio.h>
#include <stdlib.h>
#include <string.h>

#include "fuzz.h"

/* ---- Files ----------------------------------------------------------- */

static void put_block(uint32_t address, size_t length)
{
    const size_t first = input.length;
    uint8_t sum = 0;
    put_byte(1);
    put_byte((uint8_t)(one_in(200) ? below(256) : 0));
    put_low_first((uint32_t)(one_in(100) ? below(9) : 6 + length), 2);
    put_low_first(address, 2);
    for (size_t i = 0; i < length; i++)
        put_byte((uint8_t)(one_in(3) ? below(3) : below(256)));
    for (size_t i = first; i < input.length; i++)
        sum = (uint8_t)(sum - input.bytes[i]);
    put_byte(one_in(200) ? (uint8_t)(sum + 1) : sum);
    if (one_in(100))
        input.bytes[first] = (uint8_t)below(256);
}

/* What stands around the blocks: often nothing, or zeros. */
static void put_between(void)
{
    const uint32_t count = one_in(2) ? 0 : below(9);
    const bool zeros = !one_in(8);
    for (uint32_t i = 0; i < count; i++)
        put_byte((uint8_t)(zeros || one_in(2) ? 0 : below(256)));
}

/* The next address: the end of the last bytes, a gap, a step back, or any. */
static uint32_t onward(uint32_t address)
{
    switch (below(8)) {
    case 0:
        return any_number();
    case 1:
        return address + below(4);
    case 2:
        return address - below(12);
    default:
        return address;
    }
}

static void make_file(void)
{
    uint32_t address = any_number();
    put_between();
    for (uint32_t blocks = below(9); blocks > 0; blocks--) {
        size_t length = one_in(30) ? 200 + below(800) : 1 + below(9);
        put_block(address & 0xFFFF, length);
        put_between();
        address = onward(address + (uint32_t)length);
    }
    if (!one_in(20))
        put_block(one_in(4) ? 1 : any_number() & 0xFFFF, 0);
    put_between();
    if (one_in(10))
        put_block(any_number() & 0xFFFF, below(9));
    if (one_in(2))
        mutate(NULL);
}

/* ---- A loader -------------------------------------------------------- */

typedef struct loader {
    size_t at;         /* the number of the byte that comes */
    size_t block;      /* where the block began */
    size_t seen;       /* its bytes that came, 0 between blocks */
    size_t header[6];  /* the first of them */
    size_t sum;        /* of all */
    size_t blocks;     /* that were good */
    size_t leader;     /* bytes before the first block */
    size_t skipped;    /* those of them other than 0, and the first of these */
    size_t first;      /* .. */
    bool ended;        /* the end block came; */
    size_t end;        /* the byte behind it, */
    size_t behind;     /* and the first one from there on that is not 0, or 0 */
    const char *fault; /* what is wrong in a block, or NULL, */
    size_t fault_at;   /* and at which byte */
    bool stray;        /* a byte between two blocks is not 0, the one that came last */
    bool hidden;       /* before the first block there is one whose first byte is wrong, */
    size_t hidden_at;  /* here */
    bool again;        /* a block stands behind the end block, */
    size_t again_at;   /* the first one here */
    slow *memory;
} loader;

static void fault(loader *l, size_t at, const char *what)
{
    l->fault = what;
    l->fault_at = at;
}

static size_t count_of(const loader *l)
{
    return l->header[2] + 256 * l->header[3];
}

static size_t address_of(const loader *l)
{
    return l->header[4] + 256 * l->header[5];
}

/* Writes a byte into memory. */
static void write_byte(slow *memory, size_t address, uint8_t byte)
{
    size_t i = 0;
    while (i < memory->count && memory->cells[i].address != address)
        i++;
    memory->cells[i] = (cell){address, byte};
    memory->count += i == memory->count;
}

static void end_block(loader *l)
{
    if (l->sum % 256 != 0)
        fault(l, l->at, "the block's checksum is wrong");
    l->blocks += 1;
    l->seen = 0;
    if (count_of(l) != 6)
        return;
    l->ended = true;
    l->end = l->at + 1;
    l->memory->start = address_of(l);
    l->memory->starts = address_of(l) % 2 == 0;
}

static void end_header(loader *l)
{
    if (l->header[1] != 0)
        fault(l, l->block + 1, "the block's second byte is not 0");
    else if (count_of(l) < 6)
        fault(l, l->block + 2, "the block's count is under 6");
    else if (address_of(l) + count_of(l) - 6 > 65536)
        fault(l, l->block + 4, "the block runs over address 0xFFFF");
}

static void in_block(loader *l, uint8_t byte)
{
    const size_t place = l->seen++;
    l->sum += byte;
    if (place < 6)
        l->header[place] = byte;
    if (place == 5)
        end_header(l);
    if (place >= 6 && place < count_of(l))
        write_byte(l->memory, address_of(l) + place - 6, byte);
    if (place >= 6 && place == count_of(l))
        end_block(l);
}

static void between_blocks(loader *l, uint8_t byte)
{
    if (byte == 1) {
        l->leader = l->blocks == 0 ? l->at : l->leader;
        l->block = l->at;
        l->seen = 1;
        l->sum = 1;
    } else if (byte != 0 && l->blocks > 0) {
        l->stray = true;
        l->block = l->at;
    } else if (byte != 0) {
        l->first = l->skipped == 0 ? l->at : l->first;
        l->skipped += 1;
    }
}

/* Whether this part of the file, but for its first byte, is one good block. */
static bool is_rest(const uint8_t *bytes, size_t length)
{
    unsigned total = 1;
    if (length < 7 || bytes[1] != 0 || bytes[2] + 256U * bytes[3] + 1 != length)
        return false;
    for (size_t i = 1; i < length; i++)
        total += bytes[i];
    return total % 256 == 0;
}

static bool all_zeros(const uint8_t *bytes, size_t length)
{
    size_t zeros = 0;
    while (zeros < length && bytes[zeros] == 0)
        zeros++;
    return zeros == length;
}

/* A block before the first one that is good but for its first byte: nothing but zeros stands between the two. */
static void look_before(loader *l, const contents *file)
{
    for (size_t at = 0; l->skipped > 0 && !l->hidden && at < l->leader; at++) {
        l->hidden_at = at;
        for (size_t end = l->leader; !l->hidden && end > at && all_zeros(file->bytes + end, l->leader - end); end--)
            l->hidden = is_rest(file->bytes + at, end - at);
    }
}

static void look_behind(loader *l, const contents *file)
{
    for (size_t at = l->end; l->ended && !l->again && at < file->length; at++) {
        l->again_at = at;
        for (size_t end = at + 7; file->bytes[at] == 1 && !l->again && end <= file->length; end++)
            l->again = is_rest(file->bytes + at, end - at);
    }
}

static void load(loader *l, const contents *file)
{
    for (; l->at < file->length && l->fault == NULL && !l->stray; l->at++)
        if (l->ended)
            l->behind = l->behind == 0 && file->bytes[l->at] != 0 ? l->at : l->behind;
        else if (l->seen > 0)
            in_block(l, file->bytes[l->at]);
        else
            between_blocks(l, file->bytes[l->at]);
    if (l->fault == NULL && l->seen > 0)
        fault(l, file->length, "the file ends before the block does");
    look_before(l, file);
    look_behind(l, file);
}

/* ---- What must hold -------------------------------------------------- */

/* Why a file is refused; empty if it is not. */
static void refusal(const loader *l, char *want, size_t most)
{
    if (l->hidden)
        snprintf(want, most, "file, byte %zu: a block begins here with 0x", l->hidden_at);
    else if (l->fault != NULL)
        snprintf(
            want, most, "file, byte %zu, in the block that begins at byte %zu: %s", l->fault_at, l->block, l->fault);
    else if (l->stray)
        snprintf(want, most, "file, byte %zu: 0x", l->block);
    else if (l->blocks == 0)
        snprintf(want, most, "file has no block: ");
    else if (!l->ended)
        snprintf(want, most, "file has no end block: ");
    else if (l->again)
        snprintf(want, most, "file: the program ends before byte %zu, and another block begins at byte %zu: ", l->end,
            l->again_at);
}

/* What is said last of a file that is taken: that it has no start, what stands behind the end block, or before the
 * first one. */
static void telling(const loader *l, char *want, size_t most)
{
    if (!l->memory->starts)
        snprintf(want, most, "file: its start address 0o%" PRIo64 " is odd, which means none", l->memory->start);
    else if (l->behind > 0)
        snprintf(want, most,
            "file: the program ends before byte %zu, and what stands behind is not read: at byte %zu it ", l->end,
            l->behind);
    else if (l->skipped > 0)
        snprintf(want, most, "file: bytes before the first block are skipped: %zu other than 0, the first at byte %zu",
            l->skipped, l->first);
}

static void check_said(const loader *l, bool refused)
{
    char want[SAID_MOST] = "";
    refusal(l, want, sizeof want);
    require(refused == (want[0] != '\0'), "both take the file or neither does");
    if (!refused)
        telling(l, want, sizeof want);
    require(strncmp(said, want, strlen(want)) == 0 && (want[0] != '\0' || said[0] == '\0'),
        "what is wrong or left out is said, with its place");
}

bool fuzz_lda(void)
{
    static slow want;
    loader l = {.memory = &want};
    pieces p = {0};
    want.count = want.regions = 0;
    want.overlap = want.starts = false;
    make_file();
    contents file = exact();
    int status = lda_bytes(&p, "file", &file);
    load(&l, &file);
    check_said(&l, status != 0);
    bool made = false;
    if (status == 0) {
        slow_judge(&want);
        made = pieces_check(&p, &want);
    } else {
        require(p.count == 0 && !p.has_transfer, "a file that is refused adds nothing");
    }
    pieces_free(&p);
    free(file.bytes);
    return made;
}
