#include "listing.h"

#include <ctype.h>
#include <inttypes.h>

#include "lda.h"
#include "pieces.h"

typedef image_entry entry;

static uint64_t number(const uint8_t *bytes, int length)
{
    uint64_t value = 0;
    for (int i = length - 1; i >= 0; i--)
        value = value << 8 | bytes[i];
    return value;
}

static entry entry_at(const uint8_t *directory, uint64_t i)
{
    const uint8_t *at = directory + IMAGE_ENTRY * i;
    return (entry){number(at, 4), number(at + 4, 4), number(at + 8, 4)};
}

static void print_entry(FILE *out, uint64_t i, entry e)
{
    fprintf(out,
        "region %" PRIu64 ": %" PRIu64 " byte%s at 0x%08" PRIX64 " (0o%" PRIo64 "), from byte %" PRIu64
        " of the file on\n",
        i + 1, e.length, e.length == 1 ? "" : "s", e.address, e.address, e.offset);
}

static const uint8_t *directory_of(const contents *file, mop_image image)
{
    return file->bytes + file->length - IMAGE_TRAILER - (size_t)IMAGE_ENTRY * image.regions;
}

image_entry image_entry_at(const contents *file, mop_image image, uint32_t region)
{
    return entry_at(directory_of(file, image), region);
}

/* Regions stand in the order of their addresses. */
unsigned image_region(const contents *file, mop_image image, uint32_t address)
{
    const uint8_t *directory = directory_of(file, image);
    unsigned region = 0;
    while (region < image.regions && entry_at(directory, region).address <= address)
        region++;
    return region;
}

static void print_entries(FILE *out, const uint8_t *directory, uint32_t from, uint32_t to)
{
    for (uint32_t i = from; i < to; i++)
        print_entry(out, i, entry_at(directory, i));
}

void image_list(FILE *out, const contents *file, mop_image image, uint32_t most)
{
    const uint8_t *directory = directory_of(file, image);
    const uint32_t first = image.regions > most ? most / 2 : image.regions;
    const uint32_t last = image.regions > most ? image.regions - most / 2 : image.regions;
    uint64_t total = 0;
    for (uint32_t i = 0; i < image.regions; i++)
        total += entry_at(directory, i).length;
    print_entries(out, directory, 0, first);
    if (first < last)
        fprintf(out, ".. %" PRIu32 " more (mopimage --list tells all regions) ..\n", last - first);
    print_entries(out, directory, last, image.regions);
    fprintf(out, "transfer address: 0x%08" PRIX32 " (0o%" PRIo32 ")\n", image.transfer, image.transfer);
    fprintf(out, "%" PRIu64 " byte%s to load, regions: %" PRIu32 "; the file has %zu bytes\n", total,
        total == 1 ? "" : "s", image.regions, file->length);
}

/* What is wrong with an entry, or NULL. */
static const char *fault(entry e, uint64_t directory, uint64_t end_before)
{
    if (e.length == 0)
        return "it is empty";
    if (e.offset + e.length > directory)
        return "its bytes do not end before the directory";
    if (e.address + e.length > (uint64_t)UINT32_MAX + 1)
        return "it ends above address 0xFFFFFFFF";
    if (e.address < end_before)
        return "it begins before the end of the region before";
    return NULL;
}

/* Of refusal 6 the rule on the count, the rule on the directory's place, or both. */
static void explain_directory(FILE *out, size_t length, uint64_t directory, uint64_t count)
{
    const uint64_t behind = IMAGE_ENTRY * count + IMAGE_TRAILER; /* bytes from the directory on */
    if (count > MOP_REGIONS_MOST)
        fprintf(out, "%" PRIu64 " regions are too many: an image holds at most %d\n", count, MOP_REGIONS_MOST);
    if (count == 0)
        fputs("an image has at least one region\n", out);
    else if (behind > length)
        fprintf(out, "with so many regions directory and trailer would have %" PRIu64 " bytes, more than the file\n",
            behind);
    else if (directory != length - behind)
        fprintf(out, "with so many regions the directory would stand at byte %" PRIu64 "\n", length - behind);
}

/* The first entry that breaks a rule, behind the one before it. */
static void explain_entry(FILE *out, const uint8_t *file, uint64_t directory, uint64_t count)
{
    entry before = {0, 0, 0};
    for (uint64_t i = 0; i < count; i++) {
        entry e = entry_at(file + directory, i);
        const char *why = fault(e, directory, before.address + before.length);
        if (why != NULL) {
            if (i > 0)
                print_entry(out, i - 1, before);
            print_entry(out, i, e);
            fprintf(out, "  this one breaks a rule: %s\n", why);
            return;
        }
        before = e;
    }
}

/* Whether it begins with a letter of a record and a digit. */
static bool begins_with(const contents *file, uint8_t letter)
{
    for (size_t at = 0; at + 1 < file->length; at++)
        if (!isspace(file->bytes[at]))
            return file->bytes[at] == letter && isxdigit(file->bytes[at + 1]);
    return false;
}

const char *image_unmade(const contents *file)
{
    if (begins_with(file, 'S'))
        return "S-records: mopimage --srec";
    if (begins_with(file, ':'))
        return "Intel HEX: mopimage --ihex";
    return lda_likely(file) ? "an LDA file: mopimage --lda" : NULL;
}

void image_explain(FILE *out, const contents *file, uint8_t refusal)
{
    const char *unmade = refusal == MOP_REFUSED_FILE ? image_unmade(file) : NULL;
    fprintf(out, "the file has %zu byte%s\n", file->length, file->length == 1 ? "" : "s");
    if (unmade != NULL)
        fprintf(out, "it looks like %s makes an image of it\n", unmade);
    if (file->length < IMAGE_TRAILER || file->length > MOP_FILE_MOST)
        return;
    const uint8_t *trailer = file->bytes + file->length - IMAGE_TRAILER;
    uint64_t directory = number(trailer, 4), count = number(trailer + 4, 4);
    fprintf(out, "its trailer says: file length %" PRIu64 ", %" PRIu64 " region%s, directory at byte %" PRIu64 "\n",
        number(trailer + 12, 4), count, count == 1 ? "" : "s", directory);
    if (refusal == MOP_REFUSED_FILE)
        fputs("it is no image file, or was cut short or added to\n", out);
    if (refusal == MOP_REFUSED_DIRECTORY)
        explain_directory(out, file->length, directory, count);
    if (refusal == MOP_REFUSED_ENTRY || refusal == MOP_REFUSED_OVERLAP)
        explain_entry(out, file->bytes, directory, count);
}
