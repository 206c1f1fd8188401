/* mopimage: makes, lists and checks image files. What an image is, the
 * library's check alone decides. */
#include <inttypes.h>
#include <stdio.h>
#include <stdlib.h>

#include "files.h"
#include "hexfiles.h"
#include "lda.h"
#include "listing.h"
#include "mop.h"
#include "options.h"
#include "pieces.h"
#include "words.h"

#define LISTED 20 /* regions that are told of an image when it is made */

enum {
    OPTION_AT = OPTION_MORE,
    OPTION_SREC,
    OPTION_IHEX,
    OPTION_LDA,
    OPTION_TRANSFER,
    OPTION_LIST,
    OPTION_CHECK,
    OPTION_FORCE
};

/* A file that goes in. */
typedef struct input {
    int option; /* which says what is in it */
    const char *path;
    uint32_t at; /* of raw bytes */
} input;

typedef struct command {
    pieces pieces;
    output output;
    input *inputs;
    const char **paths; /* theirs, for output */
    const char *show;   /* the image to list or check */
    bool list;
    uint32_t transfer;
    bool has_transfer;
} command;

/* ---- Listing and checking -------------------------------------------- */

static int show(const command *c)
{
    contents file;
    int status = file_read(c->show, 2 * (size_t)MOP_FILE_MOST, &file);
    if (status != 0)
        return status;
    mop_image image = mop_image_check(file.bytes, file.length, MOP_SEGMENT_MOST);
    if (image.refusal != MOP_ACCEPTED) {
        status = complain(STATUS_IMAGE, "%s is refused (%d): %s", c->show, image.refusal, refusal_words(image.refusal));
        image_explain(stdout, &file, image.refusal);
    } else if (c->list) {
        image_list(stdout, &file, image, MOP_REGIONS_MOST);
    } else {
        inform("%s is a good image.", c->show);
    }
    free(file.bytes);
    return status;
}

/* ---- Making ---------------------------------------------------------- */

static int read_raw(pieces *p, const input *in)
{
    contents file = {NULL, 0};
    int status = file_read(in->path, MOP_FILE_MOST, &file);
    if (status == 0 && file.length == 0)
        status = complain(STATUS_IMAGE, "%s is empty", in->path);
    if (status == 0)
        status = pieces_add(p, in->at, file.bytes, file.length);
    free(file.bytes);
    return status;
}

static int read_input(pieces *p, const input *in)
{
    switch (in->option) {
    case OPTION_SREC:
        return srec_read(p, in->path);
    case OPTION_IHEX:
        return ihex_read(p, in->path);
    case OPTION_LDA:
        return lda_read(p, in->path);
    default:
        return read_raw(p, in);
    }
}

/* All that goes in, and where the program starts. */
static int collect(command *c)
{
    int status = 0;
    for (size_t i = 0; status == 0 && i < c->output.inputs_count; i++)
        status = read_input(&c->pieces, &c->inputs[i]);
    if (status == 0)
        status = pieces_join(&c->pieces);
    if (status != 0)
        return status;
    if (c->has_transfer)
        c->pieces.transfer = c->transfer;
    else if (!c->pieces.has_transfer)
        return complain(STATUS_USAGE, "no input says where the program starts: give --transfer ADDRESS");
    return 0;
}

static int make(command *c)
{
    contents file = {NULL, 0};
    int status = output_check(&c->output);
    if (status == 0)
        status = collect(c);
    if (status == 0)
        status = pieces_image(&c->pieces, &file);
    if (status != 0)
        return status;
    mop_image image = mop_image_check(file.bytes, file.length, MOP_SEGMENT_MOST);
    if (image.refusal != MOP_ACCEPTED)
        status =
            complain(STATUS_IMAGE, "the image would be refused (%d): %s", image.refusal, refusal_words(image.refusal));
    else
        status = output_write(&c->output, file.bytes, file.length);
    if (status == 0)
        image_list(stdout, &file, image, LISTED);
    free(file.bytes);
    return status;
}

/* ---- The command line ------------------------------------------------ */

static const char manual[] = "NAME\n"
                             "  mopimage - make, list and check image files for mopload\n"
                             "\n"
                             "SYNOPSIS\n"
                             "  mopimage -o IMAGE [--force] [--transfer ADDRESS]\n"
                             "           {--at ADDRESS FILE | --lda FILE | --srec FILE | --ihex FILE} ..\n"
                             "  mopimage --list IMAGE\n"
                             "  mopimage --check IMAGE\n"
                             "\n"
                             "DESCRIPTION\n"
                             "  Makes an image file from one or more inputs: the bytes of each with their\n"
                             "  addresses in the machine's memory, and the address where the machine is\n"
                             "  started. Inputs may come in any order and must not overlap; neighbours\n"
                             "  become one region, and there may be at most %d regions. Of more than %d\n"
                             "  the first and the last are shown.\n"
                             "\n"
                             "OPTIONS\n"
                             "  -o IMAGE, --output IMAGE\n"
                             "        The image file to make. A file of that name is replaced only with\n"
                             "        --force; an input, a directory, a device or a link never is.\n"
                             "  --force\n"
                             "        Replace IMAGE if it is a regular file.\n"
                             "  --at ADDRESS FILE\n"
                             "        The bytes of FILE as they are, from ADDRESS on.\n"
                             "  --lda FILE\n"
                             "        The absolute loader format of the PDP-11 (.LDA, .BIN). Every block from\n"
                             "        the first on is read, or the file is refused with the byte, counted from\n"
                             "        0: a wrong checksum or count, a second byte of a block that is not 0, a\n"
                             "        block that runs over address 0xFFFF, bytes other than 0 between blocks,\n"
                             "        a file cut short, or without a block or an end block. So is a file with\n"
                             "        another block behind the end block: an object file, which is not linked\n"
                             "        yet, looks so. A later block is laid over an earlier one, as the loader\n"
                             "        does. Other bytes are skipped before the first block, such as a punched\n"
                             "        leader, and not read behind the end block, and that is told.\n"
                             "  --srec FILE, --ihex FILE\n"
                             "        Motorola S-records; Intel HEX. Every record is read, or the file is\n"
                             "        refused with the line and the column: a wrong checksum, length, type or\n"
                             "        count of records (S5, S6), other text, a record behind the end record,\n"
                             "        or none. DOS line ends, small letters and a final control-Z are read.\n"
                             "  --transfer ADDRESS\n"
                             "        Where the machine is started. It prevails over what an LDA, S-record\n"
                             "        or HEX file says, of which the last counts. Raw bytes say nothing, nor\n"
                             "        does an LDA file whose start address is odd: there it must be given.\n"
                             "  --list IMAGE\n"
                             "        All regions and the transfer address.\n"
                             "  --check IMAGE\n"
                             "        Whether the library takes the image, and if not why, in words. Neither\n"
                             "        --list nor --check goes with another option.\n";

static void help(FILE *out)
{
    fprintf(out, manual, MOP_REGIONS_MOST, LISTED);
    manual_help(out);
    fputs("\n"
          "  Numbers are decimal, or hexadecimal (0x200), or octal (0o1000).\n"
          "\n",
        out);
    words_statuses(out, STATUS_FINISHED, STATUS_OTHER);
    words_statuses(out, STATUS_USAGE, STATUS_USAGE);
    words_statuses(out, STATUS_IMAGE, STATUS_FILE);
    fputs("\n"
          "EXAMPLES\n"
          "  mopimage -o program.img --lda program.lda\n"
          "  mopimage -o program.img --at 0o40000 program.bin --transfer 0o40000\n",
        out);
}

/* Takes note of a file that goes in. */
static int note(command *m, int option, const char *path, uint32_t at)
{
    m->inputs[m->output.inputs_count] = (input){option, path, at};
    m->paths[m->output.inputs_count++] = path;
    return 0;
}

static int note_raw(command *m, const char *address, const char *path)
{
    uint32_t at = 0;
    if (path == NULL)
        return complain(STATUS_USAGE, "--at: give an address and a file");
    int status = option_small("--at", address, 0, UINT32_MAX, &at);
    return status == 0 ? note(m, OPTION_AT, path, at) : status;
}

static int note_show(command *m, const char *path, bool list)
{
    if (m->show != NULL)
        return complain(STATUS_USAGE, "--list and --check take one image (see --help)");
    m->show = path;
    m->list = list;
    return 0;
}

static int option(int c, char **words, command *m)
{
    switch (c) {
    case 'o':
        m->output.path = optarg;
        return 0;
    case OPTION_AT:
        return note_raw(m, optarg, words[optind] == NULL ? NULL : words[optind++]);
    case OPTION_SREC:
    case OPTION_IHEX:
    case OPTION_LDA:
        return note(m, c, optarg, 0);
    case OPTION_TRANSFER:
        m->has_transfer = true;
        return option_small("--transfer", optarg, 0, UINT32_MAX, &m->transfer);
    case OPTION_LIST:
    case OPTION_CHECK:
        return note_show(m, optarg, c == OPTION_LIST);
    case OPTION_FORCE:
        m->output.force = true;
        return 0;
    default:
        return manual_option(c, &(manual_of){help, words});
    }
}

static int options(int count, char **words, command *m)
{
    static const struct option known[] = {{"output", required_argument, NULL, 'o'},
        {"at", required_argument, NULL, OPTION_AT}, {"srec", required_argument, NULL, OPTION_SREC},
        {"ihex", required_argument, NULL, OPTION_IHEX}, {"lda", required_argument, NULL, OPTION_LDA},
        {"transfer", required_argument, NULL, OPTION_TRANSFER}, {"list", required_argument, NULL, OPTION_LIST},
        {"check", required_argument, NULL, OPTION_CHECK}, {"force", no_argument, NULL, OPTION_FORCE}, MANUAL_OPTIONS,
        {NULL, 0, NULL, 0}};
    for (int c = 0; (c = getopt_long(count, words, "+o:h", known, NULL)) != -1;) {
        int status = option(c, words, m);
        if (status != 0)
            return status;
    }
    if (optind != count)
        return complain(STATUS_USAGE, "'%s' is too much (see --help)", words[optind]);
    if ((m->output.path == NULL) == (m->show == NULL))
        return complain(STATUS_USAGE, "give -o IMAGE and what goes in, or --list or --check IMAGE (see --help)");
    if (m->show != NULL && (m->output.inputs_count > 0 || m->has_transfer || m->output.force))
        return complain(STATUS_USAGE, "--list and --check take an image and no other option (see --help)");
    return 0;
}

static int run(int count, char **words, command *c)
{
    c->inputs = calloc((size_t)count + 1, sizeof *c->inputs); /* each input is a word at least */
    c->paths = calloc((size_t)count + 1, sizeof *c->paths);
    c->output.inputs = c->paths;
    if (c->inputs == NULL || c->paths == NULL)
        return complain(STATUS_OTHER, "no memory");
    int status = options(count, words, c);
    if (status == 0)
        status = c->show != NULL ? show(c) : make(c);
    return status == 0 ? words_written() : status;
}

int main(int count, char **words)
{
    static command c;
    words_program("mopimage");
    int status = run(count, words, &c);
    pieces_free(&c.pieces);
    free(c.inputs);
    free(c.paths);
    return status;
}
