/* mopchart: draws pictures of sessions and images. */
#include <stdio.h>
#include <stdlib.h>
#include <string.h>

#include "capture.h"
#include "chart.h"
#include "files.h"
#include "map.h"
#include "mop.h"
#include "options.h"
#include "replay.h"
#include "seen.h"
#include "transcript.h"
#include "words.h"

#define ROWS 60         /* drawn of a chart, and listed of an image */
#define ROWS_MOST 10000 /* that can be asked for */

enum {
    OPTION_TRANSCRIPT = OPTION_MORE,
    OPTION_CAPTURE,
    OPTION_BESIDE,
    OPTION_MACHINE,
    OPTION_IMAGE,
    OPTION_MEMORY,
    OPTION_ROWS,
    OPTION_FORCE
};

typedef struct command {
    output output;
    const char *inputs[2]; /* the file that is drawn, and the one beside it */
    int kind;              /* OPTION_TRANSCRIPT, OPTION_CAPTURE or OPTION_IMAGE */
    uint8_t machine[ADDRESS_LENGTH];
    bool has_machine;
    uint64_t memory; /* 0 if it is not given */
    uint32_t rows;
} command;

/* ---- The pictures ---------------------------------------------------- */

static int draw_transcript(FILE *out, const command *m)
{
    static chart c;
    transcript t = {0};
    contents file;
    int status = file_read(m->inputs[0], TRANSCRIPT_MOST, &file);
    if (status == 0)
        status = transcript_read(&t, m->inputs[0], &file);
    if (status == 0)
        status = replay_chart(&t, &c);
    if (status == 0)
        status = chart_draw(out, &c, m->rows);
    chart_free(&c);
    transcript_free(&t);
    free(file.bytes);
    return status;
}

/* One capture, or two. */
static int draw_captures(FILE *out, const command *m)
{
    static chart c;
    capture captures[2] = {{.list = NULL}, {.list = NULL}};
    const seen_settings settings = {
        captures, m->inputs[1] != NULL ? captures + 1 : NULL, m->has_machine ? m->machine : NULL};
    int status = capture_read(&captures[0], m->inputs[0]);
    if (status == 0 && m->inputs[1] != NULL)
        status = capture_read(&captures[1], m->inputs[1]);
    if (status == 0)
        status = seen_chart(&settings, &c);
    if (status == 0)
        status = chart_draw(out, &c, m->rows);
    chart_free(&c);
    capture_free(&captures[0]);
    capture_free(&captures[1]);
    return status;
}

static int draw_image(FILE *out, const command *m)
{
    contents file;
    int status = file_read(m->inputs[0], 2 * (size_t)MOP_FILE_MOST, &file);
    if (status != 0)
        return status;
    mop_image image = mop_image_check(file.bytes, file.length, MOP_SEGMENT_MOST);
    if (image.refusal != MOP_ACCEPTED)
        status = complain(STATUS_IMAGE, "%s is refused (%d): %s (mopimage --check tells more)", m->inputs[0],
            image.refusal, refusal_words(image.refusal));
    else
        status = map_draw(out, &file, image, &(map_settings){m->memory, m->rows});
    free(file.bytes);
    return status;
}

static int draw(const command *m)
{
    char *text = NULL;
    size_t size = 0;
    int status = output_check(&m->output);
    if (status != 0)
        return status;
    FILE *out = open_memstream(&text, &size);
    if (out == NULL)
        return complain(STATUS_OTHER, "no memory");
    status = m->kind == OPTION_TRANSCRIPT ? draw_transcript(out, m)
             : m->kind == OPTION_CAPTURE  ? draw_captures(out, m)
                                          : draw_image(out, m);
    if (fclose(out) != 0 && status == 0)
        status = complain(STATUS_OTHER, "no memory for the picture");
    if (status == 0)
        status = output_write(&m->output, (const uint8_t *)text, size);
    free(text);
    return status;
}

/* ---- The command line ------------------------------------------------ */

static const char manual[] = "NAME\n"
                             "  mopchart - draw a session or an image as a picture\n"
                             "\n"
                             "SYNOPSIS\n"
                             "  mopchart -o PICTURE [--force] [--rows N] --transcript FILE\n"
                             "  mopchart -o PICTURE [--force] [--rows N] [--machine ADDRESS]\n"
                             "           --trace FILE [--beside FILE]\n"
                             "  mopchart -o PICTURE [--force] [--rows N] [--memory N] --image IMAGE\n"
                             "\n"
                             "DESCRIPTION\n"
                             "  Makes an SVG file, which every browser shows. The same input gives the same\n"
                             "  picture, byte for byte.\n"
                             "\n"
                             "  Of a session, host and machine are two lines, time runs downwards, and each\n"
                             "  frame is an arrow from its sender to the other. One that was lost ends in a\n"
                             "  cross half-way; one that came twice is drawn a second time, dashed; a small\n"
                             "  clock is a timer that ran out. Below stands how it ended.\n"
                             "\n"
                             "  Of an image, the picture is a map of memory, drawn to scale.\n"
                             "\n"
                             "OPTIONS\n"
                             "  -o PICTURE, --output PICTURE\n"
                             "        The picture to make. A file of that name is replaced only with\n"
                             "        --force; an input, a directory, a device or a link never is.\n"
                             "  --force\n"
                             "        Replace PICTURE if it is a regular file.\n"
                             "  --transcript FILE\n"
                             "        What the program explain printed of a rehearsal, or rehearsal itself,\n"
                             "        whose transcript does not tell what was lost.\n"
                             "        Of a frame that was answered explain does not say whether it stayed on\n"
                             "        the line to be handed over once more; that is taken from what comes\n"
                             "        later. Where that leaves it open too, it is drawn as gone, and the\n"
                             "        picture says that one reading of several is drawn.\n"
                             "  --trace FILE\n"
                             "        A capture in the form of pcap, of Ethernet: what --trace FILE.pcap of\n"
                             "        mopload, mopdump and mopmachine writes, or tcpdump. Only the frames of\n"
                             "        one machine and its host are drawn, with the seconds since the first\n"
                             "        of them. A frame like the last of its sender is marked: 'again at once'\n"
                             "        if it stands right behind it and no 10 milliseconds later, otherwise\n"
                             "        'again'. A capture does not tell whether a frame reached the other end,\n"
                             "        nor whether it was sent again or doubled on the way.\n"
                             "  --beside FILE\n"
                             "        The capture of the other end of the same session. Then a frame that\n"
                             "        stands in its sender's capture alone is drawn as lost if the other has\n"
                             "        a frame of the two at most 10 seconds before it and one as close\n"
                             "        behind it; else it is dotted, as it is not known whether it came. One\n"
                             "        that stands more often in the receiver's came twice. Equal frames are\n"
                             "        paired in their order, so that the fewest were lost or came twice; each\n"
                             "        of these counts as much as a second on the way. The clocks of the two\n"
                             "        need not agree: by how much they differ is measured. The capture of\n"
                             "        --trace is taken for the host's, unless the frames that one of the two\n"
                             "        lacks show that it is the machine's.\n"
                             "  --machine ADDRESS\n"
                             "        The machine to draw, by its Ethernet address. Without it, the first\n"
                             "        that a host loads or dumps. Of several hosts the first that does so is\n"
                             "        drawn, and the picture names another.\n"
                             "  --image IMAGE\n"
                             "        An image file as mopimage makes it.\n"
                             "  --memory N\n"
                             "        The machine's memory, in bytes: the map shows all of it, and says what\n"
                             "        of the image lies beyond.\n"
                             "  --rows N\n"
                             "        Of more than N rows draw the first and the last half; of more than N\n"
                             "        regions and gaps list the first and the last half. Default %d.\n";

static void help(FILE *out)
{
    fprintf(out, manual, ROWS);
    manual_help(out);
    fputs("\n"
          "  Numbers are decimal, or hexadecimal (0x200), or octal (0o1000).\n"
          "\n",
        out);
    words_statuses(out, STATUS_FINISHED, STATUS_OTHER);
    words_statuses(out, STATUS_USAGE, STATUS_USAGE);
    words_statuses(out, STATUS_IMAGE, STATUS_FILE);
    fputs("\n"
          "EXAMPLES\n"
          "  make explain FILE=examples/lossy.txt >lossy.out\n"
          "  mopchart -o lossy.svg --transcript lossy.out\n"
          "\n"
          "  mopload -i eth0 --trace host.pcap program.img\n"
          "  mopchart -o load.svg --trace host.pcap\n"
          "\n"
          "  mopchart -o memory.svg --image program.img --memory 0o160000\n",
        out);
}

/* The file to draw; there is one. */
static int input(command *m, int kind)
{
    if (m->kind != 0)
        return complain(STATUS_USAGE, "one picture at a time: give one of --transcript, --trace and --image");
    m->kind = kind;
    m->inputs[0] = optarg;
    return 0;
}

static int option(int c, char **words, command *m)
{
    switch (c) {
    case 'o':
        m->output.path = optarg;
        return 0;
    case OPTION_TRANSCRIPT:
    case OPTION_CAPTURE:
    case OPTION_IMAGE:
        return input(m, c);
    case OPTION_BESIDE:
        m->inputs[1] = optarg;
        return 0;
    case OPTION_MACHINE:
        m->has_machine = true;
        return option_address("--machine", optarg, m->machine);
    case OPTION_MEMORY:
        return option_number("--memory", optarg, 1, (uint64_t)UINT32_MAX + 1, &m->memory);
    case OPTION_ROWS:
        return option_small("--rows", optarg, 2, ROWS_MOST, &m->rows);
    case OPTION_FORCE:
        m->output.force = true;
        return 0;
    default:
        return manual_option(c, &(manual_of){help, words});
    }
}

/* What does not go together. */
static int check(const command *m)
{
    if (m->output.path == NULL || m->kind == 0)
        return complain(STATUS_USAGE, "give -o PICTURE and one of --transcript, --trace and --image (see --help)");
    if (m->kind != OPTION_CAPTURE && (m->inputs[1] != NULL || m->has_machine))
        return complain(STATUS_USAGE, "--beside and --machine go with --trace (see --help)");
    if (m->kind != OPTION_IMAGE && m->memory != 0)
        return complain(STATUS_USAGE, "--memory goes with --image (see --help)");
    return 0;
}

static int options(int count, char **words, command *m)
{
    static const struct option known[] = {{"output", required_argument, NULL, 'o'},
        {"transcript", required_argument, NULL, OPTION_TRANSCRIPT}, {"trace", required_argument, NULL, OPTION_CAPTURE},
        {"beside", required_argument, NULL, OPTION_BESIDE}, {"machine", required_argument, NULL, OPTION_MACHINE},
        {"image", required_argument, NULL, OPTION_IMAGE}, {"memory", required_argument, NULL, OPTION_MEMORY},
        {"rows", required_argument, NULL, OPTION_ROWS}, {"force", no_argument, NULL, OPTION_FORCE}, MANUAL_OPTIONS,
        {NULL, 0, NULL, 0}};
    for (int c = 0; (c = getopt_long(count, words, "+o:h", known, NULL)) != -1;) {
        int status = option(c, words, m);
        if (status != 0)
            return status;
    }
    if (optind != count)
        return complain(STATUS_USAGE, "'%s' is too much (see --help)", words[optind]);
    return check(m);
}

int main(int count, char **words)
{
    static command m = {.rows = ROWS};
    words_program("mopchart");
    m.output.inputs = m.inputs;
    m.output.inputs_count = sizeof m.inputs / sizeof m.inputs[0];
    int status = options(count, words, &m);
    return status != 0 ? status : draw(&m);
}
