/* Transcripts of rehearsals: made by the library's two ends over two queues, so that it is known which frame each event
 * moved; and such ones mutated. */
#include <stdio.h>
#include <stdlib.h>
#include <string.h>

#include "fuzz.h"
#include "map.h"
#include "replay.h"
#include "svgscan.h"
#include "transcript.h"

#define PLACES 16
#define SMALL 40 /* bytes of a frame here */
#define ARROWS_MOST 400

/* ---- Pictures -------------------------------------------------------- */

#define PICTURE_MOST 200000

static void scan_text(FILE *out, char **text)
{
    require(fclose(out) == 0 && *text != NULL, "there is memory");
    require(strlen(*text) < PICTURE_MOST, "a picture has a bounded size");
    svg_scan(*text);
    free(*text);
}

void scan_chart(const chart *c)
{
    char *text = NULL;
    size_t size = 0;
    FILE *out = open_memstream(&text, &size);
    require(out != NULL && chart_draw(out, c, 2 + below(60)) == 0, "a chart is drawn");
    scan_text(out, &text);
}

void scan_map(const contents *file, mop_image image)
{
    char *text = NULL;
    size_t size = 0;
    const map_settings settings = {one_in(2) ? 0 : 1 + (uint64_t)any_number(), 2 + below(60)};
    FILE *out = open_memstream(&text, &size);
    require(out != NULL && map_draw(out, file, image, &settings) == 0, "a map is drawn");
    scan_text(out, &text);
}

/* Of the frame of an arrow, how often it came, that arrow's row counted: up to which row. */
static size_t came_before(const chart *c, const chart_arrow *a)
{
    size_t count = 0;
    for (size_t i = 0; i < c->arrows_count; i++)
        count += c->arrows[i].way == CHART_CAME && c->arrows[i].sender == a->sender && c->arrows[i].from == a->from &&
                 c->arrows[i].to <= a->to;
    return count;
}

void check_doubles(const chart *c)
{
    for (size_t i = 0; i < c->arrows_count; i++) {
        const chart_way way = c->arrows[i].way;
        if (way == CHART_CAME || way == CHART_DOUBLE)
            require(came_before(c, &c->arrows[i]) == 1, "a frame comes once, and then perhaps again");
    }
}

/* ---- A rehearsal ----------------------------------------------------- */

/* The frames of one end that are on the line, and the rows that they were sent in. */
typedef struct pipe {
    uint8_t frames[PLACES][SMALL];
    size_t lengths[PLACES];
    int32_t rows[PLACES];
    int count;
    bool has_come;
} pipe;

typedef struct rehearsal {
    uint8_t file[64];
    size_t file_length;
    uint8_t memory[64];
    uint8_t reply[MOP_FRAME_MOST];
    mop_load_settings settings;
    mop_load load;
    mop_machine machine;
    pipe pipes[2]; /* by the sender */
    chart_arrow arrows[ARROWS_MOST];
    size_t arrows_count;
    size_t keeps;
    int32_t row;
} rehearsal;

static rehearsal r;
static const mop_machine_settings machine_settings = {.reply_bytes = 1, .version = MOP_VERSION_3_0};

static void put_text(const char *text)
{
    put_bytes(text, strlen(text));
}

static void note(chart_side sender, int32_t from, int32_t to, chart_way way)
{
    require(r.arrows_count < ARROWS_MOST, "the fuzzer has room for its arrows");
    r.arrows[r.arrows_count++] = (chart_arrow){from, to, sender, way};
}

/* Words that no program says: any bytes but a line's end. */
static void put_strange(void)
{
    for (uint32_t i = below(one_in(4) ? 150 : 30); i > 0; i--)
        put_byte(one_in(2) ? (uint8_t) "<&>\"'ab\\"[below(8)] : (uint8_t)(11 + below(245)));
}

/* An event that sends nothing. */
static void put_event(char letter, const char *words)
{
    put_byte((uint8_t)letter);
    put_text("                       ");
    if (words == NULL)
        put_strange();
    else
        put_text(words);
    put_text("\n");
    r.row += 1;
}

/* A frame that an end sends, and its place on the line if there is one. */
static void put_frame(char letter, chart_side sender, size_t length)
{
    pipe *p = &r.pipes[sender];
    char pair[3];
    put_text(sender == CHART_HOST ? "H " : "T ");
    for (size_t i = 0; i < length; i++) {
        snprintf(pair, sizeof pair, "%02X", r.reply[i]);
        put_text(pair);
    }
    put_text("  some words\n");
    if (p->count == PLACES) {
        note(sender, 4 * r.row, 4 * r.row + 2, CHART_LOST);
        put_event(letter, "the line is full: this frame is lost");
        return;
    }
    memcpy(p->frames[p->count], r.reply, length);
    p->lengths[p->count] = length;
    p->rows[p->count++] = 4 * r.row;
    r.row += 1;
}

static void leave(pipe *p)
{
    memmove(p->frames[0], p->frames[1], sizeof p->frames - sizeof p->frames[0]);
    memmove(p->lengths, p->lengths + 1, sizeof p->lengths - sizeof p->lengths[0]);
    memmove(p->rows, p->rows + 1, sizeof p->rows - sizeof p->rows[0]);
    p->count -= 1;
    p->has_come = false;
}

/* One end takes a frame, or NULL for its timer: the bytes that it sends. */
static size_t step(chart_side end, const uint8_t *frame, size_t length)
{
    if (end == CHART_HOST) {
        mop_load_step s =
            frame == NULL ? mop_load_timer(r.settings, r.load, r.file, r.file_length, NULL, 0, r.reply, sizeof r.reply)
                          : mop_load_frame(r.settings, r.load, r.file, r.file_length, NULL, 0, frame, length, r.reply,
                                sizeof r.reply);
        r.load = s.session;
        return s.answer.length;
    }
    mop_machine_step s = frame == NULL ? mop_machine_timer(machine_settings, r.machine, r.memory, sizeof r.memory,
                                             r.reply, sizeof r.reply)
                                       : mop_machine_frame(machine_settings, r.machine, frame, length, r.memory,
                                             sizeof r.memory, r.reply, sizeof r.reply);
    r.machine = s.machine;
    return s.answer.length;
}

static void put_outcome(char letter, chart_side end, size_t sent)
{
    if (sent > 0)
        put_frame(letter, end, sent);
    else
        put_event(letter, one_in(4) ? NULL : "nothing is sent");
}

/* h, k, x of the host's frames, t, u, y of the machine's. */
static void line_event_of(char letter, chart_side sender, char keep, char drop)
{
    pipe *p = &r.pipes[sender];
    const chart_side end = sender == CHART_HOST ? CHART_MACHINE : CHART_HOST;
    const int32_t row = 4 * r.row;
    if (p->count == 0) {
        put_event(letter,
            sender == CHART_HOST ? "no frame of the host is on the line" : "no frame of the machine is on the line");
        return;
    }
    if (letter == drop) {
        note(sender, p->rows[0], row, CHART_LOST);
        leave(p);
        put_event(letter, "lost");
        return;
    }
    note(sender, p->rows[0], row, p->has_come ? CHART_DOUBLE : CHART_CAME);
    const size_t sent = step(end, p->frames[0], p->lengths[0]);
    p->has_come = true;
    r.keeps += letter == keep;
    if (letter != keep)
        leave(p);
    put_outcome(letter, end, sent);
}

static void event(char letter)
{
    if (letter == 'm')
        put_outcome('m', CHART_HOST, step(CHART_HOST, NULL, 0));
    else if (letter == 'n')
        put_outcome('n', CHART_MACHINE, step(CHART_MACHINE, NULL, 0));
    else if (strchr("hkx", letter) != NULL)
        line_event_of(letter, CHART_HOST, 'k', 'x');
    else
        line_event_of(letter, CHART_MACHINE, 'u', 'y');
}

/* An image of one region at address 0, laid out as docs/PROTOCOL.md has it. */
static void make_file(size_t bytes)
{
    const uint32_t numbers[] = {0, 0, (uint32_t)bytes, (uint32_t)bytes, 1, 0, (uint32_t)bytes + 28};
    r.file_length = bytes + sizeof numbers;
    memset(r.file, 'A', bytes);
    for (size_t i = 0; i < sizeof numbers; i++)
        r.file[bytes + i] = (uint8_t)(numbers[i / 4] >> 8 * (i % 4));
}

static void put_end(void)
{
    char text[80];
    snprintf(text, sizeof text, "END %d %llu %s 00\n", r.load.verdict, (unsigned long long)r.load.sent,
        r.machine.state == MOP_MACHINE_STARTED ? "00000000" : "-");
    put_text(text);
    put_text(one_in(2) ? "A sentence.\n" : "");
}

/* Mostly a load that goes on; or one that nobody hears, until a queue is full. */
static char any_letter(bool keeps, bool flood)
{
    static const char often[] = "hthththtxymnku", seldom[] = "nnnnnnhxtymnku";
    const uint32_t i = below(keeps ? 14 : 12);
    if (flood)
        return seldom[i];
    return often[i];
}

static void make_transcript(void)
{
    const bool keeps = one_in(2), flood = one_in(20);
    memset(&r, 0, sizeof r);
    make_file(1 + below(30));
    r.settings = (mop_load_settings){.segment_size = 1 + below(4), .repeats = below(4), .version = MOP_VERSION_3_0};
    r.load = mop_load_start();
    r.machine = mop_machine_start_load(machine_settings, r.memory, sizeof r.memory, r.reply, sizeof r.reply).machine;
    event('n');
    for (uint32_t i = below(120); i > 0; i--)
        event(any_letter(keeps, flood));
    put_end();
}

/* ---- What must hold -------------------------------------------------- */

static size_t count_of(const chart_arrow *list, size_t count, chart_way way)
{
    size_t found = 0;
    for (size_t i = 0; i < count; i++)
        found += list[i].way == way;
    return found;
}

static bool has_arrow(const chart *c, const chart_arrow *a)
{
    for (size_t i = 0; i < c->arrows_count; i++)
        if (c->arrows[i].from == a->from && c->arrows[i].to == a->to && c->arrows[i].sender == a->sender &&
            c->arrows[i].way == a->way)
            return true;
    return false;
}

/* Where nothing was kept, or the picture does not say that there are several readings, every arrow is the true one;
 * otherwise there are as many, and no more doubles than frames that were kept. */
static void check_arrows(const chart *c)
{
    const size_t came = count_of(r.arrows, r.arrows_count, CHART_CAME),
                 twice = count_of(r.arrows, r.arrows_count, CHART_DOUBLE);
    require(c->rows_count == (size_t)r.row, "each line has a row");
    require(count_of(c->arrows, c->arrows_count, CHART_LOST) == count_of(r.arrows, r.arrows_count, CHART_LOST),
        "as many frames are drawn as lost as were");
    require(count_of(c->arrows, c->arrows_count, CHART_CAME) + count_of(c->arrows, c->arrows_count, CHART_DOUBLE) ==
                came + twice,
        "as many frames are drawn as handed over as were");
    require(count_of(c->arrows, c->arrows_count, CHART_DOUBLE) <= r.keeps,
        "no more frames are drawn as doubled than were kept");
    for (size_t i = 0; i < r.arrows_count && (r.keeps == 0 || c->notes[0][0] == '\0'); i++)
        require(has_arrow(c, &r.arrows[i]), "every frame's way is drawn as it was");
}

bool fuzz_transcript(void)
{
    static chart c;
    transcript t;
    memset(&c, 0, sizeof c);
    make_transcript();
    const bool mutated = one_in(2);
    if (mutated)
        mutate(one_in(4) ? NULL : "0123456789ABCDEFHT hkxtuymn\n<&>-");
    contents file = exact();
    bool drawn = transcript_read(&t, "text", &file) == 0 && replay_chart(&t, &c) == 0;
    require(drawn || mutated, "a transcript is accepted");
    require(drawn || said[0] != '\0', "what is refused is told");
    if (drawn && !mutated)
        check_arrows(&c);
    if (drawn) {
        check_doubles(&c);
        scan_chart(&c);
    }
    chart_free(&c);
    transcript_free(&t);
    free(file.bytes);
    return drawn;
}
