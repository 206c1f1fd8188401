/* Sessions of a host: raw frames of a machine that mostly answers well, mutated ones, those of strangers, and timers. A load
 * may begin again. The counts of its record may be any. */
#include "../../driver/host.c" // NOLINT(bugprone-suspicious-include)

#include <stdlib.h>

#include "fuzz.h"

#define IMAGE_LENGTH 228
#define DUMP_LENGTH 300
#define UNTOUCHED 0xA5
#define STRING_MOST 100

typedef struct session {
    bool dump;
    mop_load_settings load_settings;
    mop_load load;
    uint8_t image[IMAGE_LENGTH];
    uint8_t string[STRING_MOST];
    size_t string_length;
    mop_dump_settings dump_settings;
    mop_dump taken;
    uint8_t buffer[DUMP_LENGTH];
} session;

/* ---- The job --------------------------------------------------------- */

static void look(void *job, line_frame *frame)
{
    (void)job;
    require(frame->length <= MOP_FRAME_MOST, "a message has at most 1500 bytes");
}

static mop_written update(
    void *job, bool timer, const uint8_t *frame, size_t frame_length, uint8_t *reply, size_t reply_length)
{
    session *s = job;
    if (s->dump && timer)
        return mop_dump_update_timer(s->dump_settings, &s->taken, s->buffer, DUMP_LENGTH, reply, reply_length);
    if (s->dump)
        return mop_dump_update_frame(
            s->dump_settings, &s->taken, frame, frame_length, s->buffer, DUMP_LENGTH, reply, reply_length);
    if (timer)
        return mop_load_update_timer(
            s->load_settings, &s->load, s->image, IMAGE_LENGTH, s->string, s->string_length, reply, reply_length);
    return mop_load_update_frame(s->load_settings, &s->load, s->image, IMAGE_LENGTH, s->string, s->string_length, frame,
        frame_length, reply, reply_length);
}

static bool would_begin(const void *job, const line_frame *frame)
{
    session trial = *(const session *)job;
    uint8_t reply[MOP_FRAME_MOST];
    trial.load = mop_load_start();
    trial.taken = mop_dump_start();
    update(&trial, false, frame->bytes, frame->length, reply, sizeof reply);
    return trial.dump ? trial.taken.waiting == 0 : trial.load.waiting == 0;
}

static host_stage stage_of(const void *job)
{
    const session *s = job;
    return s->dump ? host_stage_of(s->taken.waiting, s->taken.verdict, s->taken.filled)
                   : host_stage_of(s->load.waiting, s->load.verdict, s->load.position);
}

static void nothing(void *job)
{
    (void)job;
}

static const host_job job_calls = {look, update, would_begin, stage_of, nothing};

/* ---- The machine's side ---------------------------------------------- */

/* Memory holds at each address its lowest byte. */
static mop_written dump_message(const session *s, uint8_t *message)
{
    uint8_t data[64];
    uint32_t at = s->dump_settings.address + (uint32_t)s->taken.filled - one_in(12);
    size_t length = 1 + below(one_in(8) ? sizeof data : s->dump_settings.request_bytes);
    for (size_t i = 0; i < length; i++)
        data[i] = (uint8_t)(at + i);
    if (s->taken.waiting || one_in(12))
        return mop_write_request_dump_service(0, 1, any_number(), 0, NULL, 0, message, MOP_FRAME_MOST);
    return mop_write_dump_data(at, data, length, message, MOP_FRAME_MOST);
}

static mop_written load_message(const session *s, uint8_t *message)
{
    uint8_t next = (uint8_t)(s->load.position + 1 - one_in(12));
    if (s->load.waiting || one_in(12))
        return mop_write_request_program(0, 1, one_in(8) ? below(3) & 3 : MOP_PROGRAM_SYSTEM, MOP_FORM_STANDARD, NULL,
            0, 0, NULL, 0, message, MOP_FRAME_MOST);
    return mop_write_request_load(next, one_in(60), message, MOP_FRAME_MOST);
}

/* ---- The counts ------------------------------------------------------ */

static mop_counts *counts_of(session *s)
{
    return s->dump ? &s->taken.counts : &s->load.counts;
}

static uint64_t any_count(void)
{
    const uint64_t any = (uint64_t)any_number() << below(33);
    return one_in(8) ? UINT64_MAX - below(3) : any;
}

/* Of a record that waits ignored alone may be above 0, and mostly is. */
static mop_counts any_counts(bool waits)
{
    mop_counts counts = {.ignored = any_count()};
    if (waits && !one_in(8))
        return counts;
    counts.starts = any_count();
    counts.advances = any_count();
    counts.rejections = any_count();
    return counts;
}

/* Restarts about the most that there may be; of a record that waits, or may not begin again, 0. */
static void any_restarts(session *s)
{
    if (!s->dump && s->load_settings.restart == 1 && stage_of(s) != HOST_WAITING)
        s->load.restarts = MOP_RESTARTS_MOST - 2 + below(4);
}

/* Whether they are those of a record that every call refuses. */
static bool bad_counts(const mop_counts *c, bool waits)
{
    if (c->starts == UINT64_MAX || c->advances == UINT64_MAX || c->ignored == UINT64_MAX || c->rejections == UINT64_MAX)
        return true;
    return waits && (c->starts != 0 || c->advances != 0 || c->rejections != 0);
}

static bool bad_record(session *s)
{
    return bad_counts(counts_of(s), stage_of(s) == HOST_WAITING) || s->load.restarts > MOP_RESTARTS_MOST;
}

/* Of the frames counted, one at least, those that moved nothing in tenths of a percent, with as many digits as it takes. */
static uint64_t share_of(const mop_counts *c)
{
    __extension__ typedef unsigned __int128 wide;
    const wide all = (wide)c->starts + c->advances + c->ignored + c->rejections;
    return (uint64_t)((2000 * (wide)c->ignored + all) / (2 * all));
}

/* Whether these are the words for the counts with this share. */
static bool words_have(const char *words, const mop_counts *c, uint64_t share)
{
    char wanted[SAID_MOST];
    snprintf(wanted, sizeof wanted,
        "Frames sent by the session: 7, repeats among them: 1.\nFrames counted: %" PRIu64 " started the load, %" PRIu64
        " moved it on, %" PRIu64 " moved nothing (%" PRIu64 ".%" PRIu64 " %% of all), %" PRIu64 " rejected it.\n",
        c->starts, c->advances, c->ignored, share / 10, share % 10, c->rejections);
    return strcmp(words, wanted) == 0;
}

/* Very large counts may have a share that is a tenth off. */
static void check_words(const mop_counts *c)
{
    char words[SAID_MOST] = "";
    FILE *out = fmemopen(words, sizeof words, "w");
    require(out != NULL, "there is memory");
    counts_words(out, "load", 7, 1, c);
    (void)fclose(out);
    const uint64_t any = c->starts | c->advances | c->ignored | c->rejections;
    if (any == 0) {
        require(strstr(words, "\nFrames counted: none.\n") != NULL, "where nothing was counted there is no share");
        return;
    }
    const uint64_t share = share_of(c);
    const bool near = words_have(words, c, share + 1) || words_have(words, c, share - 1);
    require(words_have(words, c, share) || (near && any >> 52 != 0), "the counts are said as they are, with the share");
}

/* ---- What must hold -------------------------------------------------- */

/* All but the counts. */
static bool same_record(const session *a, const session *b)
{
    const mop_load *x = &a->load, *y = &b->load;
    const mop_dump *u = &a->taken, *v = &b->taken;
    return x->position == y->position && x->sent == y->sent && x->repeats == y->repeats && x->restarts == y->restarts &&
           x->waiting == y->waiting && x->verdict == y->verdict && u->filled == v->filled && u->replies == v->replies &&
           u->sent == v->sent && u->repeats == v->repeats && u->waiting == v->waiting && u->verdict == v->verdict;
}

static void check_buffer(const session *s)
{
    for (size_t i = 0; i < DUMP_LENGTH; i++)
        require(i < s->taken.filled || s->buffer[i] == UNTOUCHED, "nothing behind the bytes filled is written");
}

/* What a load ends with. */
static uint8_t last_code(const session *s)
{
    return s->load_settings.with_parameters ? MOP_CODE_PARAMETERS : MOP_CODE_LOAD_TRANSFER;
}

/* What was sent: a message of a host, to the machine; an offer of assistance to whoever asked. */
static size_t check_sent(const host *h, const session *s, const line_frame *frame)
{
    sent_frame sent;
    size_t count = 0;
    for (; sent_next(&sent); count++) {
        if (sent.code == MOP_CODE_VOLUNTEER && frame != NULL) {
            require(
                frame->multicast && memcmp(sent.to, frame->from, ADDRESS_LENGTH) == 0, "an offer goes to who asked");
            continue;
        }
        require(h->named && memcmp(sent.to, h->machine, ADDRESS_LENGTH) == 0, "a frame goes to the machine");
        require(s->dump ? sent.code == MOP_CODE_REQUEST_DUMP || sent.code == MOP_CODE_DUMP_COMPLETE
                        : sent.code == MOP_CODE_LOAD || sent.code == last_code(s),
            "a frame is one of a load or of a dump");
    }
    require(count <= 1, "one frame at most answers one");
    return count;
}

/* A request to this host alone, once the machine has answered, begins a load again if it may; then its first frame is on its
 * way. Nothing else does. */
static void check_restart(const session *before, const session *s, const line_frame *frame, bool handed)
{
    const mop_load *old = &before->load, *now = &s->load;
    bool asks = handed && !before->dump && would_begin(before, frame);
    bool again = asks && stage_of(before) == HOST_UNDER_WAY && before->load_settings.restart == 1 &&
                 old->restarts < MOP_RESTARTS_MOST;
    require(now->restarts == old->restarts + again, "a load begins again when it is asked again, and at no other time");
    require(!again || (now->position == 0 && now->repeats == 0 && now->sent == old->sent + 1),
        "a load that begins again sends its first frame");
}

/* A request to all hosts that would be served is offered assistance, once the machine has answered only if it may begin
 * again. */
static void check_offer(const host *h, const session *before, const line_frame *frame, bool foreign, size_t sent)
{
    bool may = stage_of(before) != HOST_UNDER_WAY || h->restart;
    bool offered = frame->multicast && !foreign && may && would_begin(before, frame);
    require(!frame->multicast || sent == offered, "a request to all hosts is offered assistance or not");
}

/* A frame that is counted raises one count by one, by what it did; all else leaves them. */
static void check_counts(session *before, session *s, bool counted)
{
    mop_counts wanted = *counts_of(before);
    const mop_counts *now = counts_of(s);
    const uint64_t moved = s->load.position - before->load.position + s->taken.filled - before->taken.filled;
    const bool begun = stage_of(before) == HOST_WAITING && stage_of(s) != HOST_WAITING;
    if (counted && (begun || s->load.restarts > before->load.restarts))
        wanted.starts += 1;
    else if (counted && moved > 0)
        wanted.advances += 1;
    else if (counted && s->load.verdict == MOP_LOAD_REJECTED)
        wanted.rejections += 1;
    else
        wanted.ignored += counted;
    require(now->starts == wanted.starts && now->advances == wanted.advances && now->ignored == wanted.ignored &&
                now->rejections == wanted.rejections,
        "each frame that is handed over is counted once, and nothing else");
    check_words(now);
}

/* False if the step was refused. */
static bool hand_frame(host *h, session *s)
{
    uint8_t message[MOP_FRAME_MOST];
    line_frame frame;
    session before = *s;
    mop_written written = s->dump ? dump_message(s, message) : load_message(s, message);
    require(written.refusal == MOP_ACCEPTED, "the fuzzer's own message is good");
    raw_frame(message, written.length);
    contents raw = exact();
    bool taken = line_cut(&h->line, &raw, &frame);
    free(raw.bytes);
    if (!taken)
        return true;
    bool foreign = h->named && memcmp(frame.from, h->machine, ADDRESS_LENGTH) != 0;
    bool readable = mop_read(s->load_settings.version, frame.bytes, frame.length).refusal == MOP_ACCEPTED;
    bool waits = stage_of(s) == HOST_WAITING;
    bool handed = !foreign && !frame.multicast && (!waits || would_begin(s, &frame));
    bool refused = handed && (!is_version(s->load_settings.version) || bad_record(s));
    bool begins = handed && waits, named = h->named || begins;
    require(take(h, &frame) == (refused ? STATUS_OTHER : 0), "a frame ends a good session by no error");
    require(h->named == named && (!begins || memcmp(h->machine, frame.from, ADDRESS_LENGTH) == 0),
        "the machine is the one that the session begins with");
    check_counts(&before, s, handed && readable && !refused);
    check_restart(&before, s, &frame, handed && !refused);
    size_t count = check_sent(h, s, &frame);
    check_offer(h, &before, &frame, foreign, count);
    require(!foreign || (count == 0 && same_record(&before, s)), "a stranger's frame does nothing");
    require((readable && !frame.multicast) || same_record(&before, s), "the record is as it was");
    require(readable || count == 0, "a frame that cannot be read is not answered");
    require(is_version(s->load_settings.version) || count == 0, "a session of no version is not begun");
    return !refused;
}

/* Only a session that has begun has a timer. False if the step was refused. */
static bool run_timer(host *h, session *s)
{
    session before = *s;
    if (stage_of(s) == HOST_WAITING)
        return true;
    bool refused = bad_record(s);
    require(silence(h) == (refused ? STATUS_OTHER : 0), "a timer ends a good session by no error");
    check_counts(&before, s, false);
    check_sent(h, s, NULL);
    return !refused;
}

/* ---- The session ----------------------------------------------------- */

/* 200 bytes at address 0x100, started there. */
static void make_session(session *s)
{
    static const uint8_t rest[] = {
        0, 1, 0, 0, 0, 0, 0, 0, 200, 0, 0, 0, 200, 0, 0, 0, 1, 0, 0, 0, 0, 1, 0, 0, 228, 0, 0, 0};
    memset(s, 0, sizeof *s);
    memset(s->buffer, UNTOUCHED, sizeof s->buffer);
    memcpy(s->image + IMAGE_LENGTH - sizeof rest, rest, sizeof rest);
    s->load = mop_load_start();
    s->taken = mop_dump_start();
    const uint8_t version = any_version();
    s->load_settings = (mop_load_settings){.segment_size = 10 + below(200),
        .repeats = below(8),
        .with_parameters = one_in(2),
        .version = version,
        .restart = one_in(2)};
    s->string_length = any_entries(version, s->string, sizeof s->string);
    s->dump_settings = (mop_dump_settings){.length = DUMP_LENGTH,
        .address = below(1000),
        .request_bytes = 20 + below(40),
        .repeats = below(8),
        .version = version};
}

static bool fuzz_session(bool dump)
{
    static host h;
    static session s;
    memset(&h, 0, sizeof h);
    make_session(&s);
    s.dump = dump;
    h.calls = &job_calls;
    h.job = &s;
    h.named = one_in(4);
    h.restart = !dump && s.load_settings.restart == 1;
    memcpy(h.machine, PEER, ADDRESS_LENGTH);
    line_make(&h.line);
    bool goes_on = true;
    for (unsigned event = 0; event < 80 && goes_on && stage_of(&s) != HOST_OVER; event++) {
        if (one_in(60))
            *counts_of(&s) = any_counts(stage_of(&s) == HOST_WAITING);
        if (one_in(60))
            any_restarts(&s);
        goes_on = one_in(8) ? run_timer(&h, &s) : hand_frame(&h, &s);
        check_buffer(&s);
    }
    return s.dump ? s.taken.verdict == MOP_DUMP_FINISHED : s.load.verdict == MOP_LOAD_FINISHED;
}

bool fuzz_load(void)
{
    return fuzz_session(false);
}

bool fuzz_dump(void)
{
    return fuzz_session(true);
}
