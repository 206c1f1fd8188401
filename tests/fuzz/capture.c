/* Captures: of both ends of a session whose losses and doubles are known; and such ones mutated. */
#include <stdlib.h>
#include <string.h>

#include "capture.h"
#include "fuzz.h"
#include "seen.h"
#include "svgscan.h"

/* How a capture is written. */
typedef struct form {
    bool big;
    bool nanoseconds;
    int64_t clock; /* added to its times, in microseconds */
    bool wrong;    /* some frames say that they are longer than they are */
} form;

/* A frame in the two captures: when it was sent, and when it came. */
typedef struct event {
    uint8_t message[16];
    size_t length;
    int64_t sent;
    int64_t came[2];
    int copies; /* 0 if it was lost */
    bool from_host;
    bool to_all;
} event;

#define EVENTS 60
static event events[EVENTS];
static size_t count;
static int64_t timer; /* after which a frame is sent again */
static int64_t last_came[2];

/* ---- A session ------------------------------------------------------- */

static event *add_event(bool from_host, const uint8_t *message, size_t length, int64_t time)
{
    event *e = &events[count++];
    *e = (event){.length = length, .sent = time, .from_host = from_host, .copies = one_in(4) ? 0 : one_in(4) ? 2 : 1};
    memcpy(e->message, message, length);
    e->came[0] = time + 200 + below(2000);
    if (one_in(2) && e->came[0] <= last_came[from_host])
        e->came[0] = last_came[from_host] + 1; /* mostly a line keeps the order */
    e->came[1] = e->came[0] + 1 + below(one_in(2) ? 20 : 1000);
    last_came[from_host] = e->came[1];
    return e;
}

/* The machine answers each copy of a load, and the host goes on with the first answer: when that comes, or 0. */
static int64_t answer(const event *load, uint8_t number)
{
    const uint8_t request[] = {10, (uint8_t)(number + 1), 0};
    const event came = *load;
    int64_t first = 0;
    for (int i = 0; i < came.copies; i++) {
        const event *e = add_event(false, request, sizeof request, came.came[i] + 5 + 10 * i + below(10));
        if (e->copies > 0 && (first == 0 || e->came[0] < first))
            first = e->came[0];
    }
    return first;
}

/* A frame is sent until it is answered: when the answer comes. The first one goes through, so that the clocks can be
 * compared. */
static int64_t exchange(uint8_t number, int64_t time)
{
    const uint8_t load[] = {2, number, number, 1, 0, 0, 'A'};
    for (int tries = 0; tries < 3 && count + 3 <= EVENTS; tries++, time += timer) {
        event *e = add_event(true, load, sizeof load, time);
        e->copies = number == 0 ? 1 : e->copies;
        const int64_t came = e->came[0], answered = answer(e, number);
        if (answered != 0 || number == 0)
            return (answered == 0 ? came + 5000 : answered) + 50 + below(200);
    }
    return time;
}

static void make_session(void)
{
    const uint8_t asks[] = {8, 0, 1, 2, 255, 0};
    static const int64_t timers[] = {50000, 4000000, 12000000};
    const uint8_t loads = (uint8_t)(1 + below(8));
    int64_t time = 1000000;
    count = 0;
    last_came[0] = last_came[1] = 0;
    timer = timers[loads % 3];
    add_event(false, asks, sizeof asks, time);
    events[0].to_all = true;
    time = events[0].came[1] + 1000;
    for (uint8_t i = 0; i < loads; i++)
        time = exchange(i, time);
}

/* ---- Captures of it -------------------------------------------------- */

static void put_number(form f, uint32_t value)
{
    for (size_t i = 0; i < 4; i++)
        put_byte((uint8_t)(value >> 8 * (f.big ? 3 - i : i)));
}

static void put_header(form f)
{
    put_number(f, f.nanoseconds ? 0xA1B23C4D : 0xA1B2C3D4);
    put_number(f, 0x00040002);
    put_number(f, 0);
    put_number(f, 0);
    put_number(f, 65535);
    put_number(f, 1);
}

static void put_frame(form f, const event *e, int64_t time)
{
    static const uint8_t type[] = {0x60, 0x01}, padding[44];
    time += f.clock;
    put_number(f, (uint32_t)(time / 1000000));
    put_number(f, (uint32_t)(time % 1000000) * (f.nanoseconds ? 1000 : 1));
    put_number(f, 60);
    put_number(f, 60);
    put_bytes(e->to_all ? ASSISTANCE : e->from_host ? PEER : OWN, ADDRESS_LENGTH);
    put_bytes(e->from_host ? OWN : PEER, ADDRESS_LENGTH);
    put_bytes(type, sizeof type);
    put_low_first(f.wrong && one_in(8) ? 40 + below(30) : (uint32_t)e->length, 2);
    put_bytes(e->message, e->length);
    put_bytes(padding, sizeof padding - e->length);
}

/* What an end saw, in the order of time: what it sent and what came. */
typedef struct seen {
    const event *event;
    int64_t time;
} seen;

static int by_time(const void *a, const void *b)
{
    const seen *one = a, *two = b;
    return (one->time > two->time) - (one->time < two->time);
}

static size_t seen_by(bool host, seen list[3 * EVENTS])
{
    size_t n = 0;
    for (size_t i = 0; i < count; i++) {
        const event *e = &events[i];
        if (e->from_host == host)
            list[n++] = (seen){e, e->sent};
        if (e->from_host != host && e->copies > 0)
            list[n++] = (seen){e, e->came[0]};
        if (e->from_host != host && e->copies > 1)
            list[n++] = (seen){e, e->came[1]};
    }
    qsort(list, n, sizeof list[0], by_time);
    return n;
}

/* The input becomes the capture of one end. */
static contents make_capture(bool host, int64_t clock, bool mutated)
{
    static seen list[3 * EVENTS];
    const form f = {one_in(2), one_in(2), clock, mutated && one_in(2)};
    const size_t n = seen_by(host, list);
    input.length = 0;
    put_header(f);
    for (size_t i = 0; i < n; i++)
        put_frame(f, list[i].event, list[i].time);
    if (mutated)
        mutate(NULL);
    return exact();
}

/* ---- What must hold -------------------------------------------------- */

static size_t drawn(const chart *c, chart_way way)
{
    size_t n = 0;
    for (size_t i = 0; i < c->arrows_count; i++)
        n += c->arrows[i].way == way;
    return n;
}

/* Whether the capture of the end to which a frame did not come has a frame in the 10 seconds before it and behind it;
 * by so many microseconds more or less. */
static bool slow_covered(const event *e, int64_t slack)
{
    static seen list[3 * EVENTS];
    const size_t n = seen_by(!e->from_host, list);
    bool before = false, behind = false;
    for (size_t i = 0; i < n; i++) {
        const int64_t away = list[i].time - e->sent;
        before = before || (away <= slack && away >= -10000000 - slack);
        behind = behind || (away >= -slack && away <= 10000000 + slack);
    }
    return before && behind;
}

static bool is_equal(const event *a, const event *b)
{
    return a->length == b->length && memcmp(a->message, b->message, a->length) == 0;
}

/* Whether a frame is the first of equal ones that were sent within so many microseconds. */
static bool begins_run(size_t at, int64_t span)
{
    for (size_t i = 0; i < at; i++)
        if (is_equal(&events[i], &events[at]) && events[at].sent - events[i].sent <= span)
            return false;
    return true;
}

/* What the captures show of lacking and of doubled frames if of equal ones sent within a span they do not tell which
 * was lost; of those that lack, how many are surely lost, and how many perhaps, as the other capture was being taken. */
typedef struct shown {
    size_t lost;
    size_t surely;
    size_t perhaps;
    size_t twice;
} shown;

static void add_run(shown *all, size_t first, int64_t span)
{
    int lacking = 0;
    bool surely = true, perhaps = false;
    for (size_t i = first; i < count; i++) {
        const event *e = &events[i];
        if (!is_equal(e, &events[first]) || e->sent - events[first].sent > span)
            continue;
        lacking += 1 - e->copies;
        surely = surely && slow_covered(e, -3000);
        perhaps = perhaps || slow_covered(e, 3000);
    }
    const size_t lost = lacking > 0 ? (size_t)lacking : 0;
    all->lost += lost;
    all->surely += surely ? lost : 0;
    all->perhaps += perhaps ? lost : 0;
    all->twice += lacking < 0 ? (size_t)-lacking : 0;
}

static shown shown_by(int64_t span)
{
    shown all = {0, 0, 0, 0};
    for (size_t i = 0; i < count; i++)
        if (begins_run(i, span))
            add_run(&all, i, span);
    return all;
}

#define RUN 1000000 /* microseconds */
#define AT_ONCE 5000

/* By the clocks as they are compared, which are not far from the truth. */
static void check_times(const chart *c)
{
    for (size_t i = 0; i < c->arrows_count; i++) {
        const chart_arrow *a = &c->arrows[i];
        if (a->way == CHART_CAME || a->way == CHART_DOUBLE)
            require(c->rows[a->to / 4].time - c->rows[a->from / 4].time >= -6000, "nothing comes before it is sent");
    }
}

/* Of equal frames the fewest are drawn as lost and as come twice; of those sent at once no more than lack. */
static void check_pair(const chart *c)
{
    const shown fewest = shown_by(RUN), most = shown_by(AT_ONCE);
    const size_t lost = drawn(c, CHART_LOST) + drawn(c, CHART_UNKNOWN);
    require(drawn(c, CHART_CAME) == count - lost, "what came is drawn so");
    require(lost >= fewest.lost && lost <= most.lost, "what did not come is drawn so");
    require(drawn(c, CHART_DOUBLE) + fewest.lost == lost + fewest.twice, "what came twice is drawn so");
    require(drawn(c, CHART_LOST) >= fewest.surely && drawn(c, CHART_LOST) <= most.perhaps,
        "lost is what the other capture shows to be lost");
    require(drawn(c, CHART_UNSENT) == 0, "nothing comes that was not sent");
    check_times(c);
}

/* Whether the captures tell which is the host's: the first of equal frames was lost, and one sent by a timer came. */
static bool tells_ends(void)
{
    for (size_t i = 1; i < count; i++)
        if (events[i].copies == 0 && timer < 10000000 && begins_run(i, RUN))
            for (size_t j = i + 1; j < count; j++)
                if (is_equal(&events[i], &events[j]) && events[j].sent - events[i].sent >= timer &&
                    events[j].copies > 0)
                    return true;
    return false;
}

static uint32_t slow_number(const contents *f, size_t at)
{
    uint32_t value = 0;
    for (size_t i = 0; i < 4; i++)
        value |= (uint32_t)f->bytes[at + i] << 8 * (f->bytes[0] == 0xA1 ? 3 - i : i);
    return value;
}

/* Whether a whole message of MOP stands in these bytes. */
static bool slow_message(const uint8_t *raw, size_t length)
{
    if (length < 16 || raw[12] != 0x60 || raw[13] != 0x01)
        return false;
    const size_t said_length = raw[14] + 256U * raw[15];
    return said_length >= 1 && said_length <= 1500 && 16 + said_length <= length;
}

/* The messages of a capture that is accepted, counted anew. */
static size_t slow_messages(const contents *f)
{
    size_t found = 0;
    for (size_t at = 24; at + 16 <= f->length;) {
        const size_t length = slow_number(f, at + 8);
        if (at + 16 + length > f->length)
            break;
        found += slow_message(f->bytes + at + 16, length);
        at += 16 + length;
    }
    return found;
}

static void check_one(const chart *c, bool host)
{
    static seen list[3 * EVENTS];
    require(c->rows_count == seen_by(host, list) && c->arrows_count == c->rows_count, "every frame is drawn");
}

/* Of a damaged capture what is whole is drawn, or it is refused in words. */
static bool draw(const contents files[2], bool both, bool host, bool mutated)
{
    static chart c;
    capture captures[2] = {{.list = NULL}, {.list = NULL}};
    const seen_settings settings = {captures, both ? captures + 1 : NULL, NULL};
    memset(&c, 0, sizeof c);
    bool good = capture_take(&captures[0], "one", files[0]) == 0;
    good = capture_take(&captures[1], "two", files[1]) == 0 && good;
    good = good && seen_chart(&settings, &c) == 0;
    for (int i = 0; i < 2 && good; i++)
        require(captures[i].count == slow_messages(&captures[i].file), "every whole message is found");
    require(good || mutated, "captures are drawn");
    require(good || said[0] != '\0', "what is refused is told");
    if (good && both)
        check_doubles(&c);
    if (good && !mutated && both)
        check_pair(&c);
    if (good && !mutated && !both)
        check_one(&c, host);
    if (good)
        scan_chart(&c);
    chart_free(&c);
    capture_free(&captures[0]);
    capture_free(&captures[1]);
    return good;
}

/* By how much a clock is ahead: often by little, and by anything. */
static int64_t any_clock(void)
{
    return one_in(3) ? 0 : one_in(2) ? (int64_t)below(1000000) : 10 * (int64_t)below(100000000);
}

bool fuzz_capture(void)
{
    const int64_t clocks[2] = {any_clock(), any_clock()};
    const bool mutated = one_in(2);
    make_session();
    const bool host = !tells_ends() || one_in(2);
    const contents one = make_capture(host, clocks[0], mutated);
    const contents two = make_capture(!host, clocks[1], mutated && one_in(2));
    const contents files[2] = {one, two};
    return draw(files, one_in(2), host, mutated);
}
