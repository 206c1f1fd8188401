#include "view.h"

#include <inttypes.h>
#include <stdio.h>
#include <stdlib.h>
#include <string.h>

#include "label.h"
#include "mop.h"
#include "options.h"
#include "words.h"

/* ---- Who they are ---------------------------------------------------- */

/* A code that only a host sends, or only a machine. */
static bool is_of_host(uint8_t code)
{
    return code <= MOP_CODE_REQUEST_DUMP || code == MOP_CODE_PARAMETERS;
}

static bool is_of_machine(uint8_t code)
{
    return code == MOP_CODE_REQUEST_PROGRAM || code == MOP_CODE_REQUEST_LOAD || code == MOP_CODE_REQUEST_DUMP_SERVICE ||
           code == MOP_CODE_DUMP_DATA;
}

/* A code by which a host loads a machine or dumps it; by another it may just volunteer. */
static bool is_of_server(uint8_t code)
{
    return code == MOP_CODE_LOAD_TRANSFER || code == MOP_CODE_LOAD || code == MOP_CODE_REQUEST_DUMP ||
           code == MOP_CODE_PARAMETERS;
}

static bool is_multicast(const uint8_t *address)
{
    return (address[0] & 1) != 0;
}

static bool is_at(const uint8_t *address, const uint8_t *named)
{
    return named == NULL || memcmp(address, named, ADDRESS_LENGTH) == 0;
}

/* The first host whose code is of a kind. */
static bool find_host(const capture *c, const uint8_t *machine, bool (*is_kind)(uint8_t code), view_ends *ends)
{
    for (size_t i = 0; i < c->count; i++) {
        const captured *m = &c->list[i];
        if (is_kind(m->message[0]) && !is_multicast(m->to) && is_at(m->to, machine)) {
            memcpy(ends->host, m->from, ADDRESS_LENGTH);
            memcpy(ends->machine, m->to, ADDRESS_LENGTH);
            ends->has_host = true;
            return true;
        }
    }
    return false;
}

static bool find_asking(const capture *c, const uint8_t *machine, view_ends *ends)
{
    for (size_t i = 0; i < c->count; i++) {
        const captured *m = &c->list[i];
        if (is_of_machine(m->message[0]) && is_at(m->from, machine)) {
            memcpy(ends->machine, m->from, ADDRESS_LENGTH);
            ends->has_host = false;
            return true;
        }
    }
    return false;
}

bool view_find(const capture *c, const uint8_t *machine, view_ends *ends)
{
    return find_host(c, machine, is_of_server, ends) || find_host(c, machine, is_of_host, ends) ||
           find_asking(c, machine, ends);
}

/* ---- Their frames ---------------------------------------------------- */

bool view_same(const captured *a, const captured *b)
{
    return a->length == b->length && memcmp(a->to, b->to, ADDRESS_LENGTH) == 0 &&
           memcmp(a->message, b->message, a->length) == 0;
}

uint8_t view_marks(const sighting *s)
{
    return (uint8_t)((s->alike ? CHART_AGAIN : 0) | (is_multicast(s->frame->to) ? CHART_TO_ALL : 0));
}

/* Whether a frame is of the session, and who sent it. */
static bool is_between(const captured *m, const view_ends *e, chart_side *sender)
{
    const bool from_machine = is_at(m->from, e->machine);
    *sender = from_machine ? CHART_MACHINE : CHART_HOST;
    if (from_machine)
        return !e->has_host || is_multicast(m->to) || is_at(m->to, e->host);
    return e->has_host && is_at(m->from, e->host) && (is_multicast(m->to) || is_at(m->to, e->machine));
}

/* Another host that loads or dumps the machine, or NULL. */
static const uint8_t *find_rival(const capture *c, const view_ends *e)
{
    for (size_t i = 0; i < c->count; i++) {
        const captured *m = &c->list[i];
        if (is_of_server(m->message[0]) && is_at(m->to, e->machine) && !is_at(m->from, e->host))
            return m->from;
    }
    return NULL;
}

int view_make(view *v, const capture *c, const view_ends *ends)
{
    sighting *last[2] = {NULL, NULL};
    chart_side sender = CHART_HOST;
    *v = (view){.capture = c, .list = calloc(c->count + 1, sizeof *v->list)};
    if (v->list == NULL)
        return complain(STATUS_OTHER, "no memory for the picture");
    v->rival = ends->has_host ? find_rival(c, ends) : NULL;
    for (size_t i = 0; i < c->count; i++) {
        sighting *s = &v->list[v->count];
        if (!is_between(&c->list[i], ends, &sender))
            continue;
        *s = (sighting){.frame = &c->list[i], .partner = NOWHERE, .sender = sender};
        s->alike = last[sender] != NULL && view_same(last[sender]->frame, s->frame);
        s->next = s->alike && last[sender] == s - 1;
        if (s->alike)
            last[sender]->repeated = true;
        last[sender] = s;
        v->count += 1;
    }
    return 0;
}

void view_free(view *v)
{
    free(v->list);
    v->list = NULL;
}

/* ---- How it ended ---------------------------------------------------- */

/* The last frame of the host that wants an answer, and whether it came. */
typedef struct outcome {
    const sighting *asked; /* NULL before the first */
    mop_fields fields;     /* of it */
    bool answered;
    uint8_t error;
    bool complete;  /* dump complete came last */
    uint8_t begins; /* behind all that the machine asks for a program or offers a dump: that code, or 0 */
    bool several;   /* a session was over before */
    bool rival;     /* another host loads or dumps the machine too */
} outcome;

static mop_fields read_any(const captured *m)
{
    mop_fields f = mop_read(MOP_VERSION_3_0, m->message, m->length);
    return f.refusal == MOP_ACCEPTED ? f : mop_read(MOP_VERSION_2_1, m->message, m->length);
}

static bool wants_answer(const mop_fields *f)
{
    return f->code == MOP_CODE_LOAD_TRANSFER || f->code == MOP_CODE_LOAD || f->code == MOP_CODE_PARAMETERS ||
           f->code == MOP_CODE_REQUEST_DUMP;
}

/* Whether a frame of the machine answers the host's last. */
static bool is_answer(const outcome *o, const mop_fields *f)
{
    if (o->asked == NULL)
        return false;
    if (o->fields.code == MOP_CODE_REQUEST_DUMP)
        return f->code == MOP_CODE_DUMP_DATA && f->address == o->fields.address;
    return f->code == MOP_CODE_REQUEST_LOAD && f->number == (uint8_t)(o->fields.number + 1);
}

/* Whether a frame of the host is not the last one sent again. A machine that has its last load does not answer it once
 * more, so a load like it is a new one only behind a request; a request for a dump it answers each time. */
static bool is_new(const outcome *o, const sighting *s, const mop_fields *f)
{
    return o->asked == NULL || o->begins != 0 || f->code == MOP_CODE_REQUEST_DUMP ||
           !view_same(o->asked->frame, s->frame);
}

/* Whether the host's last frame was the last of a session, and is answered. */
static bool is_over(const outcome *o)
{
    return o->complete || (o->answered && o->fields.code != MOP_CODE_LOAD && o->fields.code != MOP_CODE_REQUEST_DUMP);
}

static void take_host(outcome *o, const sighting *s, const mop_fields *f)
{
    if (f->code == MOP_CODE_DUMP_COMPLETE && o->fields.code == MOP_CODE_REQUEST_DUMP) {
        o->complete = true;
        o->begins = 0; /* it offers in the middle of a dump too */
    } else if (wants_answer(f) && is_new(o, s, f)) {
        *o = (outcome){
            .asked = s, .fields = *f, .several = o->several || (o->begins != 0 && is_over(o)), .rival = o->rival};
    }
}

/* A machine that has no load yet repeats its request, and one that is dumped its offer: the answer comes behind it. */
static void take_machine(outcome *o, const sighting *s, const mop_fields *f)
{
    const uint8_t code = s->frame->message[0]; /* also of a frame that cannot be read */
    if (!o->answered && is_answer(o, f)) {
        o->answered = true;
        o->error = f->error;
        o->begins = 0;
    } else if (o->asked != NULL && (code == MOP_CODE_REQUEST_PROGRAM || code == MOP_CODE_REQUEST_DUMP_SERVICE)) {
        o->begins = code;
    }
}

static void say_load(const outcome *o, const char *name, char text[CHART_TEXT])
{
    const uint32_t start = o->fields.transfer;
    if (o->answered && o->error != 0)
        snprintf(text, CHART_TEXT, "Rejected: the machine answered %s with error %d.", name, o->error);
    else if (o->fields.code == MOP_CODE_LOAD)
        snprintf(text, CHART_TEXT, "Not over: %s %s, and no frame that says where to start follows between these two.",
            name, o->answered ? "is confirmed" : "is not answered");
    else if (o->answered && o->begins != 0)
        snprintf(text, CHART_TEXT, "Not over: the machine answered %s without an error.", name);
    else if (o->answered)
        snprintf(text, CHART_TEXT,
            "%she machine answered the last one, %s, without an error. "
            "That one says to start at 0x%08" PRIX32 ".",
            o->rival ? "T" : "Finished, as far as the frames show: t", name, start);
    else
        snprintf(text, CHART_TEXT,
            "Not confirmed: no answer to the last frame, %s, follows between these two. "
            "Whether the machine took it, and was started at 0x%08" PRIX32 ", is not shown.",
            name, start);
}

/* Ends a load, is answered without an error, and nothing new begins. */
static bool is_confirmed(const outcome *o)
{
    return o->asked != NULL && o->fields.code != MOP_CODE_REQUEST_DUMP && o->fields.code != MOP_CODE_LOAD &&
           o->answered && o->error == 0 && o->begins == 0 && !o->rival;
}

static void say_dump(const outcome *o, char text[CHART_TEXT])
{
    snprintf(text, CHART_TEXT, "%s: the last request, for %d byte%s at 0x%08" PRIX32 ", is %s%s.",
        o->complete ? "The host ended the dump" : "Not over", o->fields.count, o->fields.count == 1 ? "" : "s",
        o->fields.address, o->answered ? "answered" : "not answered",
        o->complete ? "" : ", and no dump complete follows between these two");
}

static void say_begins(const outcome *o, char text[CHART_TEXT])
{
    const size_t length = strlen(text);
    if (o->begins != 0)
        snprintf(text + length, CHART_TEXT - length,
            " Behind that the machine %s, and no load and no request for a dump follows between these two.",
            o->begins == MOP_CODE_REQUEST_PROGRAM ? "requests a program" : "offers a dump");
}

static void say_rival(const uint8_t *rival, char text[CHART_TEXT])
{
    char address[ADDRESS_TEXT];
    const size_t length = strlen(text);
    if (rival == NULL)
        return;
    address_text(rival, address);
    snprintf(text + length, CHART_TEXT - length,
        " Another station, %s, sends this machine loads or requests for dumps too: they are not drawn.", address);
}

static outcome follow(const view *v)
{
    outcome o = {.asked = NULL, .rival = v->rival != NULL};
    for (size_t i = 0; i < v->count; i++) {
        const sighting *s = &v->list[i];
        const mop_fields f = read_any(s->frame);
        if (s->sender == CHART_MACHINE)
            take_machine(&o, s, &f);
        else if (f.refusal == MOP_ACCEPTED)
            take_host(&o, s, &f);
    }
    return o;
}

view_outcome view_end(const view *v, char text[CHART_TEXT])
{
    const outcome o = follow(v);
    if (o.asked == NULL)
        snprintf(text, CHART_TEXT, "No load and no request for a dump that can be read stands between these two.");
    else if (o.fields.code != MOP_CODE_REQUEST_DUMP)
        say_load(&o, label_of(o.asked->frame->message, o.asked->frame->length).name, text);
    else
        say_dump(&o, text);
    say_begins(&o, text);
    say_rival(v->rival, text);
    return (view_outcome){o.asked, o.answered, is_confirmed(&o), o.several};
}
