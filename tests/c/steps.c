/* What the tests of the steps share. */
#include "check.h"
#include "lent.h"
#include "make.h"
#include "tests.h"

size_t any_room(void)
{
    static const size_t rooms[] = {0, 1, 1498, 1499, 1501, BEYOND};
    return once_in(3) ? rooms[below(sizeof rooms / sizeof rooms[0])] : 1500;
}

void check_written(mop_written answer, unsigned refusal, const lent *reply)
{
    demand(answer.refusal == refusal, "not the header's refusal");
    demand(answer.length <= (refusal == MOP_ACCEPTED ? MOP_FRAME_MOST : 0),
        "longer than a frame, or a refusal with a length");
    demand(lent_same_from(reply, answer.length),
        "bytes behind the frame, or of a refused call, changed");
}

/* ---- The counts of a load and of a dump. */

uint64_t *count_of(mop_counts *counts, int which)
{
    switch (which) {
    case STARTS:
        return &counts->starts;
    case ADVANCES:
        return &counts->advances;
    case IGNORED:
        return &counts->ignored;
    default:
        return &counts->rejections;
    }
}

bool same_counts(mop_counts a, mop_counts b)
{
    return a.starts == b.starts && a.advances == b.advances &&
           a.ignored == b.ignored && a.rejections == b.rejections;
}

bool bad_counts(mop_counts c, uint8_t waiting)
{
    if (c.starts == UINT64_MAX || c.advances == UINT64_MAX ||
        c.ignored == UINT64_MAX || c.rejections == UINT64_MAX)
        return true;
    return waiting == 1 &&
           (c.starts != 0 || c.advances != 0 || c.rejections != 0);
}

mop_counts any_counts(bool waits)
{
    mop_counts counts = {0};
    for (int i = 0; i < COUNTS; i++) {
        if (waits && i != IGNORED && !once_in(16))
            continue;
        *count_of(&counts, i) = once_in(8) ? hostile() : below(1000);
        if (once_in(32))
            *count_of(&counts, i) = UINT64_MAX - below(2);
    }
    return counts;
}

const edge edges[EDGES] = {
    {1, 0, 1, MOP_FRAME_MOST, MOP_REFUSED_RANGE},
    {1, 0, UINT64_MAX - 1, MOP_FRAME_MOST, MOP_REFUSED_RANGE},
    {1, 0, UINT64_MAX, MOP_FRAME_MOST, MOP_REFUSED_RANGE},
    {0, 0, UINT64_MAX - 1, MOP_FRAME_MOST, MOP_ACCEPTED},
    {0, 0, UINT64_MAX, MOP_FRAME_MOST, MOP_REFUSED_RANGE},
    {0, 0, UINT64_MAX, MOP_FRAME_MOST - 1, MOP_REFUSED_RANGE},
    {0, 0, UINT64_MAX - 1, MOP_FRAME_MOST - 1, MOP_REFUSED_ROOM},
    {0, MOP_LOAD_GIVEN_UP, UINT64_MAX - 1, MOP_FRAME_MOST, MOP_ACCEPTED},
    {0, MOP_DUMP_GIVEN_UP, UINT64_MAX, MOP_FRAME_MOST, MOP_REFUSED_RANGE},
};

/* One that waits may have ignored frames. */
unsigned edge_refusal(const edge *e, int which)
{
    const bool may = e->waiting == 1 && which == IGNORED;
    return may && e->count != UINT64_MAX ? MOP_ACCEPTED : e->refusal;
}

mop_counts count_frame(
    mop_counts counts, bool started, bool moved, bool rejected)
{
    const int which = started    ? STARTS
                      : moved    ? ADVANCES
                      : rejected ? REJECTIONS
                                 : IGNORED;
    *count_of(&counts, which) += 1;
    return counts;
}
