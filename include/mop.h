/* mop.h: Kochipurn for C. The proved reader and writers of MOP frames, the
 * image file, the machine end, and the host's load, dump and loop test.
 *
 * Link with libmop.a (make lib), which needs the C library alone. It is built
 * for x86-64 Linux and its calling convention (System V). No call allocates,
 * blocks, prints, keeps anything between calls, or fails otherwise than by a
 * refusal. Threads may call at once if none writes what another uses.
 *
 *
 * A load and a dump, from the first call to the last
 * --------------------------------------------------
 * The line is the caller's; here it is two functions:
 *
 *     // Sends a frame to the machine.
 *     void line_send(const uint8_t *frame, size_t length);
 *
 *     // Waits for a frame from the machine: its length, or 0 if the timer has
 *     // run out, which line_send alone starts anew. It drops an empty frame
 *     // and one of more than room bytes.
 *     size_t line_wait(uint8_t *frame, size_t room);
 *
 * The rest is these two. Each ends with a verdict, or with a refusal below 0
 * if a call was wrong; a frame that can't be read is dropped, and the wait
 * goes on.
 *
 *     // Loads an image file into the machine.
 *     int load(const uint8_t *file, size_t file_length)
 *     {
 *         mop_load_settings settings = {.segment_size = 1024, .repeats = 5,
 *             .version = MOP_VERSION_3_0};
 *         mop_load session = mop_load_start();
 *         uint8_t frame[MOP_FRAME_MOST], reply[MOP_FRAME_MOST];
 *
 *         while (session.verdict == MOP_LOAD_RUNNING) {
 *             size_t length = line_wait(frame, sizeof frame);
 *             mop_written answer = length > 0
 *                 ? mop_load_update_frame(settings, &session, file,
 *                       file_length, NULL, 0, frame, length, reply,
 *                       sizeof reply)
 *                 : mop_load_update_timer(settings, &session, file,
 *                       file_length, NULL, 0, reply, sizeof reply);
 *             if (mop_refused_frame(answer.refusal))
 *                 continue;
 *             if (answer.refusal != MOP_ACCEPTED)
 *                 return -answer.refusal;
 *             if (answer.length > 0)
 *                 line_send(reply, answer.length);
 *         }
 *         return session.verdict; // MOP_LOAD_FINISHED: it is in and started
 *     }
 *
 *     // Dumps the machine's memory from address on until the buffer is full.
 *     int dump(uint32_t address, uint8_t *buffer, size_t buffer_length)
 *     {
 *         mop_dump_settings settings = {.length = buffer_length,
 *             .address = address, .request_bytes = 1024, .repeats = 5,
 *             .version = MOP_VERSION_3_0};
 *         mop_dump session = mop_dump_start();
 *         uint8_t frame[MOP_FRAME_MOST], reply[MOP_FRAME_MOST];
 *
 *         while (session.verdict == MOP_DUMP_RUNNING) {
 *             size_t length = line_wait(frame, sizeof frame);
 *             mop_written answer = length > 0
 *                 ? mop_dump_update_frame(settings, &session, frame, length,
 *                       buffer, buffer_length, reply, sizeof reply)
 *                 : mop_dump_update_timer(settings, &session,
 *                       buffer, buffer_length, reply, sizeof reply);
 *             if (mop_refused_frame(answer.refusal))
 *                 continue;
 *             if (answer.refusal != MOP_ACCEPTED)
 *                 return -answer.refusal;
 *             if (answer.length > 0)
 *                 line_send(reply, answer.length);
 *         }
 *         return session.verdict; // MOP_DUMP_FINISHED: the buffer is full
 *     }
 *
 * Both wait without end for a machine that never asks: while the host waits,
 * a timer does nothing, and the caller may stop at any time. A load serves a
 * machine that asks for program type 2, an operating system, and ignores other
 * types; a genuine boot ROM asks for type 1 (docs/FIELD-NOTES.md has one, and
 * how driver/mopload serves it). The machine's side of both is in
 * examples/c/load_and_dump.c.
 *
 *
 * What holds for every call
 * -------------------------
 * Bytes. Frames, files, memories and buffers are lent as a pointer and a
 * length, for the time of the call. The pointer is good for that many bytes;
 * with length 0 it may be null. What is lent for writing (a pointer without
 * const) overlaps nothing else that is lent. Nothing else is asked of the
 * caller: any bytes and any numbers are answered.
 *
 * Frames. A frame is one message's bytes, from its code to its last field, with
 * nothing of the line's around them. On Ethernet a message stands behind its
 * length, two bytes, low byte first, and a short one is padded: leave the two
 * bytes out and cut the rest to that length, or padding becomes data. So a
 * message has at most 1,498 bytes there: see MOP_ETHERNET_.. below.
 *
 * Refusals. Each call answers a refusal, 0 for none; mop_load_start and
 * mop_dump_start, which nothing goes into, answer a record alone. A refusal
 * changes nothing: the record is the one that came in, the answered length is
 * 0, and every lent byte is as it was. (No record comes into a start call: if
 * refused, it answers the record of its start, and no frame.) Where several
 * refusals apply, the first in the order given at the call is answered.
 *
 * Versions. Every settings record names the version of the protocol that its
 * session follows, the same at both ends: MOP_VERSION_2_1 or MOP_VERSION_3_0.
 * Any other number, 0 too, is refused with 10, so settings that forget it are
 * noticed at the first call. Version 2.1 differs in code 20, with shorter names
 * and addresses and no host time, which the machine stores in its memory too,
 * and in refusal 11 ('The machine end').
 *
 * Order. In every step, of these the ones that it needs: settings, record,
 * lent bytes that stay the same over a session (image file, parameter string,
 * loop data), frame, memory or dump buffer, reply buffer.
 *
 * Records. A step takes a session's record by value and answers the next one,
 * or it updates the record where it stands (mop_.._update_..). Hand it to the
 * next step, and change nothing in it; the same settings, file, parameters,
 * memory, data and buffer go into each step of a session. Once a verdict is not
 * 0, no frame and no timer changes anything or sends anything; a frame that
 * can't be read is refused even then.
 *
 * Timers. How long one runs is the caller's. Start it when a step gives a frame
 * to send, and at no other time: a frame that is refused or ignored leaves it
 * running, or such frames would put it off for ever. After a step on a timer
 * that gives no frame, none is needed until one goes out again.
 *
 * Ignored. Where a step answers refusal 0 and length 0, and the verdict (of a
 * machine, the state) is as before, the frame or timer was ignored: nothing has
 * changed, in the record, in memory or in a buffer, but that a load and a dump
 * count a frame as ignored while the verdict is 0 (mop_counts). One that was
 * taken gives a frame to send, or another verdict or state. That is a theorem
 * (crates/mop_steps/proofs/Laws.antt). Compare records field by field: they have
 * bytes that belong to no field and hold anything, so memcmp is no way.
 *
 * Verdicts. What they say of the machine holds where its end is this library's
 * or does the same, where the line alters no frame and keeps their order (it
 * may lose any and hand over any twice), and where nothing else writes record,
 * memory or buffer, but for a reset (see 'The host's load').
 * docs/ASSURANCE.md has the theorems.
 */
#ifndef MOP_H
#define MOP_H

#include <stddef.h>
#include <stdint.h>

#ifdef __cplusplus
extern "C" {
#endif

/* ---- Numbers --------------------------------------------------------- */

/* The refusals. 1 to 4 are the frame's, 5 to 8 the image file's, 9 to 12
 * the caller's. A writer gives 2 and 4 for what it was asked to write, and a
 * load's step for its parameter string. */
enum mop_refusal {
    MOP_ACCEPTED = 0,          /* no refusal */
    MOP_REFUSED_SHORT = 1,     /* the frame is empty or ends too early */
    MOP_REFUSED_LONG = 2,      /* bytes are left over, or it is above 1,500 */
    MOP_REFUSED_CODE = 3,      /* the code is not listed */
    MOP_REFUSED_FIELD = 4,     /* a program type, software form, entry type,
                                  entry length or time field is outside its
                                  list */
    MOP_REFUSED_FILE = 5,      /* the file is under 16 or above 16,777,216
                                  bytes, or its length field is wrong ('The
                                  image file' has the fields) */
    MOP_REFUSED_DIRECTORY = 6, /* the entry count or the directory offset is
                                  wrong */
    MOP_REFUSED_ENTRY = 7,     /* a directory entry breaks its own rule */
    MOP_REFUSED_OVERLAP = 8,   /* a region begins before the last one's end */
    MOP_REFUSED_ROOM = 9,      /* the output or reply buffer is too short */
    MOP_REFUSED_RANGE = 10,    /* a setting, version, length or index is outside
                                  its range, or the record is bad */
    MOP_REFUSED_MEMORY = 11,   /* version 2.1 on a memory of under 64 bytes */
    MOP_REFUSED_MANY = 12      /* a load that may restart has over 256 frames */
};

/* Whether a step's refusal is the frame's own (1 to 4): 1 or 0. Such a frame
 * comes from the line and not from the caller: drop it, and wait on. With any
 * other refusal the call itself is wrong, and it would be refused again. A load
 * with a parameter string gives 4 and 2 for the string too, in every call: try
 * the string beforehand ('The host's load'). */
static inline int mop_refused_frame(uint8_t refusal)
{
    return refusal >= MOP_REFUSED_SHORT && refusal <= MOP_REFUSED_FIELD;
}

/* The versions of the protocol. */
enum mop_version {
    MOP_VERSION_2_1 = 21, /* version 2.1 */
    MOP_VERSION_3_0 = 30  /* version 3.0.0 */
};

/* The most of each, all included. */
enum mop_limit {
    MOP_FRAME_MOST = 1500,      /* bytes of a frame; a reply buffer has at
                                   least as many */
    MOP_SEGMENT_MOST = 1490,    /* bytes of a segment; code 0 has 10 more */
    MOP_DUMP_DATA_MOST = 1495,  /* bytes of memory in a dump reply; code 14
                                   has 5 more */
    MOP_LOOP_DATA_MOST = 1497,  /* bytes of a loop test's data; code 24 has 3
                                   more */
    MOP_PARAMETERS_MOST = 1493, /* bytes of a parameter string; code 20 has 7
                                   more */
    MOP_VALUE_MOST = 16,        /* bytes of one value in it */
    MOP_NAME_MOST_2_1 = 6,      /* bytes of a name under version 2.1 */
    MOP_ADDRESS_MOST_2_1 = 2,   /* bytes of an address under version 2.1 */
    MOP_REPEATS_MOST = 255,     /* repeats of a frame */
    MOP_RESTARTS_MOST = 65535,  /* restarts of a load */
    MOP_RESTARTING_MOST = 256,  /* frames of a load that may restart, one for
                                   its parameters counted */
    MOP_FILE_MOST = 16777216,   /* bytes of an image file; the least is 16 */
    MOP_MEMORY_MOST = 16777216, /* bytes of a machine's memory */
    MOP_REGIONS_MOST = 100000   /* regions of an image; the least is 1 */
};

/* The same on Ethernet, where the length in front of a message takes two bytes
 * of 1,500. The calls do not know of it: a driver there keeps its settings to
 * these. */
enum mop_ethernet_limit {
    MOP_ETHERNET_FRAME_MOST = 1498,
    MOP_ETHERNET_SEGMENT_MOST = 1488,
    MOP_ETHERNET_DUMP_DATA_MOST = 1493,
    MOP_ETHERNET_LOOP_DATA_MOST = 1495,
    MOP_ETHERNET_PARAMETERS_MOST = 1491
};

/* The parameter block of version 2.1 in the machine's memory ('The machine
 * end'). */
enum mop_block {
    MOP_BLOCK_BYTES = 14,       /* its length */
    MOP_BLOCK_BELOW_TOP = 64,   /* how far below the top it begins */
    MOP_BLOCK_MEMORY_LEAST = 64 /* the least memory of version 2.1 */
};

/* The codes, a frame's first byte. Each but the last has the writer of its
 * name. */
enum mop_code {
    MOP_CODE_LOAD_TRANSFER = 0,         /* memory load with transfer */
    MOP_CODE_DUMP_COMPLETE = 1,         /* dump complete */
    MOP_CODE_LOAD = 2,                  /* memory load */
    MOP_CODE_VOLUNTEER = 3,             /* assistance volunteer */
    MOP_CODE_REQUEST_DUMP = 4,          /* request memory dump */
    MOP_CODE_REQUEST_PROGRAM = 8,       /* request program */
    MOP_CODE_REQUEST_LOAD = 10,         /* request memory load */
    MOP_CODE_REQUEST_DUMP_SERVICE = 12, /* request dump service */
    MOP_CODE_DUMP_DATA = 14,            /* memory dump data */
    MOP_CODE_PARAMETERS = 20,           /* parameter load with transfer */
    MOP_CODE_LOOP = 24,                 /* loop data */
    MOP_CODE_LOOPED = 26,               /* looped data */
    MOP_CODE_NONE = 255                 /* no frame: refused */
};

/* The program types of code 8. */
enum mop_program {
    MOP_PROGRAM_SECONDARY = 0, /* secondary loader */
    MOP_PROGRAM_TERTIARY = 1,  /* tertiary loader */
    MOP_PROGRAM_SYSTEM = 2     /* operating system */
};

/* The software forms of code 8; 1 to 16 are the length of an id. */
enum mop_form {
    MOP_FORM_NONE = 0,          /* no id */
    MOP_FORM_MAINTENANCE = 254, /* maintenance system */
    MOP_FORM_STANDARD = 255     /* standard system */
};

/* The entry types of code 20. Version 2.1 has the first four. */
enum mop_entry {
    MOP_ENTRY_TARGET_NAME = 1,    /* at most 16 bytes, under 2.1 at most 6 */
    MOP_ENTRY_TARGET_ADDRESS = 2, /* at most 6 bytes, under 2.1 at most 2 */
    MOP_ENTRY_HOST_NAME = 3,      /* at most 16 bytes, under 2.1 at most 6 */
    MOP_ENTRY_HOST_ADDRESS = 4,   /* at most 6 bytes, under 2.1 at most 2 */
    MOP_ENTRY_HOST_TIME = 5       /* exactly 10 bytes: century 0 to 127, year
                                     0 to 100, month 1 to 12, day 1 to 31,
                                     hour 0 to 23, minute and second 0 to 59,
                                     hundredths 0 to 99, offset hours -12 to
                                     13, offset minutes -59 to 59, the last
                                     two not of opposite signs; under 2.1 not
                                     listed */
};

/* The machine's states. */
enum mop_machine_state {
    MOP_MACHINE_IDLE = 0,
    MOP_MACHINE_OFFERING = 1,   /* offers its memory to be dumped */
    MOP_MACHINE_REQUESTING = 2, /* asks for a program */
    MOP_MACHINE_LOADING = 3,
    MOP_MACHINE_STARTED = 4 /* runs what was loaded; ignores every frame */
};

/* The verdicts of a load of n frames: one for each of its N segments, and one
 * more if it ends with parameters. 'In' is: taken by the machine, a segment's
 * bytes into its memory, the parameters into its record and, under version 2.1,
 * into the parameter block of its memory too. Of a machine that is reset after
 * the verdict the verdict says nothing any more; of one that is reset before,
 * see 'The host's load'. */
enum mop_load_verdict {
    MOP_LOAD_RUNNING = 0,    /* not over: the first c or c + 1 frames are in,
                                c being the record's position; none while it
                                waits */
    MOP_LOAD_FINISHED = 1,   /* all n are in, and the machine is started */
    MOP_LOAD_REJECTED = 2,   /* the machine gave an error: the first c are in,
                                and it is not started */
    MOP_LOAD_GIVEN_UP = 3,   /* no answer to a frame that is not the last: the
                                first c or c + 1 are in, not started */
    MOP_LOAD_UNCONFIRMED = 4 /* no answer to the last frame: all n are in and
                                the machine is started, or the first n - 1 are
                                and it is not */
};

/* The verdicts of a dump. */
enum mop_dump_verdict {
    MOP_DUMP_RUNNING = 0,  /* not over: the bytes filled are memory's */
    MOP_DUMP_FINISHED = 1, /* the buffer is full: memory's bytes, and 0 for
                              those beyond its end */
    MOP_DUMP_GIVEN_UP = 3  /* no answer: the bytes filled are memory's */
};

/* The verdicts of a loop test. */
enum mop_loop_verdict {
    MOP_LOOP_OPEN = 0,    /* not over */
    MOP_LOOP_LOOPED = 1,  /* the data came back as code 26, from a machine */
    MOP_LOOP_PLUG = 2,    /* the data came back as code 24, from a plug */
    MOP_LOOP_GIVEN_UP = 3 /* the data did not come back */
};

/* ---- Reading a frame ------------------------------------------------- */

/* A frame's fields. Those that its code does not have are 0. A refused frame
 * has none, and the code MOP_CODE_NONE, which no frame has.
 *
 *   code                            fields
 *    0 memory load with transfer    number, address, data, transfer
 *    1 dump complete
 *    2 memory load                  number, address, data
 *    3 assistance volunteer
 *    4 request memory dump          address, count
 *    8 request program              device, format, program, form, id,
 *                                   processor, info
 *   10 request memory load          number, error
 *   12 request dump service         device, format, memory_size,
 *                                   compatibility, info
 *   14 memory dump data             address, data
 *   20 parameter load with transfer number, entries, transfer
 *   24 loop data                    receipt, data
 *   26 looped data                  receipt, data
 *
 * Data, info and entries may be empty: then data_length is 0, and data_at is
 * where they would begin. A code that has none of them has both 0. id_at is 5
 * for every code 8, also where it has no id and id_length is 0.
 */
typedef struct mop_fields {
    size_t data_at;        /* where data, info or entries begin in the frame */
    size_t data_length;    /* their bytes; entries are without the end mark */
    size_t id_at;          /* where the software id begins in the frame */
    size_t id_length;      /* its bytes: form if that is 1 to 16, else 0 */
    uint32_t address;      /* memory address */
    uint32_t transfer;     /* transfer address */
    uint32_t memory_size;  /* the machine's memory, in bytes */
    uint16_t count;        /* bytes asked for */
    uint16_t receipt;      /* receipt number of a loop test */
    uint8_t refusal;       /* 0, or 1 to 4, or 10: then no code, all else 0 */
    uint8_t code;          /* MOP_CODE_.., MOP_CODE_NONE if refused */
    uint8_t number;        /* number of the load */
    uint8_t error;         /* 0 for none */
    uint8_t device;        /* device type */
    uint8_t format;        /* format version */
    uint8_t program;       /* MOP_PROGRAM_.. */
    uint8_t form;          /* MOP_FORM_.., or 1 to 16, the id's length */
    uint8_t processor;     /* processor type */
    uint8_t compatibility; /* compatibility code */
} mop_fields;

/* Reads a frame.
 *   In     the version, which matters to code 20 alone; the frame's bytes,
 *          which are not changed.
 *   Out    its fields.
 *   Refuses, in this order: 10 for the version; 1 for an empty frame; 3 for its
 *          code; 1 for a frame under its code's least length; 2 for one above
 *          1,500 bytes or, for codes 1, 3, 4 and 10, above its only length;
 *          then its bytes in turn, 4 for one outside its list and 1 where the
 *          frame ends first; 2 for what is left over in a code 20.
 */
mop_fields mop_read(uint8_t version, const uint8_t *frame, size_t frame_length);

/* ---- Writing a frame ------------------------------------------------- */

/* What a writer or a step answers. */
typedef struct mop_written {
    size_t length;   /* bytes of the frame, which stands at the buffer's start;
                        0 for none */
    uint8_t refusal; /* 0, or a refusal and then the length is 0 */
} mop_written;

/* The writers. Each writes one frame.
 *   In     the fields in the frame's order, any values; lent bytes are not
 *          changed.
 *   Out    the frame at the start of out; the bytes behind it stay.
 *   Refuses, in this order: 10 (code 20 only, for its version); 4 (codes 8 and
 *          20 only, see there); 2 for a frame above 1,500 bytes; 9 for a frame
 *          longer than out. Then out stays as it was.
 */

/* Code 0, memory load with transfer: 10 bytes and the data. */
mop_written mop_write_load_transfer(uint8_t number, uint32_t address,
    const uint8_t *data, size_t data_length, uint32_t transfer, uint8_t *out,
    size_t out_length);

/* Code 2, memory load: 6 bytes and the data. */
mop_written mop_write_load(uint8_t number, uint32_t address,
    const uint8_t *data, size_t data_length, uint8_t *out, size_t out_length);

/* Code 8, request program: 6 bytes, the id and the info. Refuses with 4 a
 * program above 2, a form of 17 to 253, and an id that has not exactly the
 * length that the form says: form bytes for forms 1 to 16, none for 0, 254
 * and 255. */
mop_written mop_write_request_program(uint8_t device, uint8_t format,
    uint8_t program, uint8_t form, const uint8_t *id, size_t id_length,
    uint8_t processor, const uint8_t *info, size_t info_length, uint8_t *out,
    size_t out_length);

/* Code 10, request memory load: 3 bytes. */
mop_written mop_write_request_load(
    uint8_t number, uint8_t error, uint8_t *out, size_t out_length);

/* Code 4, request memory dump: 7 bytes. */
mop_written mop_write_request_dump(
    uint32_t address, uint16_t count, uint8_t *out, size_t out_length);

/* Code 12, request dump service: 8 bytes and the info. */
mop_written mop_write_request_dump_service(uint8_t device, uint8_t format,
    uint32_t memory_size, uint8_t compatibility, const uint8_t *info,
    size_t info_length, uint8_t *out, size_t out_length);

/* Code 14, memory dump data: 5 bytes and the data. */
mop_written mop_write_dump_data(uint32_t address, const uint8_t *data,
    size_t data_length, uint8_t *out, size_t out_length);

/* Code 1, dump complete: 1 byte. */
mop_written mop_write_dump_complete(uint8_t *out, size_t out_length);

/* Code 3, assistance volunteer: 1 byte. */
mop_written mop_write_volunteer(uint8_t *out, size_t out_length);

/* Code 20, parameter load with transfer: 7 bytes and the entries. These are
 * one string without the end mark: type, length and value of each, one after
 * the other. Refuses with 10 a version that is neither, then with 4 a string
 * that breaks an entry's rule under the version or ends within an entry. */
mop_written mop_write_parameters(uint8_t version, uint8_t number,
    const uint8_t *entries, size_t entries_length, uint32_t transfer,
    uint8_t *out, size_t out_length);

/* Code 24, loop data: 3 bytes and the data. */
mop_written mop_write_loop(uint16_t receipt, const uint8_t *data,
    size_t data_length, uint8_t *out, size_t out_length);

/* Code 26, looped data: 3 bytes and the data. */
mop_written mop_write_looped(uint16_t receipt, const uint8_t *data,
    size_t data_length, uint8_t *out, size_t out_length);

/* ---- The image file -------------------------------------------------- */

/* The image file: the bytes of the regions, then the directory, one entry for
 * each region, then the trailer, which points back. Numbers stand low byte
 * first.
 *
 *   from byte               bytes
 *   0                       any  the regions' bytes; some may be unused, and
 *                                regions may share some
 *   directory               12   the first region's entry
 *                                  4  address    of its first byte in memory
 *                                  4  offset     of its first byte in the file
 *                                  4  length     its bytes
 *   directory + 12          12   the second's, and so on
 *   directory + 12 x count  16   the trailer, which ends the file
 *                                  4  directory  where that begins in the file
 *                                  4  count      the entries, 1 to
 *                                                MOP_REGIONS_MOST
 *                                  4  transfer   where the program starts
 *                                  4  length     the bytes of the whole file
 *
 * One region of three bytes at address 2, which starts there:
 *
 *   0A 0B 0C                                  its bytes
 *   02 00 00 00  00 00 00 00  03 00 00 00     address 2, offset 0, length 3
 *   03 00 00 00  01 00 00 00                  directory 3, count 1
 *   02 00 00 00  1F 00 00 00                  transfer 2, length 31
 *
 * Refused are, in this order,
 *   5  a file under 16 or above 16,777,216 bytes; a length that is not the
 *      file's
 *   6  a count outside 1 to MOP_REGIONS_MOST; directory + 12 x count + 16 that
 *      is not the file's length
 *   7  an entry with length 0, with offset + length above directory, or with
 *      address + length above 4,294,967,296
 *   8  an entry whose address is below the address + length of the one before
 * Both of an entry come before those of the next. Any transfer passes. (The
 * count's upper half had to be 0 once, and the count at most 64. Such a file
 * reads as it did.)
 *
 * Segments: the regions in the directory's order, each cut into parts of
 * segment_size bytes, its last perhaps shorter. N is how many there are. They
 * are counted from 0, and the number of segment i in its frame is i modulo
 * 256. The last goes out as code 0, with the transfer address, the others as
 * code 2. In a load that ends with parameters all of them go out as code 2.
 */

/* An accepted image. */
typedef struct mop_image {
    uint64_t segments; /* N, how many of the given size there are */
    uint32_t transfer; /* transfer address */
    uint32_t regions;  /* how many regions it has */
    uint8_t refusal;   /* 0, or a refusal and then all else is 0 */
} mop_image;

/* Checks an image file.
 *   In     the file, which is not changed; segment_size, 1 to 1,490.
 *   Out    what it holds. The cost grows with the regions alone.
 *   Refuses, in this order: 10 for the segment size; 5; 6; then the directory
 *          entries in turn, 7 before 8.
 */
mop_image mop_image_check(
    const uint8_t *file, size_t file_length, uint32_t segment_size);

/* A segment of an image. */
typedef struct mop_segment {
    size_t at;        /* where its bytes begin in the file */
    size_t length;    /* how many it has, 1 to the segment size */
    uint32_t address; /* their memory address */
    uint8_t last;     /* 1 for the last segment, else 0 */
    uint8_t refusal;  /* 0, or a refusal and then all else is 0 */
} mop_segment;

/* Finds a segment of an image.
 *   In     the file, which is not changed; segment_size, 1 to 1,490; index,
 *          counted from 0.
 *   Out    where the segment is. The cost grows with the regions alone.
 *   Refuses, in this order: what mop_image_check refuses; 10 for an index at
 *          or above the number of segments.
 */
mop_segment mop_image_segment(const uint8_t *file, size_t file_length,
    uint32_t segment_size, uint64_t index);

/* ---- The machine end ------------------------------------------------- */

/* A ROM window: addresses that no load, and no parameter block, may touch. With
 * length 0 there is none, whatever start is; otherwise start + length is at
 * most 4,294,967,296. It may lie beyond memory or across its end. */
typedef struct mop_window {
    uint64_t start;  /* W, its first address */
    uint64_t length; /* V, how many bytes it has; 0 for no window */
} mop_window;

/* The machine's settings. */
typedef struct mop_machine_settings {
    uint32_t reply_bytes; /* D, the most bytes of a dump reply, 1 to 1,495 */
    uint8_t device;       /* device type in its own frames */
    uint8_t processor;    /* processor type in its own frames */
    uint8_t version;      /* MOP_VERSION_.. */
    mop_window window;    /* its ROM window */
} mop_machine_settings;

/* A name, an address or a time that the machine keeps: as many bytes as length
 * says; those behind them are 0. */
typedef struct mop_value {
    uint8_t length;                /* 0 for none */
    uint8_t bytes[MOP_VALUE_MOST]; /* its bytes, then zeros */
} mop_value;

/* What the machine keeps of the code 20 that started it: of each entry type the
 * last value, and length 0 for a type that was absent. All 0 before.
 *
 * Under version 2.1 a machine stores node number and names in its memory too,
 * in the parameter block: 14 bytes from top - 64 on, where top is the first
 * even address beyond memory, the memory's length or, if that is odd, one more.
 *
 *   from top  bytes
 *   - 64      2     the target address, then zeros
 *   - 62      6     the target name, then spaces
 *   - 56      6     the host name, then spaces
 *
 * Of a name that is absent or empty the first two bytes become 0 and the other
 * four stay. Host address and host time have no place in the block. */
typedef struct mop_parameters {
    mop_value target_name;    /* at most 16 bytes */
    mop_value target_address; /* at most 6 bytes */
    mop_value host_name;      /* at most 16 bytes */
    mop_value host_address;   /* at most 6 bytes */
    mop_value host_time;      /* 0 or 10 bytes */
} mop_parameters;

/* The machine's record. A number that the state does not use is not looked at;
 * on entering a state such numbers become 0. The parameters stay whatever the
 * state, until a code 20 is taken. Two calls below start a machine that wants a
 * load or a dump. One that wants neither is Idle, all 0, and needs no call:
 *
 *     mop_machine machine = {.state = MOP_MACHINE_IDLE};
 */
typedef struct mop_machine {
    uint32_t transfer;         /* Started: the transfer address */
    uint8_t state;             /* MOP_MACHINE_.. */
    uint8_t expected;          /* Loading: the number of the next load */
    uint8_t error;             /* Loading: the error of the last reply */
    mop_parameters parameters; /* what a code 20 gave it */
} mop_machine;

/* What a step of the machine answers. */
typedef struct mop_machine_step {
    mop_machine machine; /* the next record */
    mop_written answer;  /* the frame to send, which stands in reply */
} mop_machine_step;

/* In each of the four calls below:
 *   In     memory, address 0 first, at most 16,777,216 bytes, and at least 64
 *          under version 2.1; a reply buffer of at least 1,500 bytes.
 *   Out    the next record, and the length of the frame to send, 0 for none;
 *          that frame at the start of reply, the bytes behind it as they were.
 *   Refuses, in this order: 10 for reply_bytes, the version, a memory that is
 *          too long, a window that ends above 4,294,967,296 or a state above 4;
 *          11 for version 2.1 on a memory of under 64 bytes; 9 for the reply
 *          buffer; on a frame, 1 to 4 as mop_read does under the settings'
 *          version. Then the record is answered as it came, and memory and
 *          reply stay as they were.
 */

/* Starts a load: the record is Requesting, the frame a code 8 for an operating
 * system. If refused, the record is Requesting too, and there is no frame. Of
 * memory only the length matters. */
mop_machine_step mop_machine_start_load(mop_machine_settings settings,
    const uint8_t *memory, size_t memory_length, uint8_t *reply,
    size_t reply_length);

/* Starts a dump: the record is Offering, the frame a code 12 with the memory's
 * length. If refused, the record is Offering too, and there is no frame. Of
 * memory only the length matters. */
mop_machine_step mop_machine_start_dump(mop_machine_settings settings,
    const uint8_t *memory, size_t memory_length, uint8_t *reply,
    size_t reply_length);

/* A frame has come.
 *   Codes 0 and 2, a load, and 20, parameters, in Idle, Requesting and Loading:
 *   taken with number 0, always and anew, and in Loading with the expected
 *   number. A load fits if its address + its data's length is at most the
 *   memory's length, and no byte of its data would go into the ROM window; a
 *   load without data touches no window. If it fits, the data goes into memory,
 *   and code 10 answers with the number after it (after 255 comes 0) and error
 *   0; if not, all of memory stays, and the error is 1. So no frame ever
 *   changes a byte of the window. Then the state is Loading or, after a code 0
 *   that fits, Started. A code 20 that is taken fits under 3.0.0 always, and
 *   under 2.1 if none of the 14 bytes of the parameter block is in the window.
 *   If it fits, it is answered with error 0, the record keeps the entries'
 *   values, and the state is Started; under 3.0.0 memory stays, under 2.1 the
 *   block is laid over it. If not, nothing is written or kept, the error is 1,
 *   and the state is Loading. To the number before the expected one, unless
 *   that is 0, Loading gives its last reply again, its error included.
 *   Code 4, in Idle and Offering: answered with code 14, the address asked for
 *   and the lesser of count and D bytes from there on, 0 beyond memory's end;
 *   the window is read like the rest.
 *   Code 1, in Offering: the state becomes Idle.
 *   Code 24, in Idle: answered with the same receipt and data as code 26.
 *   All else is ignored. */
mop_machine_step mop_machine_frame(mop_machine_settings settings,
    mop_machine machine, const uint8_t *frame, size_t frame_length,
    uint8_t *memory, size_t memory_length, uint8_t *reply, size_t reply_length);

/* The timer has run out. Requesting and Offering send their first frame
 * again; other states do nothing. The record stays. Of memory only the length
 * matters. */
mop_machine_step mop_machine_timer(mop_machine_settings settings,
    mop_machine machine, const uint8_t *memory, size_t memory_length,
    uint8_t *reply, size_t reply_length);

/* ---- The host's load ------------------------------------------------- */

/* The load's frames. Without parameters there are n = N, one for each segment:
 * code 2, and code 0 for the last. With a parameter string, perhaps an empty
 * one, there are n = N + 1: every segment goes out as code 2, and a code 20
 * follows, numbered N modulo 256, with the string as its entries and the
 * image's transfer address. The machine keeps their values, under version 2.1
 * stores them in its memory too, and starts.
 *
 * The string is entries of the settings' version without the end mark, as
 * mop_write_parameters takes them, and has at most 1,493 bytes. It is judged in
 * every call. To try one before the first call, write it: with the settings'
 * version and a buffer of 1,500 bytes mop_write_parameters refuses what a
 * load's step refuses of the string, and nothing else.
 *
 * A machine that is reset half-way asks for a program again. Without the
 * restart setting that request is ignored: at a position above 0 the load ends
 * with verdict 3 or 4, or, if it has over 256 frames, perhaps with one that is
 * not true of the machine, which takes any number 0 for the first. With the
 * setting the load begins again with its first frame, and what the verdicts say
 * counts from the reset on: they say it of the memory that the reset left. While
 * the host has not heard of the reset, neither by the request nor because it
 * waited or stood at its first frame anyway, the machine is not started, and its
 * memory is as the reset left it. All this is so where a reset also empties the
 * line of the frames that were on their way. */

/* A load's settings.
 *
 * A larger R changes only a load that would otherwise be given up or end
 * unconfirmed. From a fresh record, with the same image, parameters, frames,
 * timers and reply buffers, every call before that is refused with both, or
 * leaves the same record and returns the same frame with both. */
typedef struct mop_load_settings {
    uint32_t segment_size;   /* S, the bytes of a segment, 1 to 1,490 */
    uint32_t repeats;        /* R, the repeats allowed per frame, 0 to 255 */
    uint8_t with_parameters; /* 1 if the load ends with parameters, else 0 */
    uint8_t version;         /* MOP_VERSION_.. */
    uint8_t restart; /* 1 if the load begins again when the machine asks again
                        half-way, because it was reset; else 0. With 1 a load
                        has at most 256 frames, and so at most 256 regions */
} mop_load_settings;

/* What the frames came to that a load or a dump was handed: how noisy the line
 * was. Each frame that can be read and is handed to a step while the verdict is
 * 0 raises one of these by 1, the first that applies. No timer, no refused call
 * and no frame after the verdict raises any. A step takes each of them up to
 * 2^64 - 2. */
typedef struct mop_counts {
    uint64_t starts;     /* it ended the waiting, or began a load again: 0 while
                            waiting, then 1 and one for each restart */
    uint64_t advances;   /* it moved the session on: a load's position, or a
                            dump's filled, rose; the finishing frame too */
    uint64_t ignored;    /* it moved nothing: late, doubled, or of no use */
    uint64_t rejections; /* it rejected the load, 0 or 1; of a dump 0 */
} mop_counts;

/* A load's record. */
typedef struct mop_load {
    uint64_t position; /* c, the frames that the machine has answered, since
                          the load last began again if it did */
    uint64_t sent;     /* the frames sent, at most
                          (restarts + 1) x n x (R + 1) */
    mop_counts counts; /* what the frames that it was handed came to */
    uint32_t repeats;  /* the repeats of the frame on its way, at most R */
    uint32_t restarts; /* how often the load began again, at most 65,535;
                          without the restart setting 0 */
    uint8_t waiting;   /* 1 until a machine asks for a program, then 0 */
    uint8_t verdict;   /* MOP_LOAD_.. */
} mop_load;

/* What a step of a load answers. */
typedef struct mop_load_step {
    mop_load session;   /* the next record */
    mop_written answer; /* the frame to send, which stands in reply */
} mop_load_step;

/* The record of a load that waits for a machine's request: waiting 1, all else
 * 0. Refuses nothing. */
mop_load mop_load_start(void);

/* In each of the four calls below:
 *   In     the image file and the parameter string, which are not changed and
 *          stay the same over a load (with_parameters 0: the string is not
 *          looked at; NULL and 0 will do); a reply buffer of at least 1,500
 *          bytes.
 *   Out    the next record, and the length of the frame to send, 0 for none;
 *          that frame at the start of reply, the bytes behind it as they were.
 *   Costs  at most one walk over the directory, some 0.1 ms for the most regions
 *          (docs/BENCHMARKS.md), and what the frame costs.
 *   Refuses, in this order:
 *          10 for a setting, for a record with a verdict above 4, repeats
 *             above the settings', waiting above 1, restarts above 65,535 or,
 *             without the restart setting, above 0, or one of the four counts
 *             at 2^64 - 1, and for one that waits and has another number, but
 *             for counts.ignored, that is not 0;
 *          9 for the reply buffer;
 *          5, 6, 7 and 8 as mop_image_check does;
 *          12 for the restart setting and an n above 256;
 *          10 for a position above n, for sent above
 *             (restarts + 1) x n x (R + 1), and for the verdict 1 at a position
 *             other than n, or another one at n;
 *          4 for a string that is not whole entries of the version's list, then
 *             2 for one above 1,493 bytes;
 *          1 to 4 for the frame as mop_read does under the settings' version.
 *          Then the record is answered as it came, and reply stays as it was.
 */

/* A frame has come. Code 8 for an operating system (program type 2) ends the
 * waiting, and the first frame goes out. Code 10 with the number (c + 1)
 * modulo 256 answers the frame on its way: with error 0 the next one goes
 * out, or, after the last, the load is finished; with another error it is
 * rejected. With the restart setting, code 8 for an operating system at a
 * position above 0, after fewer than 65,535 restarts, begins the load again:
 * the first frame goes out, position and repeats are 0, and restarts and
 * counts.starts rise by 1. All else is ignored. */
mop_load_step mop_load_frame(mop_load_settings settings, mop_load session,
    const uint8_t *file, size_t file_length, const uint8_t *parameters,
    size_t parameters_length, const uint8_t *frame, size_t frame_length,
    uint8_t *reply, size_t reply_length);

/* The timer has run out. The frame on its way goes out again if fewer than R
 * repeats are used, else the load is given up or, at its last frame,
 * unconfirmed. While it waits, nothing happens. */
mop_load_step mop_load_timer(mop_load_settings settings, mop_load session,
    const uint8_t *file, size_t file_length, const uint8_t *parameters,
    size_t parameters_length, uint8_t *reply, size_t reply_length);

/* The same two steps, and the record is updated where it stands. session points
 * to a record that overlaps nothing else that is lent. If refused, it stays as
 * it was. */
mop_written mop_load_update_frame(mop_load_settings settings, mop_load *session,
    const uint8_t *file, size_t file_length, const uint8_t *parameters,
    size_t parameters_length, const uint8_t *frame, size_t frame_length,
    uint8_t *reply, size_t reply_length);
mop_written mop_load_update_timer(mop_load_settings settings, mop_load *session,
    const uint8_t *file, size_t file_length, const uint8_t *parameters,
    size_t parameters_length, uint8_t *reply, size_t reply_length);

/* ---- The host's dump ------------------------------------------------- */

/* A dump's settings. A larger R changes only a dump that would otherwise be
 * given up, as with a load. */
typedef struct mop_dump_settings {
    uint64_t length;        /* L, the bytes to dump, at least 1 */
    uint32_t address;       /* A, where they begin; A + L is at most
                               4,294,967,296 */
    uint32_t request_bytes; /* C, the most bytes asked for at a time, 1 to
                               1,495 */
    uint32_t repeats;       /* R, the repeats allowed per frame, 0 to 255 */
    uint8_t version;        /* MOP_VERSION_.. */
} mop_dump_settings;

/* A dump's record. */
typedef struct mop_dump {
    uint64_t filled;  /* the bytes that stand in the buffer, at most L */
    uint64_t replies; /* the replies taken, at most filled */
    uint64_t sent;    /* the frames sent, at most (replies + 1) x (R + 1) + 1 */
    mop_counts counts; /* what the frames that it was handed came to */
    uint32_t repeats;  /* the repeats of the frame on its way, at most R */
    uint8_t waiting;   /* 1 until a machine offers a dump, then 0 */
    uint8_t verdict;   /* MOP_DUMP_.. */
} mop_dump;

/* What a step of a dump answers. */
typedef struct mop_dump_step {
    mop_dump session;   /* the next record */
    mop_written answer; /* the frame to send, which stands in reply */
} mop_dump_step;

/* The record of a dump that waits for a machine's offer: waiting 1, all else
 * 0. Refuses nothing. */
mop_dump mop_dump_start(void);

/* In each of the four calls below:
 *   In     a dump buffer of exactly the settings' length, which the caller
 *          leaves alone over a dump; a reply buffer of at least 1,500 bytes.
 *   Out    the next record, and the length of the frame to send, 0 for none;
 *          that frame at the start of reply, the bytes behind it as they were.
 *   Refuses, in this order:
 *          10 for a setting or the dump buffer's length, for a record with a
 *             verdict above 3, repeats above the settings', filled above the
 *             length, replies above filled, sent above its bound, waiting
 *             above 1, or one of the four counts at 2^64 - 1, for one that
 *             waits and has another number, but for counts.ignored, that is
 *             not 0, and for the verdict 1 before the buffer is full, or
 *             another one when it is;
 *          9 for the reply buffer;
 *          1 to 4 for the frame as mop_read does under the settings' version.
 *          Then the record is answered as it came, and both buffers stay as
 *          they were.
 */

/* A frame has come. Code 12 ends the waiting, and code 4 asks for the first
 * bytes. Code 14 with the address asked for and 1 to as many bytes as asked
 * for goes into the buffer behind the bytes filled, and the rest of the buffer
 * stays; then code 4 asks for the next, or, the buffer being full, code 1 ends
 * the dump. All else is ignored. */
mop_dump_step mop_dump_frame(mop_dump_settings settings, mop_dump session,
    const uint8_t *frame, size_t frame_length, uint8_t *buffer,
    size_t buffer_length, uint8_t *reply, size_t reply_length);

/* The timer has run out. The frame on its way goes out again if fewer than R
 * repeats are used, else code 1 goes out and the dump is given up. While it
 * waits, nothing happens. The buffer stays, and only its length matters. */
mop_dump_step mop_dump_timer(mop_dump_settings settings, mop_dump session,
    const uint8_t *buffer, size_t buffer_length, uint8_t *reply,
    size_t reply_length);

/* The same two steps, and the record is updated where it stands. session points
 * to a record that overlaps nothing else that is lent. If refused, it stays as
 * it was. */
mop_written mop_dump_update_frame(mop_dump_settings settings, mop_dump *session,
    const uint8_t *frame, size_t frame_length, uint8_t *buffer,
    size_t buffer_length, uint8_t *reply, size_t reply_length);
mop_written mop_dump_update_timer(mop_dump_settings settings, mop_dump *session,
    const uint8_t *buffer, size_t buffer_length, uint8_t *reply,
    size_t reply_length);

/* ---- The host's loop test -------------------------------------------- */

/* A loop test's settings. */
typedef struct mop_loop_settings {
    uint32_t repeats; /* R, the repeats allowed, 0 to 255 */
    uint16_t receipt; /* the receipt number that its frame carries */
    uint8_t version;  /* MOP_VERSION_.. */
} mop_loop_settings;

/* A loop test's record. */
typedef struct mop_loop {
    uint64_t sent;    /* the frames sent, at most R + 1 */
    uint32_t repeats; /* the repeats used, at most R */
    uint8_t verdict;  /* MOP_LOOP_.. */
} mop_loop;

/* What a step of a loop test answers. */
typedef struct mop_loop_step {
    mop_loop session;   /* the next record */
    mop_written answer; /* the frame to send, which stands in reply */
} mop_loop_step;

/* In each of the three calls below:
 *   In     the data, at most 1,497 bytes, which is not changed and stays the
 *          same over a test; a reply buffer of at least 1,500 bytes.
 *   Out    the next record, and the length of the frame to send, 0 for none;
 *          that frame at the start of reply, the bytes behind it as they were.
 *   Refuses, in this order: 10 for a setting or the data's length, and for a
 *          record with a verdict above 3, repeats above the settings', or sent
 *          above R + 1; 9 for the reply buffer; on a frame, 1 to 4 as mop_read
 *          does under the settings' version. Then the record is answered as it
 *          came, and reply stays as it was.
 */

/* Starts a test: the record has sent 1 and all else 0, and code 24 goes out.
 * If refused, the record is that one too, and there is no frame. */
mop_loop_step mop_loop_start(mop_loop_settings settings, const uint8_t *data,
    size_t data_length, uint8_t *reply, size_t reply_length);

/* A frame has come. Code 26 or 24 with the test's receipt and data ends it;
 * all else is ignored. Nothing is sent, so reply is not written; it is lent
 * for the same refusals as in the other steps. */
mop_loop_step mop_loop_frame(mop_loop_settings settings, mop_loop session,
    const uint8_t *data, size_t data_length, const uint8_t *frame,
    size_t frame_length, const uint8_t *reply, size_t reply_length);

/* The timer has run out. The frame goes out again if fewer than R repeats are
 * used, else the test is given up. */
mop_loop_step mop_loop_timer(mop_loop_settings settings, mop_loop session,
    const uint8_t *data, size_t data_length, uint8_t *reply,
    size_t reply_length);

#ifdef __cplusplus
}
#endif

#endif
