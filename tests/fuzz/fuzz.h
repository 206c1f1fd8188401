/* fuzz.h: what the kinds of inputs share. Each kind makes one input at a time, hands it to the driver's own functions and
 * requires what must hold of the outcome; the sanitizers watch. */
#ifndef FUZZ_H
#define FUZZ_H

#include <stdbool.h>
#include <stddef.h>
#include <stdint.h>

#include "files.h"
#include "line.h"
#include "pieces.h"
#include "slow.h"

/* One input of each kind: whether it was accepted. */
bool fuzz_srec(void);
bool fuzz_ihex(void);
bool fuzz_lda(void);
bool fuzz_image(void);
bool fuzz_many(void);
bool fuzz_raw(void);
bool fuzz_heard(void);
bool fuzz_load(void);
bool fuzz_dump(void);
bool fuzz_machine(void);
bool fuzz_name(void);
bool fuzz_address(void);
bool fuzz_time(void);
bool fuzz_trace(void);
bool fuzz_interface(void);
bool fuzz_record(void);
bool fuzz_transcript(void);
bool fuzz_capture(void);

/* Ends the run, with the kind and number of the input and its bytes. */
_Noreturn void failed(const char *what);

static inline void require(bool holds, const char *what)
{
    if (!holds)
        failed(what);
}

/* What the driver said last, on its way to standard error. */
#define SAID_MOST 512
extern char said[SAID_MOST];

/* Numbers that depend on the seed, the kind and the number of the input alone. */
uint32_t below(uint32_t n);
bool one_in(uint32_t n);
uint32_t any_number(void); /* of 32 bits, often near a bound */

/* The input. */
#define SAMPLE_MOST 16384
typedef struct sample {
    uint8_t bytes[SAMPLE_MOST];
    size_t length;
} sample;

extern sample input;
void put_byte(uint8_t byte);
void put_bytes(const void *bytes, size_t length);
void put_low_first(uint32_t value, size_t length);

/* The version of a session: now and then one that is none. */
uint8_t any_version(void);
bool is_version(uint8_t version);

/* A parameter string of at most so many bytes that is good under the version: its length. */
size_t any_entries(uint8_t version, uint8_t *to, size_t most);

/* Changes, adds, removes or doubles a few bytes. New ones are of the letters, if there are any. */
void mutate(const char *letters);

/* A copy that ends where its memory ends, so that a step beyond is seen. The caller frees bytes. */
contents exact(void);

/* What must hold of the pieces of a file and of the image made of them: whether one is made. */
bool pieces_check(pieces *p, const slow *want);

/* What must hold of an image file, good or bad: whether it is accepted. */
bool image_check(const contents *file);

/* ---- The line, without an interface ---------------------------------- */

extern const uint8_t OWN[ADDRESS_LENGTH]; /* of the end under test */
extern const uint8_t PEER[ADDRESS_LENGTH];
extern const uint8_t STRANGER[ADDRESS_LENGTH];

/* A line whose frames come back from sent_next. */
void line_make(line *l);

/* The raw bytes of the input as the line takes them. */
bool line_cut(const line *l, const contents *raw, line_frame *frame);

/* Makes a raw frame of a message the input, mostly from the peer to this end, now and then mutated. */
void raw_frame(const uint8_t *message, size_t length);

/* The next frame that was sent, which is well formed and a message that can be read; false if there is none. */
typedef struct sent_frame {
    uint8_t to[ADDRESS_LENGTH];
    uint8_t code;
} sent_frame;
bool sent_next(sent_frame *sent);

#endif
