/*
 * libflexray: a FlexRay cluster as calls of C and C++. Each call answers as the program `flexray` answers these words, with
 * files that are bytes of the caller. docs/LIBRARY.md says what is proved of a call, what is owed by who calls, and what is
 * trusted; docs/FORMATS.md has each file, text, line and status.
 *
 * Units. Times are in ticks, a millionth of a microtick, as the program prints them. Lengths and rooms are in bytes.
 *
 * Files. A file is a pointer and a number of bytes: what would stand in the file. One of more than 16,777,216 bytes is answered
 * FLEXRAY_TOO_LONG. Nothing is read from a disk, and nothing is written to one.
 *
 * Texts. A call has a text, which the program writes to standard output, and the line of a failure, which it writes to standard
 * error; both are bytes of ASCII without a 0 at the end. Each is copied to the front of its place where it fits, whole, and
 * else nothing of it is copied; behind a text its place stays as it was. `texts` then has the whole length of both, whether
 * they fit or not, as snprintf tells: where a length is above the room, call again with that room. A place of no bytes is fine.
 * Only FLEXRAY_DONE has a text, and every other status has a line, but for a want of memory that left none.
 *
 * What is owed. Pointers are valid for their lengths and not null (where a length is 0, null is fine; `texts`, `frame`,
 * `length` and `count` are never null); what is written to (places, texts, frame, length, count) overlaps nothing else that is
 * passed, and no other thread uses it meanwhile; 640 KiB of stack are free; malloc, realloc and free are those of one
 * allocator and align blocks as C says; no call is made from a signal handler or in the child of a fork from a process with
 * threads. Everything else is answered: all bytes, words and numbers, want of memory too. No call ends the process, waits, or
 * keeps anything behind its end.
 *
 * Threads. Calls share nothing: any number of threads may call at once, each with places of its own; files may be shared.
 */
#ifndef FLEXRAY_H
#define FLEXRAY_H

#include <stddef.h>
#include <stdint.h>
#ifndef FLEXRAY_NO_INLINE
#include <stdio.h>
#endif

#ifdef __cplusplus
extern "C" {
#endif

/* How a call ended: the exit status of the program. FLEXRAY_READ_FAULT comes of a word that names a file and is none of first,
   second and third; FLEXRAY_WRITE_FAULT never comes. */
enum flexray_status {
    FLEXRAY_DONE = 0,        /* the text is whole */
    FLEXRAY_NO = 1,          /* the bytes are no frame, or the trace is not that of a lawful and covered run */
    FLEXRAY_USAGE = 2,       /* the words are no request, or no UTF-8 */
    FLEXRAY_READ_FAULT = 3,  /* there is no file of this name */
    FLEXRAY_WRITE_FAULT = 4, /* the text could not be written */
    FLEXRAY_REFUSED = 5,     /* a file does not keep to its rules */
    FLEXRAY_NO_MEMORY = 6,   /* memory ran out; both texts may be empty */
    FLEXRAY_TOO_LONG = 7     /* a file is longer than a file may be */
};

/* The whole lengths of both texts, in bytes, whether they fit their places or not. */
typedef struct {
    size_t out_length; /* of the text */
    size_t err_length; /* of the line of a failure */
} flexray_texts;

/* 10,000 times the major version, 100 times the minor one, and the patch: 200 is 0.2.0. */
uint32_t flexray_version(void);

/* What `flexray` answers to these words: one to a line, UTF-8, as behind the program's name; a line feed behind the last is
   not needed. In them the three files are called first, second and third, as in "settle\nfirst\n1000\n1000". A file that no
   word names is not looked at, and may have length 0. */
uint32_t flexray_request(const uint8_t *words, size_t words_length,
                         const uint8_t *first, size_t first_length,
                         const uint8_t *second, size_t second_length,
                         const uint8_t *third, size_t third_length,
                         uint8_t *out, size_t out_room, uint8_t *err, size_t err_room, flexray_texts *texts);

/* The same of `flexray-series`, as in "first\nsecond\nthird\nsharp". */
uint32_t flexray_series_request(const uint8_t *words, size_t words_length,
                                const uint8_t *first, size_t first_length,
                                const uint8_t *second, size_t second_length,
                                const uint8_t *third, size_t third_length,
                                uint8_t *out, size_t out_room, uint8_t *err, size_t err_room, flexray_texts *texts);

/* `flexray bound PARAMS`: the bounds and checks of a cluster. */
uint32_t flexray_bound(const uint8_t *params, size_t params_length,
                       uint8_t *out, size_t out_room, uint8_t *err, size_t err_room, flexray_texts *texts);

/* `flexray run PARAMS DRIFT SCRIPT`: the report of a run. */
uint32_t flexray_run(const uint8_t *params, size_t params_length,
                     const uint8_t *drift, size_t drift_length,
                     const uint8_t *script, size_t script_length,
                     uint8_t *out, size_t out_room, uint8_t *err, size_t err_room, flexray_texts *texts);

/* `flexray-series PARAMS DRIFT SCRIPT`: the greatest skew of each cycle, and since first in sync. */
uint32_t flexray_series(const uint8_t *params, size_t params_length,
                        const uint8_t *drift, size_t drift_length,
                        const uint8_t *script, size_t script_length,
                        uint8_t *out, size_t out_room, uint8_t *err, size_t err_room, flexray_texts *texts);

/* A channel. Every other number is none. */
enum flexray_channel { FLEXRAY_A = 0, FLEXRAY_B = 1 };

/* Why bytes are no frame: of several causes the first of 1 to 6. Why none is written: the first of 8, 9, 10, 6, 11 in this
   order. 7 comes before all others. */
enum flexray_fault {
    FLEXRAY_NO_FAULT = 0,         /* it is a frame, or one was written */
    FLEXRAY_SHORT = 1,            /* fewer than 8 bytes */
    FLEXRAY_HEADER_CRC = 2,       /* another header CRC than that of the header */
    FLEXRAY_LENGTH = 3,           /* another number of bytes than the header states */
    FLEXRAY_FRAME_CRC = 4,        /* another frame CRC than that of the bytes before it */
    FLEXRAY_ZERO_ID = 5,          /* the frame ID is 0 */
    FLEXRAY_STARTUP_NOT_SYNC = 6, /* a startup frame that is no sync frame */
    FLEXRAY_NO_CHANNEL = 7,       /* the channel is neither FLEXRAY_A nor FLEXRAY_B */
    FLEXRAY_BAD_ID = 8,           /* to be written: the frame ID is 0 or above 2047 */
    FLEXRAY_BAD_CYCLE = 9,        /* to be written: the cycle count is above 63 */
    FLEXRAY_BAD_PAYLOAD = 10,     /* to be written: more than 127 words, or not two bytes of payload for each word */
    FLEXRAY_ROOM = 11             /* to be written: the frame does not fit its place */
};

/* A frame without its payload. Indicators are 0 or 1 where they are told; where they are given, 0 is clear and every other
   number is set. */
typedef struct {
    uint32_t frame_crc;  /* of 24 bits; not looked at by flexray_frame_encode */
    uint16_t header_crc; /* of 11 bits; not looked at by flexray_frame_encode */
    uint16_t id;         /* the frame ID, 1 to 2047 */
    uint8_t words;       /* the payload length in two-byte words, 0 to 127 */
    uint8_t cycle;       /* the cycle count, 0 to 63 */
    uint8_t reserved;    /* the reserved bit */
    uint8_t preamble;    /* the payload preamble indicator */
    uint8_t null_bit;    /* the null frame indicator: set where the payload is valid */
    uint8_t sync;        /* the sync frame indicator */
    uint8_t startup;     /* the startup frame indicator */
} flexray_frame;

/* Reads the frame that the bytes are on the channel, all of them, and answers FLEXRAY_NO_FAULT; its payload is the 2 * words
   bytes from byte 5 on. Else it answers the first fault, and the frame stays as it was. It takes no memory. */
uint32_t flexray_frame_decode(uint32_t channel, const uint8_t *bytes, size_t length, flexray_frame *frame);

/* Reads the frame that begins the bytes on the channel, whatever stands behind it, and answers FLEXRAY_NO_FAULT; `count` is then the
   number of its bytes, and its payload the 2 * words bytes from byte 5 on. So a recording is read in pieces: keep what is left,
   and put the next piece behind it. FLEXRAY_SHORT says that the bytes end before the frame does, and `count` how many are to be
   there before more can be said. With every other fault no bytes behind mend it, and `count` is 0. The frame stays as it was but
   with FLEXRAY_NO_FAULT. It takes no memory. */
uint32_t flexray_frame_next(uint32_t channel, const uint8_t *bytes, size_t length, flexray_frame *frame, size_t *count);

/* Writes the frame of this header and payload on the channel to the front of its place, and answers FLEXRAY_NO_FAULT; `length`
   is then the number of its bytes, 8 more than the payload has. Else it answers the first fault, the place stays as it was, and
   `length` is 0, or with FLEXRAY_ROOM the number of bytes that are needed. It takes no memory. */
uint32_t flexray_frame_encode(uint32_t channel, const flexray_frame *frame, const uint8_t *payload, size_t payload_length,
                              uint8_t *out, size_t out_room, size_t *length);

#ifndef FLEXRAY_NO_INLINE

/* Words that have numbers in them, and the calls with these words. */
#define FLEXRAY_INLINE_WORDS(...)                                                                                              \
    char words[160];                                                                                                           \
    int words_length = snprintf(words, sizeof words, __VA_ARGS__);                                                             \
    const uint8_t none = 0

#define FLEXRAY_INLINE_REQUEST(answers, first, first_length, second, second_length, third, third_length)                       \
    answers((const uint8_t *)words, (size_t)words_length, first, first_length, second, second_length, third, third_length,     \
            out, out_room, err, err_room, texts)

/* Written by tools/commands from tools/commands.toml: */

/* `flexray bound PARAMS join`: the classical bounds, and the reach and four checks of a cluster that nodes join. */
static inline uint32_t flexray_bound_join(const uint8_t *params, size_t params_length, uint8_t *out, size_t out_room,
                                          uint8_t *err, size_t err_room, flexray_texts *texts) {
    FLEXRAY_INLINE_WORDS("bound\nfirst\njoin");
    return FLEXRAY_INLINE_REQUEST(flexray_request, params, params_length, &none, 0, &none, 0);
}

/* `flexray bound PARAMS sharp FLUTTER`: the sharper bounds and checks, where delays flutter by at most so many ticks; FLUTTER
   is 0 to 20,000,000. */
static inline uint32_t flexray_bound_sharp(const uint8_t *params, size_t params_length, uint64_t flutter,
                                           uint8_t *out, size_t out_room, uint8_t *err, size_t err_room,
                                           flexray_texts *texts) {
    FLEXRAY_INLINE_WORDS("bound\nfirst\nsharp\n%llu", (unsigned long long)flutter);
    return FLEXRAY_INLINE_REQUEST(flexray_request, params, params_length, &none, 0, &none, 0);
}

/* `flexray bound PARAMS sharp FLUTTER join`: the sharper bounds, and the reach and checks of a cluster that nodes join;
   FLUTTER is 0 to 20,000,000. */
static inline uint32_t flexray_bound_sharp_join(const uint8_t *params, size_t params_length, uint64_t flutter,
                                                uint8_t *out, size_t out_room, uint8_t *err, size_t err_room,
                                                flexray_texts *texts) {
    FLEXRAY_INLINE_WORDS("bound\nfirst\nsharp\n%llu\njoin", (unsigned long long)flutter);
    return FLEXRAY_INLINE_REQUEST(flexray_request, params, params_length, &none, 0, &none, 0);
}

/* `flexray bound PARAMS sharp FLUTTER lost COUNT`: how far clocks come apart if any frames are lost in COUNT double cycles in
   a row; FLUTTER is 0 to 20,000,000; COUNT is 1 to 1,000. */
static inline uint32_t flexray_bound_lost(const uint8_t *params, size_t params_length, uint64_t flutter, uint32_t count,
                                          uint8_t *out, size_t out_room, uint8_t *err, size_t err_room, flexray_texts *texts) {
    FLEXRAY_INLINE_WORDS("bound\nfirst\nsharp\n%llu\nlost\n%llu", (unsigned long long)flutter, (unsigned long long)count);
    return FLEXRAY_INLINE_REQUEST(flexray_request, params, params_length, &none, 0, &none, 0);
}

/* `flexray upgrade PARAMS`: the parameters as a file of version 2: one compensation per channel. */
static inline uint32_t flexray_upgrade(const uint8_t *params, size_t params_length, uint8_t *out, size_t out_room,
                                       uint8_t *err, size_t err_room, flexray_texts *texts) {
    FLEXRAY_INLINE_WORDS("upgrade\nfirst");
    return FLEXRAY_INLINE_REQUEST(flexray_request, params, params_length, &none, 0, &none, 0);
}

/* `flexray settle PARAMS START RATE`: how many double cycles until in sync at most, from START and RATE in ticks; START is 0
   to 1,000,000,000,000; RATE is 0 to 1,000,000,000,000. */
static inline uint32_t flexray_settle(const uint8_t *params, size_t params_length, uint64_t start, uint64_t rate,
                                      uint8_t *out, size_t out_room, uint8_t *err, size_t err_room, flexray_texts *texts) {
    FLEXRAY_INLINE_WORDS("settle\nfirst\n%llu\n%llu", (unsigned long long)start, (unsigned long long)rate);
    return FLEXRAY_INLINE_REQUEST(flexray_request, params, params_length, &none, 0, &none, 0);
}

/* `flexray settle PARAMS START RATE sharp FLUTTER`: how many double cycles it takes at most to be in sharp sync; START is 0 to
   1,000,000,000,000; RATE is 0 to 1,000,000,000,000; FLUTTER is 0 to 20,000,000. */
static inline uint32_t flexray_settle_sharp(const uint8_t *params, size_t params_length, uint64_t start, uint64_t rate,
                                            uint64_t flutter, uint8_t *out, size_t out_room, uint8_t *err, size_t err_room,
                                            flexray_texts *texts) {
    FLEXRAY_INLINE_WORDS("settle\nfirst\n%llu\n%llu\nsharp\n%llu", (unsigned long long)start, (unsigned long long)rate,
                         (unsigned long long)flutter);
    return FLEXRAY_INLINE_REQUEST(flexray_request, params, params_length, &none, 0, &none, 0);
}

/* `flexray settle PARAMS power FLUTTER`: how long from the first power-on to sharp sync, if all others join the leader;
   FLUTTER is 0 to 20,000,000. */
static inline uint32_t flexray_settle_power(const uint8_t *params, size_t params_length, uint64_t flutter,
                                            uint8_t *out, size_t out_room, uint8_t *err, size_t err_room,
                                            flexray_texts *texts) {
    FLEXRAY_INLINE_WORDS("settle\nfirst\npower\n%llu", (unsigned long long)flutter);
    return FLEXRAY_INLINE_REQUEST(flexray_request, params, params_length, &none, 0, &none, 0);
}

/* `flexray run PARAMS DRIFT SCRIPT sharp`: what the sharper bounds say of a run, and behind it the report. */
static inline uint32_t flexray_run_sharp(const uint8_t *params, size_t params_length,
                                         const uint8_t *drift, size_t drift_length,
                                         const uint8_t *script, size_t script_length, uint8_t *out, size_t out_room,
                                         uint8_t *err, size_t err_room, flexray_texts *texts) {
    FLEXRAY_INLINE_WORDS("run\nfirst\nsecond\nthird\nsharp");
    (void)none;
    return FLEXRAY_INLINE_REQUEST(flexray_request, params, params_length, drift, drift_length, script, script_length);
}

/* `flexray trace PARAMS DRIFT SCRIPT`: what each node did and measured, cycle by cycle. */
static inline uint32_t flexray_trace(const uint8_t *params, size_t params_length, const uint8_t *drift, size_t drift_length,
                                     const uint8_t *script, size_t script_length, uint8_t *out, size_t out_room,
                                     uint8_t *err, size_t err_room, flexray_texts *texts) {
    FLEXRAY_INLINE_WORDS("trace\nfirst\nsecond\nthird");
    (void)none;
    return FLEXRAY_INLINE_REQUEST(flexray_request, params, params_length, drift, drift_length, script, script_length);
}

/* `flexray check PARAMS TRACE`: whether a recorded trace is lawful and covered, or why not. */
static inline uint32_t flexray_check(const uint8_t *params, size_t params_length, const uint8_t *trace, size_t trace_length,
                                     uint8_t *out, size_t out_room, uint8_t *err, size_t err_room, flexray_texts *texts) {
    FLEXRAY_INLINE_WORDS("check\nfirst\nsecond");
    return FLEXRAY_INLINE_REQUEST(flexray_request, params, params_length, trace, trace_length, &none, 0);
}

/* `flexray check PARAMS TRACE sharp`: what the sharper bounds promise of a recorded trace. */
static inline uint32_t flexray_check_sharp(const uint8_t *params, size_t params_length,
                                           const uint8_t *trace, size_t trace_length, uint8_t *out, size_t out_room,
                                           uint8_t *err, size_t err_room, flexray_texts *texts) {
    FLEXRAY_INLINE_WORDS("check\nfirst\nsecond\nsharp");
    return FLEXRAY_INLINE_REQUEST(flexray_request, params, params_length, trace, trace_length, &none, 0);
}

/* `flexray observe PARAMS LOG`: what the stamps of a bus analyzer tell for certain of a cluster's clocks. */
static inline uint32_t flexray_observe(const uint8_t *params, size_t params_length, const uint8_t *log, size_t log_length,
                                       uint8_t *out, size_t out_room, uint8_t *err, size_t err_room, flexray_texts *texts) {
    FLEXRAY_INLINE_WORDS("observe\nfirst\nsecond");
    return FLEXRAY_INLINE_REQUEST(flexray_request, params, params_length, log, log_length, &none, 0);
}

/* `flexray make SEED DOUBLES`: the report of a cluster of eight nodes that is made from a seed; SEED is 0 to 4,294,967,295;
   DOUBLES is 1 to 10,000. */
static inline uint32_t flexray_make(uint32_t seed, uint32_t doubles, uint8_t *out, size_t out_room,
                                    uint8_t *err, size_t err_room, flexray_texts *texts) {
    FLEXRAY_INLINE_WORDS("make\n%llu\n%llu", (unsigned long long)seed, (unsigned long long)doubles);
    return FLEXRAY_INLINE_REQUEST(flexray_request, &none, 0, &none, 0, &none, 0);
}

/* `flexray cold PARAMS POWER`: who leads the startup of a cluster, and from when on. */
static inline uint32_t flexray_cold(const uint8_t *params, size_t params_length, const uint8_t *power, size_t power_length,
                                    uint8_t *out, size_t out_room, uint8_t *err, size_t err_room, flexray_texts *texts) {
    FLEXRAY_INLINE_WORDS("cold\nfirst\nsecond");
    return FLEXRAY_INLINE_REQUEST(flexray_request, params, params_length, power, power_length, &none, 0);
}

/* `flexray frame A FILE` or `flexray frame B FILE`: the frame that the bytes of the file are, or its first fault. Of another
   number than a channel it answers FLEXRAY_USAGE. */
static inline uint32_t flexray_frame_line(uint32_t channel, const uint8_t *frame, size_t frame_length,
                                          uint8_t *out, size_t out_room, uint8_t *err, size_t err_room, flexray_texts *texts) {
    FLEXRAY_INLINE_WORDS("frame\n%s\nfirst", channel == FLEXRAY_A ? "A" : channel == FLEXRAY_B ? "B" : "");
    return FLEXRAY_INLINE_REQUEST(flexray_request, frame, frame_length, &none, 0, &none, 0);
}

/* `flexray capture A FILE` or `flexray capture B FILE`: the frames of a recording, up to the first fault. Of another number
   than a channel it answers FLEXRAY_USAGE. */
static inline uint32_t flexray_capture(uint32_t channel, const uint8_t *capture, size_t capture_length,
                                       uint8_t *out, size_t out_room, uint8_t *err, size_t err_room, flexray_texts *texts) {
    FLEXRAY_INLINE_WORDS("capture\n%s\nfirst", channel == FLEXRAY_A ? "A" : channel == FLEXRAY_B ? "B" : "");
    return FLEXRAY_INLINE_REQUEST(flexray_request, capture, capture_length, &none, 0, &none, 0);
}

/* `flexray nm WIDTH FILE`: the network management vectors of a recording, cycle by cycle; WIDTH is 1 to 12. */
static inline uint32_t flexray_nm(uint32_t width, const uint8_t *vectors, size_t vectors_length, uint8_t *out, size_t out_room,
                                  uint8_t *err, size_t err_room, flexray_texts *texts) {
    FLEXRAY_INLINE_WORDS("nm\n%llu\nfirst", (unsigned long long)width);
    return FLEXRAY_INLINE_REQUEST(flexray_request, vectors, vectors_length, &none, 0, &none, 0);
}

/* `flexray-series PARAMS DRIFT SCRIPT sharp`: the same, held against the sharper precision too. */
static inline uint32_t flexray_series_sharp(const uint8_t *params, size_t params_length,
                                            const uint8_t *drift, size_t drift_length,
                                            const uint8_t *script, size_t script_length, uint8_t *out, size_t out_room,
                                            uint8_t *err, size_t err_room, flexray_texts *texts) {
    FLEXRAY_INLINE_WORDS("first\nsecond\nthird\nsharp");
    (void)none;
    return FLEXRAY_INLINE_REQUEST(flexray_series_request, params, params_length, drift, drift_length, script, script_length);
}

#undef FLEXRAY_INLINE_WORDS
#undef FLEXRAY_INLINE_REQUEST

#endif /* FLEXRAY_NO_INLINE */

#ifdef __cplusplus
}
#endif

#endif /* FLEXRAY_H */
