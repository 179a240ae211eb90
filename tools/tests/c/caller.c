/* Calls the library as tools/tests/test_library.py asks for:
     request WORD ..   what flexray answers to the words, by flexray_request; those that are files are lent
     series WORD ..    the same of flexray-series
     typed WORD ..     the same of flexray by the call of the command's own name
     places WORD ..    the same into places of every room near the length of the text and the line, which are looked at behind
     threads WORD ..   the same by eight threads, 40 times each
     stack WORD ..     prints how many bytes of a thread's stack were written
     memory WORD ..    the same with ever more calls of malloc and realloc that succeed; prints how many statuses came, and which
     pieces FILE       the frames of a recording on channel A that is given in pieces of 1, 7, 100 and 4096 bytes: prints where
                       each begins, and how it ends
     bad               words that are no request, bytes that are no file, places that are null: prints what came
   Texts go to standard output, lines to standard error, and the status of the call is that of the program. */
#define _GNU_SOURCE
#include <flexray.h>
#include <pthread.h>
#include <stdio.h>
#include <stdlib.h>
#include <string.h>
#include <unistd.h>

typedef struct {
    uint8_t *bytes;
    size_t length;
} piece;

static const char *const names[3] = {"first", "second", "third"};
static piece files[3];
static piece words;
static int is_series;

/* How many more blocks there are, where that is counted. */
static long blocks_left = -1;

#ifdef COUNTS_BLOCKS
void *__real_malloc(size_t);
void *__real_realloc(void *, size_t);

static int is_refused(void) {
    if (blocks_left < 0) return 0;
    if (blocks_left == 0) return 1;
    blocks_left--;
    return 0;
}

void *__wrap_malloc(size_t size) { return is_refused() ? NULL : __real_malloc(size); }
void *__wrap_realloc(void *block, size_t size) { return is_refused() ? NULL : __real_realloc(block, size); }
#endif

static void fail(const char *why) {
    fprintf(stderr, "caller: %s\n", why);
    exit(99);
}

static void *room_of(size_t size) {
    void *block = malloc(size ? size : 1);
    if (!block) fail("no memory");
    return block;
}

static int whole(const char *name, piece *to) {
    FILE *file = fopen(name, "rb");
    long length;
    if (!file) return 0;
    fseek(file, 0, SEEK_END);
    length = ftell(file);
    rewind(file);
    to->length = (size_t)length;
    to->bytes = room_of(to->length);
    if (fread(to->bytes, 1, to->length, file) != to->length) fail("a file was not read");
    fclose(file);
    return 1;
}

/* Gathers the words, and the files that they name. */
static void gather(int count, char **given) {
    int lent = 0;
    words.bytes = room_of(100000);
    for (int n = 0; n < count; n++) {
        const char *word = given[n];
        if (lent < 3 && whole(word, &files[lent])) word = names[lent++];
        if (n) words.bytes[words.length++] = '\n';
        memcpy(words.bytes + words.length, word, strlen(word));
        words.length += strlen(word);
    }
}

static uint32_t call(uint8_t *out, size_t out_room, uint8_t *err, size_t err_room, flexray_texts *texts) {
    return (is_series ? flexray_series_request : flexray_request)(
        words.bytes, words.length, files[0].bytes, files[0].length, files[1].bytes, files[1].length, files[2].bytes,
        files[2].length, out, out_room, err, err_room, texts);
}

static uint64_t number(const char *word) { return strtoull(word, NULL, 10); }

#define PLACES out, out_room, err, err_room, texts
#define FIRST files[0].bytes, files[0].length
#define SECOND files[1].bytes, files[1].length
#define THIRD files[2].bytes, files[2].length

#define CHANNEL(word) (strcmp(word, "B") ? FLEXRAY_A : FLEXRAY_B)
#define IS_NUMBER(word) ((word)[strspn(word, "0123456789")] == 0)

static uint32_t typed(int count, char **given, uint8_t *out, size_t out_room, uint8_t *err, size_t err_room,
                      flexray_texts *texts) {
/* A line for each request of tools/commands.toml, which the test writes: where these are its words, its call. */
#include "calls.h"
    fail("there is no such call");
    return 0;
}

static const size_t room = 1 << 24;

/* Prints what came of a call, and answers its status. */
static int shown(uint32_t status, const uint8_t *out, const uint8_t *err, const flexray_texts *texts) {
    if (texts->out_length > room || texts->err_length > room) fail("a text is too long for this program");
    fwrite(out, 1, texts->out_length, stdout);
    fwrite(err, 1, texts->err_length, stderr);
    return (int)status;
}

static void look(int holds, const char *what) {
    if (!holds) fail(what);
}

static int is_all(const uint8_t *bytes, size_t length, uint8_t byte) {
    for (size_t n = 0; n < length; n++)
        if (bytes[n] != byte) return 0;
    return 1;
}

/* A place of this room holds the text where it fits, and else nothing of it; behind it nothing was written. */
static void look_at(const uint8_t *place, size_t place_room, const uint8_t *text, size_t length) {
    if (length <= place_room) {
        look(!memcmp(place, text, length), "a text that fits does not stand in its place");
        look(is_all(place + length, room - length, 0x5A), "something was written behind a text");
    } else {
        look(is_all(place, room, 0x5A), "something was written where the text does not fit");
    }
}

static int places(void) {
    uint8_t *text = room_of(room), *line = room_of(room), *out = room_of(room), *err = room_of(room);
    flexray_texts wanted, texts;
    uint32_t status = call(text, room, line, room, &wanted);
    long steps[] = {-1000000, -2, -1, 0, 1, 1000};
    int looked = 0;
    for (size_t n = 0; n < 6; n++)
        for (size_t m = 0; m < 6; m++) {
            long out_room = (long)wanted.out_length + steps[n], err_room = (long)wanted.err_length + steps[m];
            if (out_room < 0) out_room = 0;
            if (err_room < 0) err_room = 0;
            memset(out, 0x5A, room);
            memset(err, 0x5A, room);
            memset(&texts, 0x5A, sizeof texts);
            look(call(out, (size_t)out_room, err, (size_t)err_room, &texts) == status, "another status in another room");
            look(texts.out_length == wanted.out_length && texts.err_length == wanted.err_length, "another length");
            look_at(out, (size_t)out_room, text, wanted.out_length);
            look_at(err, (size_t)err_room, line, wanted.err_length);
            looked++;
        }
    memset(&texts, 0x5A, sizeof texts);
    look(call(NULL, 0, NULL, 0, &texts) == status, "another status with places that are null");
    look(texts.out_length == wanted.out_length && texts.err_length == wanted.err_length, "another length");
    printf("%d rooms\n", looked + 1);
    return 0;
}

static piece agreed, agreed_line;
static uint32_t agreed_status;

static void *again(void *given) {
    uint8_t *out = room_of(room), *err = room_of(room);
    flexray_texts texts;
    (void)given;
    for (int n = 0; n < 40; n++) {
        look(call(out, room, err, room, &texts) == agreed_status, "another status in a thread");
        look(texts.out_length == agreed.length && !memcmp(out, agreed.bytes, agreed.length), "another text in a thread");
        look(texts.err_length == agreed_line.length && !memcmp(err, agreed_line.bytes, agreed_line.length),
             "another line in a thread");
    }
    free(out);
    free(err);
    return NULL;
}

static int threads(void) {
    pthread_t all[8];
    flexray_texts texts;
    agreed.bytes = room_of(room);
    agreed_line.bytes = room_of(room);
    agreed_status = call(agreed.bytes, room, agreed_line.bytes, room, &texts);
    agreed.length = texts.out_length;
    agreed_line.length = texts.err_length;
    for (int n = 0; n < 8; n++)
        if (pthread_create(&all[n], NULL, again, NULL)) fail("a thread was not started");
    for (int n = 0; n < 8; n++) pthread_join(all[n], NULL);
    printf("8 threads\n");
    return 0;
}

static uint8_t *stack_out, *stack_err;

static void *once(void *given) {
    flexray_texts texts;
    (void)given;
    call(stack_out, room, stack_err, room, &texts);
    return NULL;
}

static int stack(void) {
    size_t size = 1 << 22, below;
    uint8_t *painted = aligned_alloc(4096, size);
    pthread_attr_t how;
    pthread_t one;
    if (!painted) fail("no memory");
    memset(painted, 0x5A, size);
    stack_out = room_of(room);
    stack_err = room_of(room);
    pthread_attr_init(&how);
    if (pthread_attr_setstack(&how, painted, size) || pthread_create(&one, &how, once, NULL)) fail("a thread was not started");
    pthread_join(one, NULL);
    for (below = 0; below < size && painted[below] == 0x5A; below++)
        ;
    printf("%zu\n", size - below);
    return 0;
}

/* With every number of blocks that is too small the status is 6; then it stays what it is. */
static int memory(void) {
    uint8_t *text = room_of(room), *line = room_of(room), *out = room_of(room), *err = room_of(room);
    flexray_texts wanted, texts;
    uint32_t status, wanted_status = call(text, room, line, room, &wanted);
    long blocks;
    for (blocks = 0;; blocks++) {
        memset(out, 0x5A, 4096);
        memset(err, 0x5A, 4096);
        blocks_left = blocks;
        status = call(out, room, err, room, &texts);
        blocks_left = -1;
        if (status != FLEXRAY_NO_MEMORY) break;
        look(texts.out_length == 0 && is_all(out, 4096, 0x5A), "a text where memory ran out");
        look(texts.err_length < 100 && is_all(err + texts.err_length, 4096 - texts.err_length, 0x5A), "too much of a line");
    }
    look(status == wanted_status && texts.out_length == wanted.out_length && texts.err_length == wanted.err_length &&
             !memcmp(out, text, wanted.out_length) && !memcmp(err, line, wanted.err_length),
         "another answer with just enough memory");
    printf("%ld\n", blocks);
    return 0;
}

/* Reads a recording in pieces: what is left of one stands before the next. */
static int pieces(void) {
    static const size_t sizes[] = {1, 7, 100, 4096};
    uint8_t held[262 + 4096];
    for (size_t n = 0; n < 4; n++) {
        size_t at = 0, length = 0, place = 0, given = 0, count;
        uint32_t fault = FLEXRAY_SHORT;
        flexray_frame frame;
        printf("%zu:", sizes[n]);
        while (fault == FLEXRAY_SHORT && given < files[0].length) {
            size_t piece = files[0].length - given < sizes[n] ? files[0].length - given : sizes[n];
            memmove(held, held + at, length);
            memcpy(held + length, files[0].bytes + given, piece);
            at = 0;
            length += piece;
            given += piece;
            while ((fault = flexray_frame_next(FLEXRAY_A, held + at, length, &frame, &count)) == FLEXRAY_NO_FAULT) {
                printf(" %zu/%u", place, frame.id);
                at += count;
                length -= count;
                place += count;
            }
        }
        printf(" then %u at %zu of %zu\n", fault, place, files[0].length);
    }
    return 0;
}

static void one_bad(const char *given, size_t length, const uint8_t *first, size_t first_length) {
    uint8_t out[4096], err[4096];
    flexray_texts texts;
    uint32_t status = flexray_request((const uint8_t *)given, length, first, first_length, NULL, 0, NULL, 0, out, sizeof out, err,
                                      sizeof err, &texts);
    printf("%u %zu ", status, texts.out_length);
    look(texts.err_length <= sizeof err, "a line is too long");
    fwrite(err, 1, texts.err_length, stdout);
    if (texts.err_length == 0) putchar('\n');
}

static int bad(void) {
    static uint8_t noise[4096], out[8], err[8], *great;
    flexray_texts texts;
    flexray_frame frame, kept;
    size_t length;
    uint32_t seed = 12345;
    for (size_t n = 0; n < sizeof noise; n++) noise[n] = (uint8_t)((seed = seed * 1103515245u + 12345u) >> 16);
    one_bad(NULL, 0, NULL, 0);
    one_bad("", 0, NULL, 0);
    one_bad("\n", 1, NULL, 0);
    one_bad("bound\nfirst\n", 12, NULL, 0);
    one_bad("bound\nfirst\n\n", 13, NULL, 0);
    one_bad("bound\nparams.csv", 16, NULL, 0);
    one_bad("bound\n\xFF", 7, NULL, 0);
    one_bad("bound\nfirst\0", 12, NULL, 0);
    one_bad("bound\nfirst", 11, noise, sizeof noise);
    one_bad("run\nfirst\nsecond\nthird", 22, noise, sizeof noise);
    one_bad("capture\nA\nfirst", 15, noise, sizeof noise);
    one_bad("frame\nA\nfirst", 13, noise, sizeof noise);
    one_bad("frame\nC\nfirst", 13, noise, sizeof noise);
    one_bad((const char *)noise, sizeof noise, noise, sizeof noise);
    great = calloc(1, 16777217);
    if (!great) fail("no memory");
    one_bad("bound\nfirst", 11, great, 16777217);
    one_bad("bound\nfirst", 11, great, 16777216);
    printf("%u", flexray_nm(13, NULL, 0, out, 8, err, 8, &texts));
    printf(" %zu\n", texts.err_length);
    printf("%u", flexray_capture(2, NULL, 0, out, 8, err, 8, &texts));
    printf(" %zu\n", texts.err_length);
    memset(&frame, 0x5A, sizeof frame);
    memcpy(&kept, &frame, sizeof frame);
    for (uint32_t channel = 0; channel < 4; channel++)
        for (size_t n = 0; n < 300; n++)
            look(flexray_frame_decode(channel, noise, n, &frame) && !memcmp(&frame, &kept, sizeof frame),
                 "noise is no frame, and leaves the frame as it was");
    printf("%u %u\n", flexray_frame_decode(0, NULL, 0, &frame), flexray_frame_decode(2, NULL, 0, &frame));
    memset(&frame, 0, sizeof frame);
    frame.id = 1;
    length = 5;
    printf("%u", flexray_frame_encode(0, &frame, NULL, 0, NULL, 0, &length));
    printf(" %zu\n", length);
    printf("%u", flexray_frame_encode(3, &frame, NULL, 0, out, 8, &length));
    printf(" %zu\n", length);
    frame.id = 2048;
    printf("%u", flexray_frame_encode(0, &frame, NULL, 0, out, 8, &length));
    printf(" %zu\n", length);
    frame.id = 2047;
    frame.startup = 200;
    printf("%u", flexray_frame_encode(0, &frame, NULL, 0, out, 8, &length));
    printf(" %zu\n", length);
    frame.sync = 2;
    frame.cycle = 64;
    printf("%u", flexray_frame_encode(0, &frame, NULL, 0, out, 8, &length));
    printf(" %zu\n", length);
    frame.cycle = 63;
    frame.words = 1;
    printf("%u", flexray_frame_encode(0, &frame, NULL, 0, out, 8, &length));
    printf(" %zu\n", length);
    frame.words = 0;
    printf("%u", flexray_frame_encode(1, &frame, NULL, 0, out, 8, &length));
    printf(" %zu\n", length);
    look(flexray_frame_decode(1, out, 8, &kept) == 0 && flexray_frame_decode(0, out, 8, &frame) == FLEXRAY_FRAME_CRC,
         "a frame is that of its channel alone");
    printf("%u %u %u %u %u %u\n", kept.id, kept.words, kept.cycle, kept.sync, kept.startup, kept.reserved);
    return 0;
}

int main(int count, char **given) {
    uint8_t *out, *err;
    flexray_texts texts = {0, 0};
    const char *how = count > 1 ? given[1] : "";
    if (!strcmp(how, "bad")) return bad();
    if (!strcmp(how, "version")) return printf("%u\n", flexray_version()) < 0;
    if (count > 2 && !strcmp(given[2], "flexray-series")) {
        is_series = 1;
        given++;
        count--;
    }
    if (count < 3) fail("words are missing");
    gather(count - 2, given + 2);
    if (!strcmp(how, "places")) return places();
    if (!strcmp(how, "threads")) return threads();
    if (!strcmp(how, "pieces")) return pieces();
    if (!strcmp(how, "stack")) return stack();
    if (!strcmp(how, "memory")) return memory();
    out = room_of(room);
    err = room_of(room);
    if (!strcmp(how, "request")) return shown(call(out, room, err, room, &texts), out, err, &texts);
    if (!strcmp(how, "typed"))
        return shown(typed(count - 2, given + 2, out, room, err, room, &texts), out, err, &texts);
    fail("there is no such word");
    return 99;
}
