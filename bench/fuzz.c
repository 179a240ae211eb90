/* A caller of libflexray for libFuzzer: each input is a call, in blocks that end where what is lent ends, whose answer is held against
 * the header. FUZZ_KIND says which call. bench/fuzz builds and starts it.
 *
 * An input is files behind each other, with the byte 255 between them; its first byte decides which rooms the places have.
 */
#include <flexray.h>
#include <stdio.h>
#include <stdlib.h>
#include <string.h>

enum { FILES = 3, UNTOUCHED = 0xA5, MOST_DOUBLES = 24 };
typedef struct {
    const char *name;
    const char *words; /* %N and %M are numbers of the input */
    int series, files;
} kind;
static const kind KINDS[] = {
    {"bound", "bound\nfirst", 0, 1}, {"bound-join", "bound\nfirst\njoin", 0, 1}, {"bound-sharp", "bound\nfirst\nsharp\n%N", 0, 1},
    {"bound-sharp-join", "bound\nfirst\nsharp\n%N\njoin", 0, 1}, {"upgrade", "upgrade\nfirst", 0, 1},
    {"settle", "settle\nfirst\n%N\n%M", 0, 1}, {"settle-sharp", "settle\nfirst\n%N\n%M\nsharp\n0", 0, 1},
    {"run", "run\nfirst\nsecond\nthird", 0, 3}, {"trace", "trace\nfirst\nsecond\nthird", 0, 3},
    {"check", "check\nfirst\nsecond", 0, 2}, {"observe", "observe\nfirst\nsecond", 0, 2}, {"cold", "cold\nfirst\nsecond", 0, 2},
    {"nm", "nm\n%W\nfirst", 0, 1}, {"capture", "capture\n%C\nfirst", 0, 1}, {"frame", "frame\n%C\nfirst", 0, 1},
    {"series", "first\nsecond\nthird", 1, 3}, {"series-sharp", "first\nsecond\nthird\nsharp", 1, 3},
    {"words", NULL, 0, 3}, {"frames", NULL, 0, 0},
};
static const kind *chosen;

static void broken(const char *clause) {
    fprintf(stderr, "bench/fuzz: %s: a clause of the header does not hold: %s\n", chosen->name, clause);
    abort();
}
#define HOLDS(clause) do { if (!(clause)) broken(#clause); } while (0)

int LLVMFuzzerInitialize(int *count, char ***words) {
    const char *name = getenv("FUZZ_KIND");
    (void)count;
    (void)words;
    for (size_t at = 0; name && at < sizeof KINDS / sizeof *KINDS; at += 1)
        if (strcmp(KINDS[at].name, name) == 0) chosen = &KINDS[at];
    if (!chosen) {
        fprintf(stderr, "bench/fuzz: FUZZ_KIND names none of the calls\n");
        exit(2);
    }
    return 0;
}

/* A block of its own that ends where the bytes do, so that a read behind them is found. */
static uint8_t *lent(const uint8_t *bytes, size_t length) {
    uint8_t *block = malloc(length);
    if (length) memcpy(block, bytes, length);
    return block;
}

typedef struct {
    uint32_t status;
    flexray_texts texts;
    uint8_t *out, *err;
} answer;

static answer asked(int series, const char *words, uint8_t *const file[FILES], const size_t length[FILES], size_t out_room,
                    size_t err_room) {
    answer found = {0, {77, 77}, malloc(out_room), malloc(err_room)};
    uint8_t *spelt = lent((const uint8_t *)words, strlen(words));
    if (out_room) memset(found.out, UNTOUCHED, out_room);
    if (err_room) memset(found.err, UNTOUCHED, err_room);
    found.status = (series ? flexray_series_request : flexray_request)(spelt, strlen(words), file[0], length[0], file[1], length[1],
        file[2], length[2], found.out, out_room, found.err, err_room, &found.texts);
    free(spelt);
    return found;
}

/* A text stands whole at the front of its place, where it fits, and nothing else is written. */
static void placed(const uint8_t *place, size_t room, size_t length) {
    size_t from = length <= room ? length : 0;
    for (size_t at = 0; at < from; at += 1) HOLDS(place[at] == '\n' || (place[at] >= ' ' && place[at] <= '~'));
    if (from) HOLDS(place[from - 1] == '\n');
    for (size_t at = from; at < room; at += 1) HOLDS(place[at] == UNTOUCHED);
}

static void requested(int series, const char *words, uint8_t *const file[FILES], const size_t length[FILES], uint8_t choice) {
    static const size_t ROOMS[] = {0, 1, 100, 4096, 1 << 16};
    size_t out_room = ROOMS[choice % 5], err_room = ROOMS[choice / 5 % 3];
    answer first = asked(series, words, file, length, out_room, err_room);
    HOLDS(first.status <= FLEXRAY_TOO_LONG && first.status != FLEXRAY_WRITE_FAULT);
    HOLDS(first.status != FLEXRAY_READ_FAULT || strcmp(chosen->name, "words") == 0);
    HOLDS((first.status == FLEXRAY_DONE) == (first.texts.out_length > 0));
    HOLDS((first.status == FLEXRAY_DONE) == (first.texts.err_length == 0) || first.status == FLEXRAY_NO_MEMORY);
    placed(first.out, out_room, first.texts.out_length);
    placed(first.err, err_room, first.texts.err_length);
    /* The same call with places that just suffice, of which nothing is left. */
    answer second = asked(series, words, file, length, first.texts.out_length, first.texts.err_length);
    HOLDS(second.status == first.status);
    HOLDS(second.texts.out_length == first.texts.out_length && second.texts.err_length == first.texts.err_length);
    placed(second.out, second.texts.out_length, second.texts.out_length);
    placed(second.err, second.texts.err_length, second.texts.err_length);
    if (first.texts.out_length && first.texts.out_length <= out_room) HOLDS(memcmp(first.out, second.out, first.texts.out_length) == 0);
    if (first.texts.err_length && first.texts.err_length <= err_room) HOLDS(memcmp(first.err, second.err, first.texts.err_length) == 0);
    free(first.out);
    free(first.err);
    free(second.out);
    free(second.err);
}

/* Decoding, what is next, and encoding of the same bytes go together. */
static void framed(const uint8_t *bytes, size_t length, uint32_t channel) {
    flexray_frame frame, next, before;
    size_t count = 77;
    uint8_t *block = lent(bytes, length);
    memset(&frame, UNTOUCHED, sizeof frame);
    before = next = frame;
    uint32_t whole = flexray_frame_decode(channel, block, length, &frame);
    uint32_t begun = flexray_frame_next(channel, block, length, &next, &count);
    HOLDS((channel > FLEXRAY_B) == (whole == FLEXRAY_NO_CHANNEL) && (channel > FLEXRAY_B) == (begun == FLEXRAY_NO_CHANNEL));
    HOLDS(whole <= FLEXRAY_NO_CHANNEL && begun <= FLEXRAY_NO_CHANNEL);
    if (whole) HOLDS(memcmp(&frame, &before, sizeof frame) == 0);
    if (begun) HOLDS(memcmp(&next, &before, sizeof next) == 0 && (begun == FLEXRAY_SHORT ? count > length : count == 0));
    if (!begun) HOLDS(count >= 8 && count <= length && count == 8 + 2 * (size_t)next.words);
    if (!whole) {
        size_t written = 77;
        uint8_t *place = malloc(length);
        HOLDS(!begun && count == length && memcmp(&frame, &next, sizeof frame) == 0);
        HOLDS(frame.id && frame.id <= 2047 && frame.cycle <= 63 && frame.words <= 127);
        for (size_t room = 0; room < length; room += 1) {
            memset(place, UNTOUCHED, length);
            HOLDS(flexray_frame_encode(channel, &frame, block + 5, length - 8, place, room, &written) == FLEXRAY_ROOM);
            HOLDS(written == length);
            for (size_t at = 0; at < length; at += 1) HOLDS(place[at] == UNTOUCHED);
        }
        HOLDS(flexray_frame_encode(channel, &frame, block + 5, length - 8, place, length, &written) == FLEXRAY_NO_FAULT);
        HOLDS(written == length && memcmp(place, block, length) == 0);
        free(place);
    }
    if (length >= sizeof frame) {
        /* Any header and payload: what is written is read again. */
        uint8_t place[300];
        size_t written = 77, rest = length - sizeof frame;
        memcpy(&frame, bytes, sizeof frame);
        memset(place, UNTOUCHED, sizeof place);
        uint32_t fault = flexray_frame_encode(channel, &frame, block + sizeof frame, rest, place, sizeof place, &written);
        if (fault) HOLDS(written == 0);
        else HOLDS(written == 8 + rest && flexray_frame_decode(channel, place, written, &next) == FLEXRAY_NO_FAULT && next.id == frame.id);
        for (size_t at = fault ? 0 : written; at < sizeof place; at += 1) HOLDS(place[at] == UNTOUCHED);
    }
    free(block);
}

/* Whether a run would go on for long: libFuzzer wants many short calls. */
static int goes_on(const uint8_t *bytes, size_t length) {
    for (size_t at = 0; at + 7 < length; at += 1) {
        if (memcmp(bytes + at, "doubles", 7) != 0) continue;
        size_t digit = at + 7;
        while (digit < length && (bytes[digit] < '0' || bytes[digit] > '9') && bytes[digit] != '\n') digit += 1;
        unsigned long count = 0;
        for (; digit < length && bytes[digit] >= '0' && bytes[digit] <= '9' && count <= MOST_DOUBLES; digit += 1)
            count = 10 * count + (bytes[digit] - '0');
        if (count > MOST_DOUBLES) return 1;
    }
    return 0;
}

int LLVMFuzzerTestOneInput(const uint8_t *data, size_t size) {
    uint8_t *file[FILES];
    size_t length[FILES] = {0, 0, 0};
    char words[400];
    if (size < 2) return 0;
    const uint8_t choice = data[0], number = data[1], *at = data + 2, *end = data + size;
    if (strcmp(chosen->name, "frames") == 0) {
        framed(at, (size_t)(end - at), choice % 4 == 3 ? 0x80000001u : choice % 3);
        return 0;
    }
    if (goes_on(at, (size_t)(end - at))) return 0;
    if (chosen->words) {
        size_t put = 0;
        for (const char *one = chosen->words; *one; one += 1) {
            if (*one != '%') {
                words[put++] = *one;
                continue;
            }
            one += 1;
            if (*one == 'W') put += (size_t)sprintf(words + put, "%u", number % 15);
            else if (*one == 'C') words[put++] = "ABC"[number % 8 ? number % 2 : 2];
            else put += (size_t)sprintf(words + put, "%llu", (*one == 'N' ? 1ull : 7ull) << (number % 42));
        }
        words[put] = 0;
    } else {
        const uint8_t *line = memchr(at, 255, (size_t)(end - at));
        const size_t count = (size_t)((line ? line : end) - at);
        if (count >= sizeof words) return 0;
        memcpy(words, at, count);
        words[count] = 0;
        at = line ? line + 1 : end;
        /* A cluster of a seed goes on for as many double cycles as it says. */
        if (strstr(words, "make")) return 0;
    }
    for (int one = 0; one < FILES; one += 1) {
        const uint8_t *stop = one < chosen->files && one < FILES - 1 ? memchr(at, 255, (size_t)(end - at)) : NULL;
        if (!stop || one == chosen->files - 1) stop = end;
        length[one] = one < chosen->files ? (size_t)(stop - at) : 0;
        file[one] = length[one] || number % 2 ? lent(at, length[one]) : NULL;
        at = stop < end ? stop + 1 : end;
    }
    requested(chosen->series, words, file, length, choice);
    for (int one = 0; one < FILES; one += 1) free(file[one]);
    return 0;
}
