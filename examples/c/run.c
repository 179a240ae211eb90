/* Runs a cluster and prints what `flexray run` prints. Where the library is installed:
       cc run.c -lflexray -o run && ./run ../offset/params.csv ../offset/drift.csv ../offset/script.csv */
#include <flexray.h>
#include <stdio.h>
#include <stdlib.h>

static size_t whole(const char *name, uint8_t *bytes, size_t room) {
    FILE *file = fopen(name, "rb");
    if (!file) perror(name), exit(FLEXRAY_READ_FAULT);
    size_t length = fread(bytes, 1, room, file);
    fclose(file);
    return length;
}

int main(int count, char **words) {
    static uint8_t params[16777217], drift[16777217], script[16777217], out[1 << 16], err[1 << 10];
    flexray_texts texts;
    if (count != 4) return FLEXRAY_USAGE;
    uint32_t status = flexray_run(params, whole(words[1], params, sizeof params), drift, whole(words[2], drift, sizeof drift),
                                  script, whole(words[3], script, sizeof script), out, sizeof out, err, sizeof err, &texts);
    if (texts.out_length > sizeof out) return FLEXRAY_NO_MEMORY;
    fwrite(out, 1, texts.out_length, stdout);
    if (texts.err_length <= sizeof err) fwrite(err, 1, texts.err_length, stderr);
    return (int)status;
}
