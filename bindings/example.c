/* Prints the report on an automaton's file and trees' files end to end, as the program `report` does:
 *
 *     example walker.blk letters.blk
 *
 * The status is 0 where the report was written in full, and 1 where a file could not be read or the output was lost. */
#include "engine.h"
#include <errno.h>
#include <stdio.h>
#include <stdlib.h>
#include <string.h>

struct bytes {
    uint8_t *at;
    size_t length;
};

static void fail(const char *what)
{
    fprintf(stderr, "example: %s: %s\n", what, strerror(errno));
    exit(1);
}

/* All bytes of a stream, in a buffer that doubles when it is full. */
static struct bytes read_all(FILE *stream, const char *path)
{
    size_t room = 4096;
    struct bytes bytes = {malloc(room), 0};
    while (bytes.at != NULL) {
        bytes.length += fread(bytes.at + bytes.length, 1, room - bytes.length, stream);
        if (bytes.length < room)
            break;
        room *= 2;
        bytes.at = realloc(bytes.at, room);
    }
    if (bytes.at == NULL || ferror(stream))
        fail(path);
    return bytes;
}

static struct bytes read_file(const char *path)
{
    FILE *stream = fopen(path, "rb");
    if (stream == NULL)
        fail(path);
    struct bytes bytes = read_all(stream, path);
    fclose(stream);
    return bytes;
}

int main(int count, char **words)
{
    uint8_t text[357];
    if (count != 3) {
        fputs("example AUTOMATON TREES\n", stderr);
        return 2;
    }
    struct bytes automaton = read_file(words[1]), trees = read_file(words[2]);
    size_t length = engine_report(automaton.at, automaton.length, trees.at, trees.length, text);
    if (fwrite(text, 1, length, stdout) != length || fclose(stdout) != 0)
        fail("standard output");
    free(automaton.at);
    free(trees.at);
    return 0;
}
