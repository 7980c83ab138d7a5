/* What the programs in C share: the name of their language, and reading a whole file. It is C99 and C++ alike. */
#include <stdint.h>
#include <stdio.h>
#include <stdlib.h>

#ifdef __cplusplus
#define LANGUAGE "C++"
#else
#define LANGUAGE "C"
#endif

/* More bytes are not taken; there is room for one more, so that a longer file shows. */
#define MOST_BYTES 65536
#define ROOM_BYTES (MOST_BYTES + 1)

/* Fills a room of ROOM_BYTES; returns how many bytes the file has. Where it could not be opened or read, or is too long, says so and ends. */
static size_t read_whole(FILE *file, uint8_t *room) {
    size_t n = file == NULL ? 0 : fread(room, 1, ROOM_BYTES, file);
    if (file == NULL || ferror(file)) {
        puts(LANGUAGE ": answer unread");
        exit(2);
    }
    if (n > MOST_BYTES) {
        puts(LANGUAGE ": answer long");
        exit(0);
    }
    return n;
}
