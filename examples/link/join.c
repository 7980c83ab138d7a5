/* Joins three named files, the first table, the second and the added records, previews the join, and prints what came of each: the number, its
   place and input, and the bytes written. It is C99 and C++ alike. */
#include "../../bindings/vundayre.h"
#include "whole.h"

static void print(const char *call, struct vundayre_joined r) {
    printf(LANGUAGE ": %s %llu at %zu of input %llu, %zu bytes\n", call, (unsigned long long)r.number, r.place, (unsigned long long)r.input,
           r.written);
}

int main(int count, char **names) {
    static uint8_t given[3][ROOM_BYTES], out[VUNDAYRE_TABLE_BYTES], answer[VUNDAYRE_ANSWER_BYTES];
    size_t n[3];
    int i;
    if (count != 4) {
        fputs("usage: join FIRST SECOND ADDED\n", stderr);
        return 2;
    }
    for (i = 0; i < 3; i++) {
        FILE *file = fopen(names[i + 1], "rb");
        n[i] = read_whole(file, given[i]);
        fclose(file);
    }
    print("joined", vundayre_join(given[0], n[0], given[1], n[1], given[2], n[2], out, sizeof out));
    print("preview", vundayre_preview(given[0], n[0], given[1], n[1], given[2], n[2], answer, sizeof answer));
    return 0;
}
