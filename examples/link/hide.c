/* Hides the port that its argument names in the table on standard input, and prints what came of it: the number, its place and the bytes
   written. It is C99 and C++ alike. */
#include "../../bindings/vundayre.h"
#include "whole.h"

int main(int count, char **words) {
    static uint8_t table[ROOM_BYTES], out[VUNDAYRE_TABLE_BYTES];
    size_t n = read_whole(stdin, table);
    struct vundayre_outcome r;
    if (count != 2) {
        fputs("usage: hide PORT < TABLE\n", stderr);
        return 2;
    }
    r = vundayre_hide(table, n, strtoull(words[1], NULL, 10), out, sizeof out);
    printf(LANGUAGE ": hidden %llu at %zu, %zu bytes\n", (unsigned long long)r.number, r.place, r.written);
    return 0;
}
