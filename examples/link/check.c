/* Prints what the check says of the table on standard input: the number, its place, and the bytes of its records. It is C99 and C++ alike. */
#include "../../bindings/vundayre.h"
#include "whole.h"

int main(void) {
    static uint8_t table[ROOM_BYTES], answer[VUNDAYRE_ANSWER_BYTES];
    size_t n = read_whole(stdin, table);
    struct vundayre_outcome r = vundayre_analyse(table, n, answer, sizeof answer);
    printf(LANGUAGE ": answer %llu at %zu, %zu bytes\n", (unsigned long long)r.number, r.place, r.written);
    return 0;
}
