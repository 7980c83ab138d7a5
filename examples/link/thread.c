/* Analyses the table on standard input, or hides the port of it that its argument names, in a thread whose stack has exactly the bytes that the
   header states. */
#include <pthread.h>

#include "../../bindings/vundayre.h"
#include "whole.h"

static uint8_t table[ROOM_BYTES], answer[VUNDAYRE_ANSWER_BYTES], out[VUNDAYRE_TABLE_BYTES];
static size_t table_bytes;
static uint64_t port;

static void *analyse(void *outcome) {
    *(struct vundayre_outcome *)outcome = vundayre_analyse(table, table_bytes, answer, sizeof answer);
    return NULL;
}

static void *hide(void *outcome) {
    *(struct vundayre_outcome *)outcome = vundayre_hide(table, table_bytes, port, out, sizeof out);
    return NULL;
}

int main(int count, char **words) {
    struct vundayre_outcome r;
    pthread_attr_t attributes;
    pthread_t thread;
    int hides = count > 1;
    table_bytes = read_whole(stdin, table);
    port = hides ? strtoull(words[1], NULL, 10) : 0;
    if (pthread_attr_init(&attributes) != 0 || pthread_attr_setstacksize(&attributes, VUNDAYRE_STACK_BYTES) != 0 ||
        pthread_create(&thread, &attributes, hides ? hide : analyse, &r) != 0 || pthread_join(thread, NULL) != 0) {
        fprintf(stderr, "there is no thread with a stack of %d bytes here\n", VUNDAYRE_STACK_BYTES);
        return 2;
    }
    printf("C, in a thread with a stack of %d bytes: %s %llu at %zu, %zu bytes\n", VUNDAYRE_STACK_BYTES, hides ? "hidden" : "answer",
           (unsigned long long)r.number, r.place, r.written);
    return 0;
}
