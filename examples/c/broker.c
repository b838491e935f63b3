/* A message broker. Publishers put messages of 8 to 199 bytes into the queues of topics, and a subscriber takes them out. A
 * message is an object; it begins with the handle of the next message of its topic. Messages are written and read in place. */
#include "norphuen.h"
#include <stdio.h>
#include <stdlib.h>
#include <string.h>

enum { TOPICS = 8, MOST = 200 };

/* The head of a message. Its bytes follow. */
typedef struct message {
    uint32_t next;
    uint32_t length;
} message;

/* The messages of a topic, the oldest first. */
typedef struct queue {
    uint32_t first;
    uint32_t last;
    uint32_t waiting;
} queue;

static nph_heap heap;
static queue queues[TOPICS];

/* Ends the program on a status that it does not expect. */
static void must(nph_status status) {
    if (status == NPH_OK) return;
    fprintf(stderr, "broker: %s\n", nph_text(status));
    exit(1);
}

/* Puts a message of `length` bytes, all `fill`, into the queue. Returns NPH_SPACE or NPH_PROXY if there is no room. */
static nph_status publish(queue *q, uint32_t length, uint8_t fill) {
    uint32_t handle, place, last = 0;
    uint64_t *words;
    nph_status status = nph_malloc(&heap, (uint32_t)sizeof(message) + length, &handle);
    if (status != NPH_OK) return status;
    must(nph_place(&heap, handle, &place));
    if (q->waiting > 0) must(nph_place(&heap, q->last, &last));
    must(nph_lend(&heap, &words));
    message *m = (message *)nph_bytes(words, place);
    m->next = NPH_NONE;
    m->length = length;
    memset(m + 1, fill, length);
    if (q->waiting > 0) ((message *)nph_bytes(words, last))->next = handle; /* two objects at once */
    must(nph_return(&heap));
    if (q->waiting++ == 0) q->first = handle;
    q->last = handle;
    return NPH_OK;
}

/* Copies the oldest message into `bytes`, frees it, and returns its length. The queue is not empty. */
static uint32_t consume(queue *q, uint8_t *bytes, uint64_t *moves) {
    uint32_t place, length, oldest = q->first;
    uint64_t *words;
    nph_freed freed;
    must(nph_place(&heap, oldest, &place));
    must(nph_lend(&heap, &words));
    const message *m = (const message *)nph_bytes(words, place);
    length = m->length;
    q->first = m->next;
    memcpy(bytes, m + 1, length);
    must(nph_return(&heap));
    must(nph_free(&heap, oldest, &freed));
    *moves += freed.moved != NPH_NONE;
    q->waiting--;
    return length;
}

/* A drawn number below `n`. */
static uint32_t draw(uint32_t n) {
    static uint64_t state = 1;
    state = state * 6364136223846793005u + 1442695040888963407u;
    return (uint32_t)(state >> 33) % n;
}

/* Each round publishes one message, and consumes one if the drawn topic has any. */
int main(int argc, char **argv) {
    long rounds = argc > 1 ? atol(argv[1]) : 10000, refused = 0, read = 0;
    uint64_t bytes = 0, moves = 0;
    uint8_t buffer[MOST];
    must(nph_open(&heap, 64, 4096, 1, 1000));
    for (long i = 0; i < rounds; i++) {
        uint32_t to = draw(TOPICS), length = 8 + draw(MOST - 8), from = draw(TOPICS);
        refused += publish(&queues[to], length, (uint8_t)to) != NPH_OK;
        if (queues[from].waiting == 0) continue;
        length = consume(&queues[from], buffer, &moves);
        if (buffer[0] != from || buffer[length - 1] != from) return 1;
        bytes += length;
        read++;
    }
    uint32_t waiting = 0;
    for (int i = 0; i < TOPICS; i++) waiting += queues[i].waiting;
    printf("%ld rounds: %ld messages of %lu bytes read, %u wait, %ld refused, %lu moves\n", rounds, read,
           (unsigned long)bytes, (unsigned)waiting, refused, (unsigned long)moves);
    nph_close(&heap);
    return 0;
}
