/* A server of a part of the Redis protocol over one tree: what its files share. */
#ifndef SERVER_H
#define SERVER_H

#include "bwtree.h"
#include "bwtree_waits.h"
#include "bwtree_walks.h"
#include <stddef.h>

/* A word of a command: it lies in the connection's buffer. */
struct word {
    const char *at;
    size_t length;
};

/* Bytes that grow at their end. */
struct buffer {
    char *at;
    size_t used, room;
};

/* Room for some bytes more, behind those that are used. The process ends where memory is refused. */
char *room_for(struct buffer *buffer, size_t more);

/* A thread that serves connections, on a seat of its own. */
struct worker {
    uint32_t seat;
    int epoll;
    uint64_t commands, full;
    bwtree_page_pairs page;
};

extern bwtree tree;
extern bwtree_count count;

/* Runs a command, and puts its reply behind what is there. */
void run_command(struct worker *worker, struct buffer *reply, const struct word *words, size_t words_count);

#endif
