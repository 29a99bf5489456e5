/* A server of a part of the Redis protocol over one tree, in memory alone:  server PORT THREADS KEYS [large]
 * Each thread has a seat, and serves its connections by epoll; a connection stays with one thread. Commands: PING, ECHO, GET, SET (NX, GET), SETNX, DEL,
 * EXISTS, INCR, DECR, INCRBY, MGET, MSET, RANGE from count, DBSIZE, INFO. Keys and values have at most 64 bytes. It listens on this machine alone. */
#define _GNU_SOURCE
#include "server.h"
#include <errno.h>
#include <netinet/in.h>
#include <netinet/tcp.h>
#include <pthread.h>
#include <signal.h>
#include <stdio.h>
#include <stdlib.h>
#include <string.h>
#include <sys/epoll.h>
#include <sys/socket.h>
#include <unistd.h>

enum { MOST_WORDS = 1024, LONGEST = 1 << 20, READS = 16384 };

bwtree tree;
bwtree_count count;
static struct worker workers[BWTREE_MAX_SEATS];

struct connection {
    int socket, waits_to_write;
    struct buffer in, out;
    size_t sent;
};

char *room_for(struct buffer *buffer, size_t more) {
    if (buffer->used + more > buffer->room) {
        buffer->room = 2 * buffer->room + more;
        buffer->at = realloc(buffer->at, buffer->room);
        if (!buffer->at) abort();
    }
    return buffer->at + buffer->used;
}

/* ---- The protocol ---- */

/* A line's number behind its first byte, and the place behind the line; null where the line isn't there whole. */
static const char *read_head(const char *at, const char *end, long *number) {
    const char *line_end = memchr(at, '\n', (size_t)(end - at));
    if (!line_end) return NULL;
    *number = strtol(at + 1, NULL, 10);
    return line_end + 1;
}

/* Reads a command of words with lengths: its end, or null where it isn't there whole. `count_of_words` is -1 where it is no command. */
static const char *read_words(const char *at, const char *end, struct word *words, long *count_of_words) {
    long length, wanted;
    at = read_head(at, end, &wanted);
    *count_of_words = at && (wanted < 0 || wanted > MOST_WORDS) ? -1 : 0;
    if (!at || *count_of_words < 0) return NULL;
    for (long i = 0; i < wanted; i++) {
        if (at >= end) return NULL;
        if (*at != '$') { *count_of_words = -1; return NULL; }
        if (!(at = read_head(at, end, &length))) return NULL;
        if (length < 0 || length > LONGEST) { *count_of_words = -1; return NULL; }
        if (end - at < length + 2) return NULL;
        words[i] = (struct word){at, (size_t)length};
        at += length + 2;
    }
    *count_of_words = wanted;
    return at;
}

/* Reads a command of words with spaces between them, as a person types it. */
static const char *read_line(const char *at, const char *end, struct word *words, long *count_of_words) {
    const char *line_end = memchr(at, '\n', (size_t)(end - at));
    *count_of_words = 0;
    if (!line_end) return NULL;
    while (at < line_end && *count_of_words < MOST_WORDS) {
        while (at < line_end && (*at == ' ' || *at == '\r')) at++;
        const char *begin = at;
        while (at < line_end && *at != ' ' && *at != '\r') at++;
        if (at > begin) words[(*count_of_words)++] = (struct word){begin, (size_t)(at - begin)};
    }
    return line_end + 1;
}

/* Runs the commands that are there whole; 0 where something is no command. */
static int run_all(struct worker *w, struct connection *c) {
    struct word words[MOST_WORDS];
    const char *at = c->in.at, *end = at + c->in.used;
    long n = 0;
    while (at < end) {
        const char *behind = *at == '*' ? read_words(at, end, words, &n) : read_line(at, end, words, &n);
        if (!behind) break;
        at = behind;
        if (n > 0) run_command(w, &c->out, words, (size_t)n);
    }
    c->in.used = (size_t)(end - at);
    memmove(c->in.at, at, c->in.used);
    return n >= 0;
}

/* ---- Connections ---- */

static void listen_for(struct worker *w, struct connection *c, int writes) {
    struct epoll_event event = {writes ? EPOLLIN | EPOLLOUT : EPOLLIN, {.ptr = c}};
    if (writes != c->waits_to_write) epoll_ctl(w->epoll, EPOLL_CTL_MOD, c->socket, &event);
    c->waits_to_write = writes;
}

/* Sends what is due, as far as the socket takes it; 0 where it is closed. */
static int send_out(struct worker *w, struct connection *c) {
    while (c->sent < c->out.used) {
        ssize_t sent = send(c->socket, c->out.at + c->sent, c->out.used - c->sent, MSG_NOSIGNAL);
        if (sent < 0 && errno == EAGAIN) {
            listen_for(w, c, 1);
            return 1;
        }
        if (sent <= 0) return 0;
        c->sent += (size_t)sent;
    }
    c->sent = c->out.used = 0;
    listen_for(w, c, 0);
    return 1;
}

/* Reads what came, and replies; 0 where the connection is to be closed. */
static int serve(struct worker *w, struct connection *c, uint32_t events) {
    if (events & (EPOLLIN | EPOLLHUP | EPOLLERR)) {
        ssize_t got = recv(c->socket, room_for(&c->in, READS), READS, 0);
        if (got == 0 || (got < 0 && errno != EAGAIN)) return 0;
        if (got > 0) c->in.used += (size_t)got;
        if (!run_all(w, c)) return 0;
    }
    return send_out(w, c);
}

static void *work(void *argument) {
    struct worker *w = argument;
    struct epoll_event events[64];
    for (;;) {
        int n = epoll_wait(w->epoll, events, 64, -1);
        for (int i = 0; i < n; i++) {
            struct connection *c = events[i].data.ptr;
            if (serve(w, c, events[i].events)) continue;
            close(c->socket);
            free(c->in.at);
            free(c->out.at);
            free(c);
        }
    }
    return NULL;
}

static void welcome(struct worker *w, int socket) {
    struct connection *c = calloc(1, sizeof *c);
    int one = 1;
    if (!c) abort();
    c->socket = socket;
    setsockopt(socket, IPPROTO_TCP, TCP_NODELAY, &one, sizeof one);
    struct epoll_event event = {EPOLLIN, {.ptr = c}};
    epoll_ctl(w->epoll, EPOLL_CTL_ADD, socket, &event);
}

static int listening(uint16_t port) {
    int listener = socket(AF_INET, SOCK_STREAM, 0), one = 1;
    struct sockaddr_in address = {.sin_family = AF_INET, .sin_port = htons(port), .sin_addr = {htonl(INADDR_LOOPBACK)}};
    if (listener < 0) return -1;
    setsockopt(listener, SOL_SOCKET, SO_REUSEADDR, &one, sizeof one);
    return bind(listener, (struct sockaddr *)&address, sizeof address) || listen(listener, 512) ? -1 : listener;
}

int main(int words_count, char **words) {
    if (words_count < 4) return fputs("server PORT THREADS KEYS [large]\n", stderr), 2;
    uint64_t threads = strtoull(words[2], NULL, 10), keys = strtoull(words[3], NULL, 10);
    bwtree_limits limits;
    uint32_t status = (words_count > 4 ? bwtree_limits_for_many_keys : bwtree_limits_for_keys)(threads, keys, &limits);
    if (status == BWTREE_OK) status = threads <= BWTREE_MAX_SEATS ? bwtree_open(&limits, &tree) : (uint32_t)BWTREE_BAD_LIMITS;
    if (status != BWTREE_OK) return fprintf(stderr, "no tree: %s\n", bwtree_text(status)), 1;
    int listener = listening((uint16_t)atoi(words[1]));
    if (listener < 0) return perror("listen"), 1;
    for (uint32_t i = 0; i < threads; i++) {
        pthread_t thread;
        workers[i].seat = i, workers[i].epoll = epoll_create1(0);
        if (workers[i].epoll < 0 || pthread_create(&thread, NULL, work, &workers[i])) return perror("thread"), 1;
    }
    puts("listens");
    fflush(stdout);
    for (uint64_t next = 0;; next++) {
        int socket = accept4(listener, NULL, NULL, SOCK_NONBLOCK);
        if (socket >= 0) welcome(&workers[next % threads], socket);
    }
}
