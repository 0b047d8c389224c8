/* The plain side of links.py, and its client. All requests have one length, and all answers one.
   loop ask PORT COUNT SIZE ANSWER: sends the requests that standard input holds, COUNT times one of them, each of SIZE bytes, when the one
   before is answered with ANSWER bytes; prints the seconds from the second request on.
   loop answer PORT SIZE FILE [LOG]: reads requests of SIZE bytes on one link until it ends, and answers each with the bytes of FILE; with
   LOG each is appended to that file before, by two writes and two syncs. */
#include <arpa/inet.h>
#include <fcntl.h>
#include <netinet/tcp.h>
#include <stdio.h>
#include <stdlib.h>
#include <string.h>
#include <sys/socket.h>
#include <time.h>
#include <unistd.h>

static struct sockaddr_in place;

static int small_pieces(int link) {
    int on = 1;
    return setsockopt(link, IPPROTO_TCP, TCP_NODELAY, &on, sizeof on);
}

static char *all_of(int file, long *size) {
    long room = 1 << 20, count;
    char *text = malloc(room);
    for (*size = 0; (count = read(file, text + *size, room - *size)) > 0;) {
        *size += count;
        if (*size == room) text = realloc(text, room *= 2);
    }
    return text;
}

/* Whether so many bytes came. */
static int take(int link, char *into, long size) {
    for (long count, at = 0; at < size; at += count)
        if ((count = read(link, into + at, size - at)) <= 0) return 0;
    return 1;
}

static void give(int link, const char *text, long size) {
    for (long count, at = 0; at < size; at += count)
        if ((count = write(link, text + at, size - at)) <= 0) exit(3);
}

static void append(int log, const char *text, long size) {
    static long gate = 16;
    if (pwrite(log, text, size, gate + 1) != size || fdatasync(log)) exit(4);
    if (pwrite(log, "\1", 1, gate) != 1 || fdatasync(log)) exit(4);
    gate += size + 1;
}

static int answer(long size, int source, int log) {
    int on = 1, server = socket(AF_INET, SOCK_STREAM, 0);
    setsockopt(server, SOL_SOCKET, SO_REUSEADDR, &on, sizeof on);
    if (bind(server, (struct sockaddr *)&place, sizeof place) || listen(server, 1)) return 1;
    int link = accept(server, NULL, NULL);
    small_pieces(link);
    long length;
    char *request = malloc(size), *text = all_of(source, &length);
    while (take(link, request, size)) {
        if (log >= 0) append(log, request, size);
        give(link, text, length);
    }
    return 0;
}

static double now(void) {
    struct timespec time;
    clock_gettime(CLOCK_MONOTONIC, &time);
    return time.tv_sec + time.tv_nsec / 1e9;
}

static int ask(long count, long size, long length) {
    long bytes;
    char *requests = all_of(0, &bytes), *text = malloc(length);
    int link = socket(AF_INET, SOCK_STREAM, 0);
    if (connect(link, (struct sockaddr *)&place, sizeof place)) return 2;
    small_pieces(link);
    double start = 0;
    for (long at = 0; at <= count; at++) {
        give(link, requests + at * size % bytes, size);
        if (!take(link, text, length)) return 3;
        if (at == 0) start = now();
    }
    printf("%f\n", now() - start);
    return 0;
}

int main(int count, char **words) {
    place.sin_family = AF_INET;
    place.sin_port = htons(atoi(words[2]));
    place.sin_addr.s_addr = htonl(INADDR_LOOPBACK);
    if (!strcmp(words[1], "ask")) return ask(atol(words[3]), atol(words[4]), atol(words[5]));
    return answer(atol(words[3]), open(words[4], O_RDONLY), count > 5 ? open(words[5], O_RDWR | O_CREAT | O_TRUNC, 0644) : -1);
}
