// The load of bench/live: raw sockets to a server at 127.0.0.1, by one thread over one epoll.
//
//     live_load PORT WAY CONNECTIONS SIZE MILLISECONDS
//
// Ways: `plain` sends SIZE octets on each connection and waits until as many came back, again and again; `echo` does so with binary
// messages on /echo; `room` has one more connection send messages to a room of CONNECTIONS others, at most WINDOW messages ahead of
// the slowest of them; `idle` opens connections on /echo and sends nothing more.
//
// It prints `ready` once all connections stand, reads a line, works for so long, prints how many messages were sent, how many came, and
// the milliseconds, and ends once it reads another line. Every octet that comes is counted, and the first of each answer is looked at.

#include <arpa/inet.h>
#include <errno.h>
#include <netinet/tcp.h>
#include <stdio.h>
#include <stdlib.h>
#include <string.h>
#include <sys/epoll.h>
#include <sys/socket.h>
#include <time.h>
#include <unistd.h>

enum { MOST_CONNECTIONS = 2048, MOST_SIZE = 65536, WINDOW = 32 };

static const unsigned char KEY[4] = {0x37, 0xfa, 0x21, 0x3d};

static int port, count;
static long size, sent_size, answer_size;
static int is_plain, is_room;
static unsigned char message[MOST_SIZE + 14], room[1 << 18];
static int sockets[MOST_CONNECTIONS + 1];
static long long received[MOST_CONNECTIONS + 1];

static void fail(const char *what) {
    fprintf(stderr, "live_load: %s: %s\n", what, strerror(errno));
    exit(1);
}

static long long now_ms(void) {
    struct timespec time;
    clock_gettime(CLOCK_MONOTONIC, &time);
    return time.tv_sec * 1000LL + time.tv_nsec / 1000000;
}

static void send_all(int fd, const void *octets, size_t length) {
    for (size_t at = 0; at < length;) {
        ssize_t took = send(fd, (const char *)octets + at, length - at, MSG_NOSIGNAL);
        if (took < 0) fail("send");
        at += took;
    }
}

static int connected(const char *path) {
    struct sockaddr_in address = {.sin_family = AF_INET, .sin_port = htons(port), .sin_addr = {htonl(INADDR_LOOPBACK)}};
    int fd = socket(AF_INET, SOCK_STREAM, 0), one = 1;
    if (fd < 0 || connect(fd, (struct sockaddr *)&address, sizeof address) < 0) fail("connect");
    setsockopt(fd, IPPROTO_TCP, TCP_NODELAY, &one, sizeof one);
    if (is_plain) return fd;
    char head[512], reply[512];
    int length = snprintf(head, sizeof head,
                          "GET %s HTTP/1.1\r\nHost: localhost\r\nUpgrade: websocket\r\nConnection: Upgrade\r\n"
                          "Sec-WebSocket-Key: dGhlIHNhbXBsZSBub25jZQ==\r\nSec-WebSocket-Version: 13\r\n\r\n",
                          path);
    send_all(fd, head, length);
    ssize_t came = recv(fd, reply, sizeof reply, 0);
    if (came < 12 || memcmp(reply, "HTTP/1.1 101", 12) != 0 || memcmp(reply + came - 4, "\r\n\r\n", 4) != 0) fail("no upgrade");
    return fd;
}

// What is sent again and again, and how long what comes back for it is.
static void make_message(void) {
    if (is_plain) {
        memset(message, 'a', size);
        sent_size = answer_size = size;
        return;
    }
    long at = 0;
    message[at++] = 0x82;
    if (size < 126) {
        message[at++] = 0x80 | size;
    } else {
        message[at++] = 0x80 | 126;
        message[at++] = size >> 8;
        message[at++] = size & 0xff;
    }
    answer_size = at + size;
    memcpy(message + at, KEY, 4);
    at += 4;
    for (long place = 0; place < size; place++) message[at + place] = 'a' ^ KEY[place % 4];
    sent_size = at + size;
}

// How many answers ended with what one read gave.
static long read_answers(int place) {
    ssize_t came = recv(sockets[place], room, sizeof room, 0);
    if (came <= 0) fail("the server ended a connection");
    long long before = received[place];
    if (before % answer_size == 0 && room[0] != message[0]) fail("another answer");
    received[place] += came;
    return received[place] / answer_size - before / answer_size;
}

static long long least_received(void) {
    long long least = received[0];
    for (int place = 1; place < count; place++)
        if (received[place] < least) least = received[place];
    return least / answer_size;
}

static void wait_for_line(void) {
    char line[16];
    if (!fgets(line, sizeof line, stdin)) exit(0);
}

static void work(int poll, long milliseconds, long long *sent, long long *came) {
    struct epoll_event events[256];
    long long until = now_ms() + milliseconds;
    if (!is_room)
        for (int place = 0; place < count; place++, ++*sent) send_all(sockets[place], message, sent_size);
    for (;;) {
        int ended = now_ms() >= until;
        if (ended && *came == (is_room ? *sent * count : *sent)) return;
        if (is_room && !ended)
            for (long long least = least_received(); *sent < least + WINDOW; ++*sent) send_all(sockets[count], message, sent_size);
        int ready = epoll_wait(poll, events, 256, 5000);
        if (ready == 0) fail("no answer for 5 seconds");
        for (int at = 0; at < ready; at++) {
            int place = events[at].data.fd;
            long answers = read_answers(place);
            *came += answers;
            if (!is_room && !ended)
                for (; answers > 0; answers--, ++*sent) send_all(sockets[place], message, sent_size);
        }
    }
}

int main(int words, char **word) {
    if (words != 6) return 2;
    port = atoi(word[1]);
    count = atoi(word[3]);
    size = atol(word[4]);
    is_plain = !strcmp(word[2], "plain");
    is_room = !strcmp(word[2], "room");
    if (count < 1 || count > MOST_CONNECTIONS || size < 1 || size >= MOST_SIZE) return 2;
    make_message();
    int poll = epoll_create1(0);
    for (int place = 0; place < count + is_room; place++) {
        struct epoll_event event = {.events = EPOLLIN, .data = {.fd = place}};
        sockets[place] = connected(is_room ? "/room/load" : "/echo");
        if (epoll_ctl(poll, EPOLL_CTL_ADD, sockets[place], &event) < 0) fail("epoll_ctl");
    }
    printf("ready\n");
    fflush(stdout);
    wait_for_line();
    long long sent = 0, came = 0, begun = now_ms();
    if (strcmp(word[2], "idle") != 0) work(poll, atol(word[5]), &sent, &came);
    printf("%lld %lld %lld\n", sent, came, now_ms() - begun);
    fflush(stdout);
    wait_for_line();
    return 0;
}
