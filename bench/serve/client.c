// Asks a server at a port of 127.0.0.1, and keeps so many requests on their way: client PORT read|write COUNT SECONDS.
//
// The requests are ReadProperty, or WriteProperty, of the Present_Value of Integer Value 1. First this is written once; then
// each write is of the number behind the last one. Every answer has to be the wanted one, octet for octet, and each request
// has to be answered once, within ten seconds. It is one thread, which waits in recv for the next answer. Printed are how many
// requests were answered, in how many seconds, and of the nanoseconds from a request to its answer the median, and what 99 of
// 100 don't take longer than. It sends no more requests than a server takes.
#include <arpa/inet.h>
#include <stdint.h>
#include <stdio.h>
#include <stdlib.h>
#include <string.h>
#include <sys/socket.h>
#include <sys/time.h>
#include <time.h>
#include <unistd.h>

enum { INVOKE_IDS = 256, MOST_ON_THEIR_WAY = 128, MOST_REQUESTS = 900000, MOST_OCTETS = 64, ANSWER_SECONDS = 10 };
static const uint32_t FIRST_NUMBER = 1 << 30;

// Octets, and at which of them the invoke ID stands.
struct message {
    unsigned char octets[MOST_OCTETS];
    size_t length, invoke_at;
};

#define BVLC(length) 0x81, 0x0a, 0, length
#define EXPECTING_REPLY 1, 4
#define NO_REPLY 1, 0
#define PRESENT_VALUE_OF_1 0x0c, 0x0b, 0x40, 0, 1, 0x19, 85
#define NUMBER 0x3e, 0x34, 0, 0, 0, 0, 0x3f
static const struct message read_request = {{BVLC(17), EXPECTING_REPLY, 0, 5, 0, 12, PRESENT_VALUE_OF_1}, 17, 8};
static const struct message read_answer = {{BVLC(23), NO_REPLY, 0x30, 0, 12, PRESENT_VALUE_OF_1, NUMBER}, 23, 7};
static const struct message write_request = {{BVLC(24), EXPECTING_REPLY, 0, 5, 0, 15, PRESENT_VALUE_OF_1, NUMBER}, 24, 8};
static const struct message write_answer = {{BVLC(9), NO_REPLY, 0x20, 0, 15}, 9, 7};

static int link_to_server;
// When the request with an invoke ID was sent; 0 where none is on its way.
static uint64_t sent_at[INVOKE_IDS];
static uint64_t taken[MOST_REQUESTS];
static uint32_t asked, answered, number;
static unsigned char invoke;

static void fail(const char *text) {
    fprintf(stderr, "client: %s, behind %u answers to %u requests\n", text, answered, asked);
    exit(1);
}

static uint64_t now(void) {
    struct timespec time;
    clock_gettime(CLOCK_MONOTONIC, &time);
    return (uint64_t)time.tv_sec * 1000000000 + (uint64_t)time.tv_nsec;
}

// A message with this invoke ID, and with this number where it ends with one.
static struct message filled(const struct message *form, unsigned char id, uint32_t value) {
    struct message made = *form;
    made.octets[form->invoke_at] = id;
    if (made.octets[made.length - 1] == 0x3f)
        for (size_t at = made.length - 2; at > made.length - 6; at--, value >>= 8) made.octets[at] = (unsigned char)value;
    return made;
}

static void ask(int writes) {
    do invoke++;
    while (sent_at[invoke] != 0);
    if (writes) number++;
    struct message made = filled(writes ? &write_request : &read_request, invoke, number);
    sent_at[invoke] = now();
    asked++;
    if (send(link_to_server, made.octets, made.length, 0) != (ssize_t)made.length) fail("a request isn't sent");
}

// Waits for the next answer, and gives the moment at which it was there.
static uint64_t await_answer(int writes) {
    unsigned char octets[MOST_OCTETS];
    ssize_t length = recv(link_to_server, octets, sizeof octets, 0);
    uint64_t moment = now();
    const struct message *form = writes ? &write_answer : &read_answer;
    if (length <= (ssize_t)form->invoke_at) fail("no answer comes");
    unsigned char id = octets[form->invoke_at];
    struct message wanted = filled(form, id, number);
    if ((size_t)length != wanted.length || memcmp(octets, wanted.octets, wanted.length) != 0) fail("an answer is another one");
    if (sent_at[id] == 0) fail("an answer comes to no request");
    taken[answered++] = moment - sent_at[id];
    sent_at[id] = 0;
    return moment;
}

static int by_size(const void *one, const void *other) {
    uint64_t a = *(const uint64_t *)one, b = *(const uint64_t *)other;
    return (a > b) - (a < b);
}

static void connect_to(const char *port) {
    struct sockaddr_in server = {.sin_family = AF_INET, .sin_port = htons((uint16_t)atoi(port)), .sin_addr = {htonl(INADDR_LOOPBACK)}};
    struct timeval patience = {.tv_sec = ANSWER_SECONDS};
    link_to_server = socket(AF_INET, SOCK_DGRAM, 0);
    if (link_to_server < 0 || setsockopt(link_to_server, SOL_SOCKET, SO_RCVTIMEO, &patience, sizeof patience) != 0 ||
        connect(link_to_server, (struct sockaddr *)&server, sizeof server) != 0)
        fail("there is no socket");
}

int main(int count, char **words) {
    if (count != 5) return 2;
    int writes = strcmp(words[2], "write") == 0;
    uint32_t most = (uint32_t)atoi(words[3]);
    if (most < 1 || most > MOST_ON_THEIR_WAY) return 2;
    connect_to(words[1]);
    number = FIRST_NUMBER - 1;
    ask(1);
    uint64_t begun = await_answer(1), moment = begun;
    uint64_t until = begun + (uint64_t)(atof(words[4]) * 1e9);
    asked = answered = 0;
    while (moment < until || answered < asked) {
        while (moment < until && asked - answered < most && asked < MOST_REQUESTS) ask(writes);
        if (answered == asked) break;
        moment = await_answer(writes);
    }
    qsort(taken, answered, sizeof *taken, by_size);
    printf("%u %.6f %llu %llu\n", answered, (double)(moment - begun) / 1e9, (unsigned long long)taken[answered / 2],
           (unsigned long long)taken[answered - 1 - answered / 100]);
    return 0;
}
