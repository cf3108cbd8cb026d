// Answers ReadProperty and WriteProperty of one number, and nothing else, at a port of 127.0.0.1, from one thread: plain PORT.
//
// It does no more than it must for the octets of the answer: a request is known by its length and its service, the number is kept as
// it was written, in memory, and an answer is a form with the invoke ID put in. It has no contract, no journal and no clock.
#include <arpa/inet.h>
#include <stdint.h>
#include <stdlib.h>
#include <string.h>
#include <sys/socket.h>

enum { INVOKE_AT = 8, SERVICE_AT = 9, NUMBER_AT = 19, NUMBER_OCTETS = 4, READ_OCTETS = 17, WRITE_OCTETS = 24, READ = 12, WRITE = 15 };

static unsigned char read_answer[] = {0x81, 0x0a, 0, 23, 1, 0, 0x30, 0, READ, 0x0c, 0x0b, 0x40, 0, 1, 0x19, 85, 0x3e, 0x34, 0, 0, 0, 0, 0x3f};
static unsigned char write_answer[] = {0x81, 0x0a, 0, 9, 1, 0, 0x20, 0, WRITE};
enum { ANSWERED_INVOKE_AT = 7, ANSWERED_NUMBER_AT = 18 };

int main(int count, char **words) {
    if (count != 2) return 2;
    struct sockaddr_in here = {.sin_family = AF_INET, .sin_port = htons((uint16_t)atoi(words[1])), .sin_addr = {htonl(INADDR_LOOPBACK)}};
    int link = socket(AF_INET, SOCK_DGRAM, 0);
    if (link < 0 || bind(link, (struct sockaddr *)&here, sizeof here) != 0) return 1;
    for (;;) {
        unsigned char octets[2048], *answer;
        struct sockaddr_in peer;
        socklen_t peer_octets = sizeof peer;
        ssize_t length = recvfrom(link, octets, sizeof octets, 0, (struct sockaddr *)&peer, &peer_octets);
        size_t answer_octets;
        if (length == READ_OCTETS && octets[SERVICE_AT] == READ) {
            answer = read_answer;
            answer_octets = sizeof read_answer;
        } else if (length == WRITE_OCTETS && octets[SERVICE_AT] == WRITE) {
            memcpy(read_answer + ANSWERED_NUMBER_AT, octets + NUMBER_AT, NUMBER_OCTETS);
            answer = write_answer;
            answer_octets = sizeof write_answer;
        } else {
            continue;
        }
        answer[ANSWERED_INVOKE_AT] = octets[INVOKE_AT];
        if (sendto(link, answer, answer_octets, 0, (struct sockaddr *)&peer, peer_octets) < 0) return 1;
    }
}
