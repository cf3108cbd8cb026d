/* What a program costs that reads a trial's script and writes as often, and does no more than it must: an object with the
   limits 20 and 80 and a deadband of 5, without a delay. It reads 8,192 octets at once, and writes each line by itself. */
#include <stdio.h>
#include <stdlib.h>
#include <string.h>
#include <unistd.h>

enum state { NORMAL, HIGH, LOW };
static const char *const names[] = {"normal", "high-limit", "low-limit"};

static char buffer[8192];
static ssize_t held, next;

static int octet(void) {
    if (next == held) {
        held = read(0, buffer, sizeof buffer);
        next = 0;
        if (held <= 0) return -1;
    }
    return (unsigned char)buffer[next++];
}

static enum state after(enum state now, long value) {
    if (value > 80) return HIGH;
    if (value < 20) return LOW;
    if (now == HIGH && value >= 75) return HIGH;
    if (now == LOW && value <= 25) return LOW;
    return NORMAL;
}

static int say(const char *line, int length) { return write(1, line, (size_t)length) == length ? 0 : -1; }

int main(void) {
    char line[4097], out[128];
    unsigned long lines = 0, moment = 0;
    enum state now = NORMAL;
    int c = octet();
    while (c >= 0) {
        size_t length = 0;
        for (; c >= 0 && c != '\n'; c = octet())
            if (length < 4096) line[length++] = (char)c;
        line[length] = 0;
        lines++;
        if (strncmp(line, "set ", 4) == 0) {
            char *rest;
            moment = strtoul(line + 4, &rest, 10);
            long value = strtol(rest, 0, 10);
            enum state then = after(now, value);
            if (then != now && say(out, snprintf(out, sizeof out, "%lu %s %s\n", moment, names[now], names[then]))) return 6;
            now = then;
        }
        c = octet();
    }
    return say(out, snprintf(out, sizeof out, "end %lu\n", lines)) ? 6 : 0;
}
