// The writes and syncs of so many events of 22 octets, and nothing else: plain FILE COUNT PLACE all|data, with fsync or fdatasync.
#include <fcntl.h>
#include <stdio.h>
#include <stdlib.h>
#include <string.h>
#include <unistd.h>

int main(int count, char **words) {
    if (count != 5) return 2;
    int (*sync_file)(int) = strcmp(words[4], "data") == 0 ? fdatasync : fsync;
    int file = open(words[1], O_RDWR);
    long events = atol(words[2]);
    off_t gate = atol(words[3]);
    char octets[4 + 22 + 1] = {0, 0, 0, 22}, open_gate = 1;
    for (long event = 0; event < events; event++) {
        if (pwrite(file, octets, sizeof octets, gate + 1) != sizeof octets || sync_file(file) != 0) return 1;
        if (pwrite(file, &open_gate, 1, gate) != 1 || sync_file(file) != 0) return 1;
        gate += sizeof octets;
    }
    return 0;
}
