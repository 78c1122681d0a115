// How many syncs a disk makes in a second, where they are made as a journal's: 64 bytes are written at the end of the file and
// synced, and then a byte in front of them is written and synced.
//
// usage: syncs FILE SECONDS
#include <fcntl.h>
#include <stdio.h>
#include <stdlib.h>
#include <time.h>
#include <unistd.h>

enum { LENGTH = 64 };

static double now(void) {
    struct timespec time;
    clock_gettime(CLOCK_MONOTONIC, &time);
    return time.tv_sec + time.tv_nsec / 1e9;
}

static void write_through(int file, off_t at, const char *bytes, size_t length) {
    if (pwrite(file, bytes, length, at) != (ssize_t)length || fsync(file) != 0) {
        perror("syncs");
        exit(1);
    }
}

int main(int arguments, char **argument) {
    static const char bytes[LENGTH], gate[1] = {1};
    int file = arguments == 3 ? open(argument[1], O_RDWR | O_CREAT | O_TRUNC, 0600) : -1;
    if (file < 0) {
        fprintf(stderr, "usage: syncs FILE SECONDS\n");
        return 1;
    }
    long syncs = 0;
    double start = now(), deadline = start + atof(argument[2]);
    for (off_t end = 1; now() < deadline; end += LENGTH) {
        write_through(file, end, bytes, LENGTH);
        write_through(file, end - 1, gate, 1);
        syncs += 2;
    }
    printf("%.0f\n", syncs / (now() - start));
    return 0;
}
