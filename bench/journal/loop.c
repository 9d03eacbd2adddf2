/* The same writes and syncs as 2,000 appends of 64 octets to the journal of the file journal.store: the header behind a gate, the body, a
   closed gate; sync; the gate; sync. It prints the microseconds that all of them took. */
#include <fcntl.h>
#include <stdio.h>
#include <string.h>
#include <time.h>
#include <unistd.h>

enum { START = 262144, APPENDS = 2000, HEADER = 12, BODY = 64 };

static int append(int file, off_t gate) {
    static const unsigned char header[HEADER] = {0, 0, 0, 0, 0, 0, 0, 1, 0, 0, 0, BODY};
    unsigned char body[BODY];
    memset(body, 7, sizeof body);
    return pwrite(file, header, HEADER, gate + 1) == HEADER && pwrite(file, body, BODY, gate + 1 + HEADER) == BODY &&
           pwrite(file, "\0", 1, gate + 1 + HEADER + BODY) == 1 && fdatasync(file) == 0 && pwrite(file, "\245", 1, gate) == 1 &&
           fdatasync(file) == 0;
}

int main(void) {
    int file = open("journal.store", O_RDWR);
    struct timespec start, end;
    if (file < 0)
        return 6;
    clock_gettime(CLOCK_MONOTONIC, &start);
    for (off_t number = 0; number < APPENDS; number++)
        if (!append(file, START + number * (1 + HEADER + BODY)))
            return 6;
    clock_gettime(CLOCK_MONOTONIC, &end);
    printf("%lld\n", (end.tv_sec - start.tv_sec) * 1000000LL + (end.tv_nsec - start.tv_nsec) / 1000);
    return 0;
}
