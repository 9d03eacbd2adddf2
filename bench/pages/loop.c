/* What a checkpoint of 200,000 new objects in the file new.store writes: 785 pages, built of the objects' records, eight at once; the root and
   its slots; sync; the gate of the root; sync. In front of and behind them stands a sync of a gate that is closed already. As in the program
   that is measured, each record has memory of its own, and is there before the clock starts. It prints the nanoseconds that all of this took. */
#include <fcntl.h>
#include <stdint.h>
#include <stdio.h>
#include <stdlib.h>
#include <string.h>
#include <time.h>
#include <unistd.h>

enum { AREA = 131072, FIRST_SLOT = 4456448, PAGE = 16384, AT_ONCE = 8, ROOT = 31, SLOT_LIST = 65568 };
enum { OBJECTS = 200000, RECORD = 48, ENTRY = 16 + RECORD, HEAD = 40, IN_A_PAGE = (PAGE - HEAD) / ENTRY, PAGES = (OBJECTS + IN_A_PAGE - 1) / IN_A_PAGE };

static int written(int file, const unsigned char *octets, size_t count, off_t at) { return pwrite(file, octets, count, at) == (ssize_t)count; }

static unsigned char *put4(unsigned char *at, uint32_t number) {
    number = __builtin_bswap32(number);
    memcpy(at, &number, 4);
    return at + 4;
}

static unsigned char *put8(unsigned char *at, uint64_t number) {
    number = __builtin_bswap64(number);
    memcpy(at, &number, 8);
    return at + 8;
}

static void build(unsigned char *page, unsigned char **records, int slot) {
    int first = slot * IN_A_PAGE, count = OBJECTS - first < IN_A_PAGE ? OBJECTS - first : IN_A_PAGE;
    unsigned char *at = page;
    memcpy(at, "PSSPAGE1", 8);
    at = put4(put4(put4(put8(at + 8, 1), slot), count), count * ENTRY);
    memset(at, 0, 12);
    at += 12;
    for (int i = first; i < first + count; i++) {
        at = put8(put4(put4(at, 1), RECORD), i + 1);
        memcpy(at, records[i], RECORD);
        at += RECORD;
    }
    memset(at, 0, page + PAGE - at);
}

static int checkpoint(int file, unsigned char *octets, unsigned char **records) {
    if (fdatasync(file) != 0)
        return 0;
    for (int page = 0; page < PAGES; page += AT_ONCE) {
        int count = PAGES - page < AT_ONCE ? PAGES - page : AT_ONCE;
        for (int i = 0; i < count; i++)
            build(octets + i * PAGE, records, page + i);
        if (!written(file, octets, (size_t)count * PAGE, FIRST_SLOT + (off_t)page * PAGE))
            return 0;
    }
    return written(file, octets, ROOT, AREA + 1) && written(file, octets, PAGES * 4, AREA + SLOT_LIST) && fdatasync(file) == 0 &&
           written(file, octets, 1, AREA) && fdatasync(file) == 0 && fdatasync(file) == 0;
}

static unsigned char *record(void) {
    unsigned char *octets = malloc(RECORD);
    if (octets != NULL)
        memset(octets, 7, RECORD);
    return octets;
}

int main(void) {
    int file = open("new.store", O_RDWR);
    unsigned char *octets = malloc(AT_ONCE * PAGE), **records = malloc(OBJECTS * sizeof *records);
    struct timespec start, end;
    if (file < 0 || octets == NULL || records == NULL)
        return 6;
    for (int i = 0; i < OBJECTS; i++)
        if ((records[i] = record()) == NULL)
            return 6;
    clock_gettime(CLOCK_MONOTONIC, &start);
    if (!checkpoint(file, octets, records))
        return 6;
    clock_gettime(CLOCK_MONOTONIC, &end);
    printf("new %d %lld\n", OBJECTS, (end.tv_sec - start.tv_sec) * 1000000000LL + (end.tv_nsec - start.tv_nsec));
    return 0;
}
