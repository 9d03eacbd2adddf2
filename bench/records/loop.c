/* Nanoseconds for a round of reading the octets of one record: a sequence of structs of a long, a short, a char and an octet, of so many structs
   as the first word says. Each number is tested to be there and its padding to be zero, and the sequence, each struct and the record get one
   allocation each. Prints the least of many rounds. */
#include <stdint.h>
#include <stdio.h>
#include <stdlib.h>
#include <string.h>
#include <time.h>

enum kind { INT, CHARACTER, LIST, STRUCT };

struct values;

struct value {
    enum kind kind;
    union {
        __int128 number;
        struct values *values;
    } is;
};

struct values {
    size_t count;
    struct value items[];
};

static struct values *room(size_t count)
{
    struct values *values = malloc(sizeof *values + count * sizeof(struct value));
    if (values == NULL)
        exit(1);
    values->count = count;
    return values;
}

static void drop(struct values *values)
{
    for (size_t i = 0; i < values->count; i++)
        if (values->items[i].kind == LIST || values->items[i].kind == STRUCT)
            drop(values->items[i].is.values);
    free(values);
}

/* The number of so many octets behind its padding; 0 where it is not there. */
static int number(const uint8_t *octets, size_t len, size_t *at, size_t width, uint64_t *out)
{
    size_t start = (*at + width - 1) / width * width;
    if (start + width > len)
        return 0;
    for (size_t i = *at; i < start; i++)
        if (octets[i] != 0)
            return 0;
    uint64_t made = 0;
    for (size_t i = 0; i < width; i++)
        made = made << 8 | octets[start + i];
    *out = made;
    *at = start + width;
    return 1;
}

static int row(const uint8_t *octets, size_t len, size_t *at, struct value *out)
{
    uint64_t first, second, third, fourth;
    struct values *values = room(4);
    out->kind = STRUCT;
    out->is.values = values;
    values->count = 0;
    if (!number(octets, len, at, 4, &first) || !number(octets, len, at, 2, &second) || !number(octets, len, at, 1, &third) || !number(octets, len, at, 1, &fourth))
        return 0;
    values->items[0] = (struct value){INT, {(int32_t)first}};
    values->items[1] = (struct value){INT, {(int16_t)second}};
    values->items[2] = (struct value){CHARACTER, {third}};
    values->items[3] = (struct value){INT, {fourth}};
    values->count = 4;
    return 1;
}

static struct values *record(const uint8_t *octets, size_t len)
{
    uint64_t flag, count;
    size_t at = 0;
    if (!number(octets, len, &at, 1, &flag) || flag != 0 || !number(octets, len, &at, 4, &count) || count > len - at)
        exit(1);
    struct values *rows = room(count);
    for (size_t i = 0; i < count; i++)
        if (!row(octets, len, &at, &rows->items[i]))
            exit(1);
    if (at != len)
        exit(1);
    struct values *members = room(1);
    members->items[0] = (struct value){.kind = LIST, .is.values = rows};
    return members;
}

static double now(void)
{
    struct timespec time;
    clock_gettime(CLOCK_MONOTONIC, &time);
    return time.tv_sec * 1e9 + time.tv_nsec;
}

int main(int words, char **word)
{
    uint32_t count = words > 1 ? strtoul(word[1], NULL, 10) : 999;
    size_t len = 8 + (size_t)count * 8;
    uint8_t *octets = calloc(len, 1);
    if (octets == NULL)
        return 1;
    for (int i = 0; i < 4; i++)
        octets[4 + i] = count >> (24 - 8 * i);
    for (uint32_t row = 0; row < count; row++) {
        uint8_t *here = octets + 8 + (size_t)row * 8;
        for (int i = 0; i < 4; i++)
            here[i] = row >> (24 - 8 * i);
        memcpy(here + 4, "\xc8\x64\x41\xff", 4);
    }
    double least = 1e18;
    for (int turn = 0; turn < 200; turn++) {
        double start = now();
        for (int round = 0; round < 10; round++)
            drop(record(octets, len));
        double each = (now() - start) / 10;
        if (each < least)
            least = each;
    }
    printf("%.0f\n", least);
    free(octets);
    return 0;
}
