/*
 * The worked examples of document 01, run through the calls. It prints a line for each; what the
 * lines must be stands in worked.expected.
 */
#include <stdio.h>
#include <stdlib.h>

#include "lhstar.h"

enum { CAPACITY = 2, SLOTS = 4, MOST = 16 };

static uint8_t file[LHSTAR_FILE_BYTES(SLOTS, MOST)];
static uint8_t table[LHSTAR_CLIENT_BYTES];
static uint8_t answer[LHSTAR_ANSWER_BYTES];
static const uint8_t payload[LHSTAR_PAYLOAD_BYTES] = { 0 };
static uint16_t visits[MOST];
static uint64_t matches[MOST];

static unsigned number_at(const uint8_t *bytes)
{
    return bytes[0] | (unsigned)bytes[1] << 8;
}

static void write_number(uint8_t *bytes, unsigned number)
{
    bytes[0] = (uint8_t)number;
    bytes[1] = (uint8_t)(number >> 8);
}

/* A file of so many most buckets after so many splits. */
static size_t make(unsigned most, unsigned splits)
{
    size_t length = LHSTAR_FILE_BYTES(SLOTS, most);

    if (lhstar_create(file, length, CAPACITY, SLOTS, most) != LHSTAR_DONE)
        exit(1);
    while (splits--)
        if (lhstar_split(file, length).reply != LHSTAR_DONE)
            exit(1);
    return length;
}

/* The one client joins, and then believes in (level, pointer). */
static void believe(unsigned level, unsigned pointer)
{
    if (lhstar_join(table, sizeof table, 0) != LHSTAR_DONE)
        exit(1);
    table[LHSTAR_CLIENT_LEVEL] = (uint8_t)level;
    write_number(table + LHSTAR_CLIENT_POINTER, pointer);
}

static void print_state(void)
{
    printf("file (%u,%u)", file[LHSTAR_HEADER_LEVEL], number_at(file + LHSTAR_HEADER_POINTER));
}

static void print_image(void)
{
    printf("image (%u,%u)", table[LHSTAR_CLIENT_LEVEL], number_at(table + LHSTAR_CLIENT_POINTER));
}

/* A search that finds nothing: where it went, and the image then. */
static void ask(const char *name, size_t length, unsigned long long key)
{
    unsigned k;

    printf("%s ", name);
    print_state();
    printf(", ");
    print_image();
    printf(", key %llu: ", key);
    printf("reply %u, route", lhstar_search(file, length, table, sizeof table, 0, key, answer, sizeof answer));
    for (k = 0; k < answer[LHSTAR_ANSWER_ROUTE_LENGTH]; k++)
        printf(" %u", number_at(answer + LHSTAR_ANSWER_ROUTE + LHSTAR_NUMBER_BYTES * k));
    printf(", forwards %u; ", (unsigned)lhstar_forwards(answer, sizeof answer));
    print_image();
    printf("\n");
}

/* A scan that finds nothing: where it went, and the image then. */
static void sweep(const char *name, size_t length)
{
    struct lhstar_scan_answer scan;
    unsigned k;

    printf("%s ", name);
    print_state();
    printf(", ");
    print_image();
    scan = lhstar_scan(file, length, table, sizeof table, 0, 0, visits, MOST, matches, MOST);
    printf(", scan: reply %u, visits", (unsigned)scan.reply);
    for (k = 0; k < scan.visits; k++)
        printf(" %u", visits[k]);
    printf(", matches %u; ", (unsigned)scan.matches);
    print_image();
    printf("\n");
}

static void print_split(const char *name, size_t length)
{
    struct lhstar_split_answer split;

    printf("%s ", name);
    print_state();
    split = lhstar_split(file, length);
    printf(", split: reply %u, %u into %u and %u; ", (unsigned)split.reply, (unsigned)split.old_bucket,
           (unsigned)split.old_bucket, (unsigned)split.new_bucket);
    print_state();
    printf("\n");
}

static void put(size_t length, unsigned long long key)
{
    unsigned reply = lhstar_insert(file, length, table, sizeof table, 0, key,
                                   payload, sizeof payload, answer, sizeof answer);

    printf("S records, key %llu: reply %u, count %u\n", key, reply, answer[LHSTAR_ANSWER_COUNT]);
}

int main(void)
{
    size_t length;
    unsigned long long key;

    length = make(MOST, 5);
    believe(0, 0);
    ask("P1", length, 5);
    ask("P2", length, 5);
    ask("P3", length, 5);
    length = make(MOST, 4);
    believe(0, 0);
    ask("P4", length, 7);
    length = make(MOST, 7);
    believe(2, 3);
    ask("P5", length, 7);
    length = make(MOST, 5);
    believe(1, 1);
    sweep("P6", length);
    length = make(MOST, 7);
    believe(0, 0);
    sweep("P7", length);
    length = make(MOST, 0);
    believe(0, 0);
    ask("P8", length, 0);
    ask("P8", length, 18446744073709551615ULL);
    printf("P9 parent of 5 is %u\n", (unsigned)lhstar_parent(5));
    length = make(MOST, 2);
    print_split("P10", length);
    length = make(1, 0);
    print_split("M = 1", length);
    length = make(2, 0);
    print_split("M = 2", length);
    print_split("M = 2", length);
    length = make(1, 0);
    believe(0, 0);
    for (key = 1; key <= SLOTS + 1; key++)
        put(length, key);
    put(length, 1);
    return 0;
}
