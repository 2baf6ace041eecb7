/*
 * What load control does for a file. The same keys, of a fixed generator, are inserted into files
 * of 64 slots until they have their 4096 buckets: without load control, where each overfull insert
 * splits, and with it at two thresholds. The load is the records over capacity times buckets, in
 * percent; it is taken after each record of the split pointer's last lap, from 2048 buckets on.
 *
 * Document 002 has for capacity 50 a least and an average load of 52 and 62 without load control,
 * of 63 and 68 at threshold 80, of about 75 and almost 80 at threshold 100. Its buckets take any
 * number of records. A bucket that is not yet split in a lap makes a split due only above
 * threshold * capacity / 100 records, and at the lap's end above almost twice as many. With fewer
 * slots it is full before: then it refuses keys (reply 9), and makes no split due.
 *
 * It ends with 0 only if each key was placed or refused by a full bucket.
 */
#include <stdio.h>
#include <stdlib.h>

#include "lhstar.h"

enum { SLOTS = 64, MOST = 4096 };

/* The files. */
enum { NO_CONTROL = 0, FILES = 6 };
static const unsigned capacities[FILES] = { 50, 50, 50, 32, 32, 32 };
static const unsigned thresholds[FILES] = { NO_CONTROL, 80, 100, NO_CONTROL, 80, 100 };

/* The buckets are looked at after so many keys, and again so many later. */
enum { STEP = 15000, LOOKS = 5 };

struct growth {
    unsigned capacity, threshold;
    unsigned long keys, refused;
    unsigned long buckets_at[LOOKS];
    /* The loads taken, in tenths of a percent. */
    unsigned long least, greatest, taken;
    uint64_t sum;
};

static uint8_t file[LHSTAR_FILE_BYTES(SLOTS, MOST)];
static uint8_t table[LHSTAR_CLIENT_BYTES];
static uint8_t answer[LHSTAR_ANSWER_BYTES];
static const uint8_t payload[LHSTAR_PAYLOAD_BYTES] = { 0 };

static void must_be_done(unsigned long reply)
{
    if (reply != LHSTAR_DONE) {
        fprintf(stderr, "load: reply %lu\n", reply);
        exit(1);
    }
}

/* The next key: a counter, mixed. */
static uint64_t next_key(uint64_t *counter)
{
    uint64_t key = *counter += UINT64_C(0x9E3779B97F4A7C15);
    key = (key ^ key >> 30) * UINT64_C(0xBF58476D1CE4E5B9);
    key = (key ^ key >> 27) * UINT64_C(0x94D049BB133111EB);
    return key ^ key >> 31;
}

static unsigned long bucket_count(void)
{
    const uint8_t *pointer = file + LHSTAR_HEADER_POINTER;
    return (1UL << file[LHSTAR_HEADER_LEVEL]) + pointer[0] + 256UL * pointer[1];
}

/* Inserts a key; an overfull insert splits. */
static unsigned insert(uint64_t key, unsigned capacity)
{
    unsigned reply = lhstar_insert(file, sizeof file, table, sizeof table, 0, key,
                                   payload, sizeof payload, answer, sizeof answer);
    if (answer[LHSTAR_ANSWER_COUNT] > capacity)
        must_be_done(lhstar_split(file, sizeof file).reply);
    return reply;
}

/* Inserts a key; the load decides. */
static unsigned insert_split(uint64_t key, unsigned threshold)
{
    return lhstar_insert_split(file, sizeof file, table, sizeof table, 0, key, payload,
                               sizeof payload, threshold, answer, sizeof answer).reply;
}

static unsigned long records(const struct growth *growth)
{
    return growth->keys - growth->refused;
}

static unsigned long load(const struct growth *growth, unsigned long buckets)
{
    return 1000 * records(growth) / (growth->capacity * buckets);
}

static void take_load(struct growth *growth, unsigned long taken)
{
    if (growth->taken == 0 || taken < growth->least)
        growth->least = taken;
    if (taken > growth->greatest)
        growth->greatest = taken;
    growth->sum += taken;
    growth->taken++;
}

static void add_key(struct growth *growth, uint64_t key)
{
    unsigned reply = growth->threshold == NO_CONTROL ? insert(key, growth->capacity)
                                                     : insert_split(key, growth->threshold);
    unsigned long buckets = bucket_count();
    growth->keys++;
    if (growth->keys % STEP == 0 && growth->keys / STEP <= LOOKS)
        growth->buckets_at[growth->keys / STEP - 1] = buckets;
    if (reply == LHSTAR_BUCKET_FULL) {
        growth->refused++;
        return;
    }
    must_be_done(reply);
    if (buckets >= MOST / 2)
        take_load(growth, load(growth, buckets));
}

static void grow(struct growth *growth)
{
    uint64_t counter = 0;
    must_be_done(lhstar_create(file, sizeof file, growth->capacity, SLOTS, MOST));
    must_be_done(lhstar_join(table, sizeof table, 0));
    while (bucket_count() < MOST)
        add_key(growth, next_key(&counter));
    must_be_done(lhstar_check(file, sizeof file).reply);
}

static void print_threshold(unsigned threshold)
{
    if (threshold == NO_CONTROL)
        printf("%10s", "none");
    else
        printf("%10u", threshold);
}

static void print_tenths(unsigned long tenths)
{
    printf("%8lu.%lu", tenths / 10, tenths % 10);
}

static void print_growth(const struct growth *growth)
{
    printf("%10u", growth->capacity);
    print_threshold(growth->threshold);
    printf("%10lu%10lu", growth->keys, growth->refused);
    print_tenths(10 * records(growth) / MOST);
    print_tenths(load(growth, MOST));
    print_tenths(growth->least);
    print_tenths((unsigned long)(growth->sum / growth->taken));
    print_tenths(growth->greatest);
    puts("");
}

static void print_growths(const struct growth *growths)
{
    int k;
    printf("at %d buckets, and the load of the last lap\n", MOST);
    printf("%10s%10s%10s%10s%10s%10s%10s%10s%10s\n", "capacity", "threshold", "keys", "refused",
           "a bucket", "load", "least", "average", "greatest");
    for (k = 0; k < FILES; k++)
        print_growth(&growths[k]);
}

static void print_looks(const struct growth *growths)
{
    int k, look;
    printf("buckets after the same keys\n%10s", "capacity");
    for (k = 0; k < FILES; k++)
        printf("%10u", growths[k].capacity);
    printf("\n%10s", "threshold");
    for (k = 0; k < FILES; k++)
        print_threshold(growths[k].threshold);
    for (look = 0; look < LOOKS; look++) {
        printf("\n%10d", STEP * (look + 1));
        for (k = 0; k < FILES; k++)
            printf("%10lu", growths[k].buckets_at[look]);
    }
    puts("");
}

int main(void)
{
    static struct growth growths[FILES];
    int k;
    for (k = 0; k < FILES; k++) {
        growths[k].capacity = capacities[k];
        growths[k].threshold = thresholds[k];
        grow(&growths[k]);
    }
    print_growths(growths);
    print_looks(growths);
    return 0;
}
