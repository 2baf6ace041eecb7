/*
 * How much stack each call takes, its arguments and its return address included. A call runs on a
 * painted stack of its own; the lowest byte that lost its paint says how deep it went. Each call is
 * run for each of its replies: on a small file and on the largest, full and one split before that,
 * by an old image, one between and the true one. It prints a line for each call and ends with 0
 * only if every reply was the expected one and no call took more than LHSTAR_STACK_BYTES.
 */
#define _XOPEN_SOURCE 600

#include <stdio.h>
#include <stdlib.h>
#include <string.h>
#include <ucontext.h>

#include "lhstar.h"

enum { SLOTS = 64, MOST = 4096, LEVEL_MOST = 12, CLIENTS = 256, CLIENT = CLIENTS - 1 };

/* The file, what it was before the call, and its state. */
static uint8_t file[LHSTAR_FILE_BYTES(SLOTS, MOST)];
static uint8_t kept[LHSTAR_FILE_BYTES(SLOTS, MOST)];
static size_t file_length;
static uint64_t capacity, slots, most;
static unsigned level, pointer, buckets;

/* What else a call is lent. */
static uint8_t table[CLIENTS * LHSTAR_CLIENT_BYTES];
static uint8_t payload[LHSTAR_PAYLOAD_BYTES];
static uint8_t answer[LHSTAR_ANSWER_BYTES];
static uint16_t visits[MOST];
static uint64_t matches[SLOTS * MOST];
static size_t table_length, payload_length, answer_length, visits_length, matches_length;
static uint64_t client, key, bucket, threshold;
static uint32_t lift;

/* A table of one client that knows the state. */
static uint8_t knowing[LHSTAR_CLIENT_BYTES];

static int failed;

/* The calls, on what is lent. One that gives no reply is asked for another number. */

static unsigned given;

static void create(void)
{
    given = lhstar_create(file, file_length, capacity, slots, most);
}

static void join(void)
{
    given = lhstar_join(table, table_length, client);
}

static void insert(void)
{
    given = lhstar_insert(file, file_length, table, table_length, client, key,
                          payload, payload_length, answer, answer_length);
}

static void search(void)
{
    given = lhstar_search(file, file_length, table, table_length, client, key,
                          answer, answer_length);
}

static void forwards(void)
{
    given = lhstar_forwards(answer, answer_length);
}

static void split(void)
{
    given = lhstar_split(file, file_length).reply;
}

/* What became of the split, above the reply. */
enum { SPLIT_DONE = 256 * LHSTAR_SPLIT_DONE, SPLIT_NO_ROOM = 256 * LHSTAR_SPLIT_NO_ROOM };

static void insert_split(void)
{
    struct lhstar_load_answer load;
    load = lhstar_insert_split(file, file_length, table, table_length, client, key,
                               payload, payload_length, threshold, answer, answer_length);
    given = load.reply + 256 * load.split;
}

static void scan(void)
{
    given = lhstar_scan(file, file_length, table, table_length, client, lift,
                        visits, visits_length, matches, matches_length).reply;
}

static void check(void)
{
    given = lhstar_check(file, file_length).reply;
}

static void view(void)
{
    given = lhstar_view(file, file_length, bucket).length != 0;
}

static void parent(void)
{
    given = lhstar_parent((uint16_t)bucket) != LHSTAR_NO_BUCKET;
}

static void nothing(void)
{
}

/* The painted stack. */

static uint8_t stack[1 << 18];
static ucontext_t outside, inside;
static void (*called)(void);
static const uint8_t *frame;

static void enter(void)
{
    frame = (const uint8_t *)__builtin_frame_address(0);
    called();
    called = NULL;
}

/* Runs a call, and says how far below the frame above the stack lost its paint. */
static unsigned long depth(void (*call)(void), uint8_t paint)
{
    const uint8_t *lowest = stack;
    memset(stack, paint, sizeof stack);
    if (getcontext(&inside) != 0)
        exit(2);
    inside.uc_stack.ss_sp = stack;
    inside.uc_stack.ss_size = sizeof stack;
    inside.uc_link = &outside;
    called = call;
    makecontext(&inside, enter, 0);
    if (swapcontext(&outside, &inside) != 0)
        exit(2);
    while (*lowest == paint)
        lowest++;
    if (lowest == stack) {
        fprintf(stderr, "stack: a call took all of the stack\n");
        exit(2);
    }
    return (unsigned long)(frame - lowest);
}

/* Files. */

static unsigned number_at(const uint8_t *bytes)
{
    return bytes[0] | (unsigned)bytes[1] << 8;
}

static void write_number(uint8_t *bytes, unsigned number)
{
    bytes[0] = (uint8_t)number;
    bytes[1] = (uint8_t)(number >> 8);
}

static uint8_t *region(unsigned number)
{
    return file + LHSTAR_HEADER_BYTES + number * LHSTAR_REGION_BYTES(slots);
}

/* The key of a bucket by its number among them, of lift 0. */
static uint64_t key_of(unsigned number, uint64_t which)
{
    return number + (which << region(number)[LHSTAR_HEAD_LEVEL]);
}

static void write_image(uint8_t *record, unsigned image_level, unsigned image_pointer)
{
    record[LHSTAR_CLIENT_LEVEL] = (uint8_t)image_level;
    write_number(record + LHSTAR_CLIENT_POINTER, image_pointer);
}

static void expect(const char *what, unsigned number, unsigned expected)
{
    if (number != expected) {
        fprintf(stderr, "stack: %s gave %u, not %u, of %u buckets\n", what, number, expected,
                buckets);
        failed = 1;
    }
}

static void put(uint64_t new_key)
{
    expect("putting a record", lhstar_insert(file, file_length, knowing, sizeof knowing, 0, new_key,
                                             payload, sizeof payload, answer, sizeof answer),
           LHSTAR_DONE);
}

/* Makes a file of so many buckets, each with one slot free. */
static void make(unsigned file_slots, unsigned file_most, unsigned file_buckets)
{
    unsigned number, which;
    slots = capacity = file_slots;
    most = file_most;
    file_length = LHSTAR_FILE_BYTES(slots, most);
    expect("create", lhstar_create(file, file_length, capacity, slots, most), LHSTAR_DONE);
    for (buckets = 1; buckets < file_buckets; buckets++)
        expect("split", lhstar_split(file, file_length).reply, LHSTAR_DONE);
    level = file[LHSTAR_HEADER_LEVEL];
    pointer = number_at(file + LHSTAR_HEADER_POINTER);
    expect("join", lhstar_join(knowing, sizeof knowing, 0), LHSTAR_DONE);
    write_image(knowing, level, pointer);
    for (number = 0; number < buckets; number++)
        for (which = 0; which < slots - 1; which++)
            put(key_of(number, which));
    memcpy(kept, file, file_length);
}

/* Lends everything as it must be, for the last bucket. */
static void lend(unsigned image_level, unsigned image_pointer)
{
    file_length = LHSTAR_FILE_BYTES(slots, most);
    memcpy(file, kept, file_length);
    capacity = slots;
    table_length = sizeof table;
    payload_length = sizeof payload;
    answer_length = sizeof answer;
    visits_length = buckets;
    matches_length = buckets * (slots - 1);
    client = CLIENT;
    threshold = LHSTAR_THRESHOLD_MOST;
    lift = 0;
    bucket = buckets - 1;
    key = key_of(buckets - 1, slots - 1);
    answer[LHSTAR_ANSWER_ROUTE_LENGTH] = LHSTAR_ROUTE_MOST;
    expect("join", lhstar_join(table, sizeof table, CLIENT), LHSTAR_DONE);
    write_image(table + CLIENT * LHSTAR_CLIENT_BYTES, image_level, image_pointer);
}

/* What may then be otherwise. */

static void short_file(void) { file_length--; }
static void short_table(void) { table_length--; }
static void short_payload(void) { payload_length--; }
static void short_block(void) { answer_length--; }
static void short_visits(void) { visits_length--; }
static void short_matches(void) { matches_length--; }
static void high_capacity(void) { capacity = slots + 1; }
static void high_client(void) { client = CLIENTS; }
static void high_threshold(void) { threshold = LHSTAR_THRESHOLD_MOST + 1; }
static void high_bucket(void) { bucket = buckets; }
static void first_bucket(void) { bucket = 0; }
static void other_lift(void) { lift = 1; }
static void held_key(void) { key = key_of(buckets - 1, slots - 2); }

static void full_bucket(void)
{
    put(key);
    key = key_of(buckets - 1, slots);
}

static void full_split(void) { put(key_of(pointer, slots - 1)); }

static void no_client_mark(void)
{
    table[CLIENT * LHSTAR_CLIENT_BYTES + LHSTAR_CLIENT_MARK] = 0;
}

static void image_ahead(void)
{
    write_image(table + CLIENT * LHSTAR_CLIENT_BYTES, LEVEL_MOST, 1);
}

static void no_last_mark(void) { region(buckets - 1)[LHSTAR_HEAD_MARK] = 0; }
static void no_split_mark(void) { region(pointer)[LHSTAR_HEAD_MARK] = 0; }
static void no_new_zeros(void) { region(buckets)[LHSTAR_REGION_BYTES(slots) - 1] = 1; }

/* The key's bucket, the last one, becomes overfull, and a split is due. */
static void overfull(void) { file[LHSTAR_HEADER_CAPACITY] = (uint8_t)(slots - 1); }

/* The bucket to split becomes overfull itself. By the greatest threshold no split is due. */
static void overfull_split(void)
{
    overfull();
    key = key_of(pointer, slots - 1);
}

/* By the least one it is. */
static void due_split(void)
{
    overfull_split();
    threshold = 1;
}

static void overfull_no_split_mark(void)
{
    overfull();
    no_split_mark();
}

static void overfull_no_new_zeros(void)
{
    overfull();
    no_new_zeros();
}

static void due_split_no_new_zeros(void)
{
    due_split();
    no_new_zeros();
}

/* The last record of the last bucket gets the key of the first. */
static void key_twice(void)
{
    uint8_t *first = region(buckets - 1) + LHSTAR_HEAD_BYTES;
    memcpy(first + (slots - 2) * LHSTAR_SLOT_BYTES, first, LHSTAR_SLOT_BYTES);
}

/* The runs: of any file, of one with room for a split, or of one without. */

enum {
    CREATE, JOIN, INSERT, SEARCH, FORWARDS, SPLIT, INSERT_SPLIT, SCAN, CHECK, VIEW, PARENT, CALLS
};
enum { ANY, ROOM, FULL };

static const struct {
    const char *name;
    void (*call)(void);
} calls[CALLS] = {
    { "create", create }, { "join", join }, { "insert", insert }, { "search", search },
    { "forwards", forwards }, { "split", split }, { "insert_split", insert_split },
    { "scan", scan }, { "check", check }, { "view", view }, { "parent", parent }
};

static const struct run {
    unsigned call;
    unsigned of;
    void (*otherwise)(void);
    unsigned expected;
} runs[] = {
    { CREATE, ANY, nothing, LHSTAR_DONE },
    { CREATE, ANY, high_capacity, LHSTAR_FIGURES },
    { CREATE, ANY, short_file, LHSTAR_FIGURES },
    { JOIN, ANY, nothing, LHSTAR_DONE },
    { JOIN, ANY, short_table, LHSTAR_TABLE_LENGTH },
    { JOIN, ANY, high_client, LHSTAR_NO_CLIENT },
    { INSERT, ANY, nothing, LHSTAR_DONE },
    { INSERT, ANY, short_block, LHSTAR_BLOCK_LENGTH },
    { INSERT, ANY, short_payload, LHSTAR_BLOCK_LENGTH },
    { INSERT, ANY, short_table, LHSTAR_TABLE_LENGTH },
    { INSERT, ANY, high_client, LHSTAR_NO_CLIENT },
    { INSERT, ANY, no_client_mark, LHSTAR_CLIENT_UNSOUND },
    { INSERT, ANY, short_file, LHSTAR_HEADER_UNSOUND },
    { INSERT, ANY, image_ahead, LHSTAR_CLIENT_AHEAD },
    { INSERT, ANY, no_last_mark, LHSTAR_BUCKET_UNSOUND },
    { INSERT, ANY, key_twice, LHSTAR_BUCKET_UNSOUND },
    { INSERT, ANY, held_key, LHSTAR_KEY_HELD },
    { INSERT, ANY, full_bucket, LHSTAR_BUCKET_FULL },
    { SEARCH, ANY, held_key, LHSTAR_DONE },
    { SEARCH, ANY, nothing, LHSTAR_ABSENT },
    { SEARCH, ANY, short_block, LHSTAR_BLOCK_LENGTH },
    { SEARCH, ANY, short_table, LHSTAR_TABLE_LENGTH },
    { SEARCH, ANY, high_client, LHSTAR_NO_CLIENT },
    { SEARCH, ANY, no_client_mark, LHSTAR_CLIENT_UNSOUND },
    { SEARCH, ANY, short_file, LHSTAR_HEADER_UNSOUND },
    { SEARCH, ANY, image_ahead, LHSTAR_CLIENT_AHEAD },
    { SEARCH, ANY, no_last_mark, LHSTAR_BUCKET_UNSOUND },
    { SEARCH, ANY, key_twice, LHSTAR_BUCKET_UNSOUND },
    { FORWARDS, ANY, nothing, LHSTAR_ROUTE_MOST - 1 },
    { FORWARDS, ANY, short_block, 0 },
    { SPLIT, ROOM, nothing, LHSTAR_DONE },
    { SPLIT, ROOM, full_split, LHSTAR_DONE },
    { SPLIT, ANY, short_file, LHSTAR_HEADER_UNSOUND },
    { SPLIT, FULL, nothing, LHSTAR_FILE_FULL },
    { SPLIT, ROOM, no_split_mark, LHSTAR_BUCKET_UNSOUND },
    { SPLIT, ROOM, no_new_zeros, LHSTAR_BUCKET_UNSOUND },
    { INSERT_SPLIT, ANY, nothing, LHSTAR_DONE },
    { INSERT_SPLIT, ROOM, overfull_split, LHSTAR_DONE },
    { INSERT_SPLIT, ROOM, overfull, LHSTAR_DONE + SPLIT_DONE },
    { INSERT_SPLIT, ROOM, due_split, LHSTAR_DONE + SPLIT_DONE },
    { INSERT_SPLIT, FULL, overfull, LHSTAR_DONE + SPLIT_NO_ROOM },
    { INSERT_SPLIT, ANY, short_block, LHSTAR_BLOCK_LENGTH },
    { INSERT_SPLIT, ANY, short_payload, LHSTAR_BLOCK_LENGTH },
    { INSERT_SPLIT, ANY, high_threshold, LHSTAR_THRESHOLD },
    { INSERT_SPLIT, ANY, short_table, LHSTAR_TABLE_LENGTH },
    { INSERT_SPLIT, ANY, high_client, LHSTAR_NO_CLIENT },
    { INSERT_SPLIT, ANY, no_client_mark, LHSTAR_CLIENT_UNSOUND },
    { INSERT_SPLIT, ANY, short_file, LHSTAR_HEADER_UNSOUND },
    { INSERT_SPLIT, ANY, image_ahead, LHSTAR_CLIENT_AHEAD },
    { INSERT_SPLIT, ANY, no_last_mark, LHSTAR_BUCKET_UNSOUND },
    { INSERT_SPLIT, ANY, key_twice, LHSTAR_BUCKET_UNSOUND },
    { INSERT_SPLIT, ANY, held_key, LHSTAR_KEY_HELD },
    { INSERT_SPLIT, ANY, full_bucket, LHSTAR_BUCKET_FULL },
    { INSERT_SPLIT, ROOM, overfull_no_split_mark, LHSTAR_BUCKET_UNSOUND },
    { INSERT_SPLIT, ROOM, overfull_no_new_zeros, LHSTAR_BUCKET_UNSOUND },
    { INSERT_SPLIT, ROOM, due_split_no_new_zeros, LHSTAR_BUCKET_UNSOUND },
    { SCAN, ANY, nothing, LHSTAR_DONE },
    { SCAN, ANY, other_lift, LHSTAR_DONE },
    { SCAN, ANY, short_table, LHSTAR_TABLE_LENGTH },
    { SCAN, ANY, high_client, LHSTAR_NO_CLIENT },
    { SCAN, ANY, no_client_mark, LHSTAR_CLIENT_UNSOUND },
    { SCAN, ANY, short_file, LHSTAR_HEADER_UNSOUND },
    { SCAN, ANY, image_ahead, LHSTAR_CLIENT_AHEAD },
    { SCAN, ANY, short_visits, LHSTAR_VISITS_SHORT },
    { SCAN, ANY, no_last_mark, LHSTAR_BUCKET_UNSOUND },
    { SCAN, ANY, key_twice, LHSTAR_BUCKET_UNSOUND },
    { SCAN, ANY, short_matches, LHSTAR_MATCHES_SHORT },
    { CHECK, ANY, nothing, LHSTAR_DONE },
    { CHECK, ANY, short_file, LHSTAR_HEADER_UNSOUND },
    { CHECK, ANY, no_last_mark, LHSTAR_BUCKET_UNSOUND },
    { CHECK, ANY, key_twice, LHSTAR_BUCKET_UNSOUND },
    { CHECK, ROOM, no_new_zeros, LHSTAR_BUCKET_UNSOUND },
    { VIEW, ANY, nothing, 1 },
    { VIEW, ANY, short_file, 0 },
    { VIEW, ANY, high_bucket, 0 },
    { VIEW, ANY, no_last_mark, 0 },
    { VIEW, ANY, key_twice, 0 },
    { PARENT, ANY, nothing, 1 },
    { PARENT, ANY, first_bucket, 0 }
};

enum { SMALL, LARGEST, FILES };

/* The most bytes that a call took on each file, and where an empty function ends. */
static unsigned long taken[CALLS][FILES];
static unsigned long empty;

/* Makes a run on two paints: a byte that is written may look like one of them. */
static void take(const struct run *run, int which_file, unsigned image_level,
                 unsigned image_pointer)
{
    static const uint8_t paints[] = { 0xa5, 0x5a };
    unsigned long *most_taken = &taken[run->call][which_file];
    unsigned long bytes;
    int k;
    for (k = 0; k < 2; k++) {
        lend(image_level, image_pointer);
        run->otherwise();
        bytes = depth(calls[run->call].call, paints[k]) - empty;
        expect(calls[run->call].name, given, run->expected);
        if (bytes > *most_taken)
            *most_taken = bytes;
    }
}

static void take_image(int which_file, unsigned image_level, unsigned image_pointer)
{
    size_t k;
    for (k = 0; k < sizeof runs / sizeof *runs; k++)
        if (runs[k].of == ANY || (runs[k].of == ROOM) == (buckets < most))
            take(&runs[k], which_file, image_level, image_pointer);
}

static void take_file(int which_file, unsigned file_slots, unsigned file_most,
                      unsigned file_buckets)
{
    make(file_slots, file_most, file_buckets);
    take_image(which_file, 0, 0);
    take_image(which_file, level - 1, 0);
    take_image(which_file, level, pointer);
}

static void print_taken(void)
{
    int k;
    printf("bytes of stack, %d at most\n", LHSTAR_STACK_BYTES);
    printf("%-12s%10s%10s\n", "call", "small", "largest");
    for (k = 0; k < CALLS; k++) {
        printf("%-12s%10lu%10lu\n", calls[k].name, taken[k][SMALL], taken[k][LARGEST]);
        if (taken[k][SMALL] > LHSTAR_STACK_BYTES || taken[k][LARGEST] > LHSTAR_STACK_BYTES) {
            fprintf(stderr, "stack: %s took more than LHSTAR_STACK_BYTES\n", calls[k].name);
            failed = 1;
        }
    }
}

int main(void)
{
    empty = depth(nothing, 0xa5);
    take_file(SMALL, 4, 7, 6);
    take_file(SMALL, 4, 7, 7);
    take_file(LARGEST, SLOTS, MOST, MOST - 1);
    take_file(LARGEST, SLOTS, MOST, MOST);
    print_taken();
    return failed;
}
