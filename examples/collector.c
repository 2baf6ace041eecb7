/*
 * A collector of rides, as a gateway would write it: it lends the library one file buffer and one
 * client table, inserts rides with load control, which splits where a split is due, and looks rides
 * up again. It prints a line for each call and ends with 0 only if each reply was the expected one.
 */
#include <stdio.h>
#include <string.h>

#include "lhstar.h"

enum { CAPACITY = 2, SLOTS = 4, MOST = 16, CLIENTS = 4, THRESHOLD = 80 };

/* Who calls. */
enum { GATE = 0, OFFICE = 1, PATROL = 2, KIOSK = 3, STRANGER = CLIENTS };

struct ride {
    uint32_t lift;
    uint32_t number;
};

/* How many bytes of each buffer a call is lent. */
struct lent {
    size_t file;
    size_t table;
    size_t payload;
    size_t answer;
};

/* One insert or search and the reply that it must give. */
struct call {
    const char *name;
    unsigned client;
    struct ride ride;
    unsigned expected;
};

static uint8_t file[LHSTAR_FILE_BYTES(SLOTS, MOST)];
static uint8_t table[CLIENTS * LHSTAR_CLIENT_BYTES];
static const struct lent whole = {
    sizeof file, sizeof table, LHSTAR_PAYLOAD_BYTES, LHSTAR_ANSWER_BYTES
};

static unsigned long forwards_of[CLIENTS];
static int surprised;

static void expect(const char *what, unsigned long given, unsigned long expected)
{
    if (given != expected) {
        fprintf(stderr, "collector: %s gave %lu, not %lu\n", what, given, expected);
        surprised = 1;
    }
}

/* Bytes. */

static unsigned number_at(const uint8_t *bytes)
{
    return bytes[0] | (unsigned)bytes[1] << 8;
}

static uint64_t key_at(const uint8_t *bytes)
{
    uint64_t key = 0;
    int k;
    for (k = LHSTAR_KEY_BYTES - 1; k >= 0; k--)
        key = key << 8 | bytes[k];
    return key;
}

static void write_key(uint8_t *bytes, uint64_t key)
{
    int k;
    for (k = 0; k < LHSTAR_KEY_BYTES; k++)
        bytes[k] = (uint8_t)(key >> 8 * k);
}

static uint64_t key_of(struct ride ride)
{
    return (uint64_t)ride.lift << 32 | ride.number;
}

static struct ride ride_of(uint64_t key)
{
    struct ride ride;
    ride.lift = (uint32_t)(key >> 32);
    ride.number = (uint32_t)key;
    return ride;
}

/* The library gives a payload no meaning; this collector writes the key and a word. */
static void write_payload(uint8_t payload[LHSTAR_PAYLOAD_BYTES], struct ride ride)
{
    write_key(payload, key_of(ride));
    memcpy(payload + LHSTAR_KEY_BYTES, "uphill", LHSTAR_PAYLOAD_BYTES - LHSTAR_KEY_BYTES);
}

/* Printing. */

static void print_bucket(uint32_t bucket)
{
    if (bucket == LHSTAR_NO_BUCKET)
        printf("-");
    else
        printf("%lu", (unsigned long)bucket);
}

static void print_ride(struct ride ride)
{
    printf("lift %lu ride %lu", (unsigned long)ride.lift, (unsigned long)ride.number);
}

static void print_route(const uint8_t *answer)
{
    int length = answer[LHSTAR_ANSWER_ROUTE_LENGTH];
    int k;
    if (length == 0)
        printf("-");
    for (k = 0; k < length && k < LHSTAR_ROUTE_MOST; k++)
        printf("%s%u", k > 0 ? ">" : "",
               number_at(answer + LHSTAR_ANSWER_ROUTE + LHSTAR_NUMBER_BYTES * k));
}

static void print_image(unsigned client)
{
    const uint8_t *record;
    if (client >= CLIENTS) {
        printf("-");
        return;
    }
    record = table + client * LHSTAR_CLIENT_BYTES;
    printf("(%u,%u)", (unsigned)record[LHSTAR_CLIENT_LEVEL],
           number_at(record + LHSTAR_CLIENT_POINTER));
}

static void print_split(uint32_t old_bucket, uint32_t new_bucket)
{
    printf(" old ");
    print_bucket(old_bucket);
    printf(" new ");
    print_bucket(new_bucket);
}

static const char *split_outcome(uint32_t split)
{
    if (split == LHSTAR_SPLIT_DONE)
        return "done";
    return split == LHSTAR_SPLIT_NO_ROOM ? "no room" : "not due";
}

static void print_call(const struct call *call, unsigned reply, const uint8_t *answer,
                       uint32_t forwards)
{
    printf("%s client %u ", call->name, call->client);
    print_ride(call->ride);
    printf(": reply %u route ", reply);
    print_route(answer);
    printf(" forwards %lu image ", (unsigned long)forwards);
    print_image(call->client);
    if (answer[LHSTAR_ANSWER_COUNT])
        printf(" count %u", answer[LHSTAR_ANSWER_COUNT]);
}

static void print_load(const struct lhstar_load_answer *load)
{
    if (load->reply == LHSTAR_DONE)
        printf(" split %s", split_outcome(load->split));
    if (load->old_bucket != LHSTAR_NO_BUCKET)
        print_split(load->old_bucket, load->new_bucket);
    puts("");
}

/*
 * The inserts and search. Each answer block starts as zeros, and reply 14 leaves it so. What settle
 * prints is the line's first part.
 */

static void settle(const struct call *call, unsigned reply, const uint8_t *answer,
                   size_t answer_length)
{
    uint32_t forwards = lhstar_forwards(answer, answer_length);
    print_call(call, reply, answer, forwards);
    if (call->client < CLIENTS)
        forwards_of[call->client] += forwards;
    expect(call->name, reply, call->expected);
    expect("the answer's first byte", answer[LHSTAR_ANSWER_REPLY],
           reply == LHSTAR_BLOCK_LENGTH ? 0 : reply);
}

/* Inserts without load control: the caller has to look for overfull buckets. */
static void insert_lent(struct lent lent, unsigned client, struct ride ride, unsigned expected)
{
    struct call call = { "insert", client, ride, expected };
    uint8_t payload[LHSTAR_PAYLOAD_BYTES];
    uint8_t answer[LHSTAR_ANSWER_BYTES] = { 0 };
    unsigned reply;
    write_payload(payload, ride);
    reply = lhstar_insert(file, lent.file, table, lent.table, client, key_of(ride),
                          payload, lent.payload, answer, lent.answer);
    settle(&call, reply, answer, lent.answer);
    puts(answer[LHSTAR_ANSWER_COUNT] > CAPACITY ? " overfull" : "");
}

static void insert(unsigned client, struct ride ride, unsigned expected)
{
    insert_lent(whole, client, ride, expected);
}

/* Inserts with load control, and says what became of the split. */
static uint32_t insert_split(unsigned client, struct ride ride, unsigned threshold,
                             unsigned expected)
{
    struct call call = { "insert_split", client, ride, expected };
    struct lhstar_load_answer load;
    uint8_t payload[LHSTAR_PAYLOAD_BYTES];
    uint8_t answer[LHSTAR_ANSWER_BYTES] = { 0 };
    write_payload(payload, ride);
    load = lhstar_insert_split(file, sizeof file, table, sizeof table, client, key_of(ride),
                               payload, sizeof payload, threshold, answer, sizeof answer);
    settle(&call, load.reply, answer, sizeof answer);
    print_load(&load);
    return load.split;
}

/* A found ride comes with the payload that it was inserted with, any other with zeros. */
static void expect_payload(const uint8_t *answer, struct ride ride, unsigned reply)
{
    uint8_t payload[LHSTAR_PAYLOAD_BYTES] = { 0 };
    if (reply == LHSTAR_DONE)
        write_payload(payload, ride);
    expect("comparing the payload",
           memcmp(answer + LHSTAR_ANSWER_PAYLOAD, payload, sizeof payload) != 0, 0);
}

static void search_lent(struct lent lent, unsigned client, struct ride ride, unsigned expected)
{
    struct call call = { "search", client, ride, expected };
    uint8_t answer[LHSTAR_ANSWER_BYTES] = { 0 };
    unsigned reply = lhstar_search(file, lent.file, table, lent.table, client, key_of(ride),
                                   answer, lent.answer);
    settle(&call, reply, answer, lent.answer);
    puts("");
    expect_payload(answer, ride, reply);
}

static void search(unsigned client, struct ride ride, unsigned expected)
{
    search_lent(whole, client, ride, expected);
}

/* The other calls. */

static void create(unsigned capacity, unsigned slots, unsigned most, unsigned expected)
{
    unsigned reply = lhstar_create(file, sizeof file, capacity, slots, most);
    printf("create capacity %u slots %u most %u: reply %u\n", capacity, slots, most, reply);
    expect("create", reply, expected);
}

static void join(unsigned client, unsigned expected)
{
    unsigned reply = lhstar_join(table, sizeof table, client);
    printf("join client %u: reply %u image ", client, reply);
    print_image(client);
    puts("");
    expect("join", reply, expected);
}

static void split(size_t file_length, unsigned expected)
{
    struct lhstar_split_answer answer = lhstar_split(file, file_length);
    printf("split: reply %lu", (unsigned long)answer.reply);
    print_split(answer.old_bucket, answer.new_bucket);
    puts("");
    expect("split", answer.reply, expected);
}

static void check(size_t file_length, unsigned expected)
{
    struct lhstar_check_answer answer = lhstar_check(file, file_length);
    printf("check: reply %lu bucket ", (unsigned long)answer.reply);
    print_bucket(answer.bucket);
    puts("");
    expect("check", answer.reply, expected);
}

static void print_slot(const uint8_t *slot)
{
    printf("  ");
    print_ride(ride_of(key_at(slot + LHSTAR_SLOT_KEY)));
    puts("");
}

/* Reads a bucket's records where they stand in the file; so many are expected. */
static void view(unsigned bucket, unsigned long records)
{
    struct lhstar_view_answer part = lhstar_view(file, sizeof file, bucket);
    unsigned long length = records * LHSTAR_SLOT_BYTES;
    unsigned long at;
    printf("view bucket %u: start %lu length %lu\n", bucket, (unsigned long)part.start,
           (unsigned long)part.length);
    expect("view", (unsigned long)part.length, length);
    if (part.length != length || part.start > sizeof file - length)
        return;
    for (at = 0; at < length; at += LHSTAR_SLOT_BYTES)
        print_slot(file + part.start + at);
}

static void parent(unsigned bucket, uint32_t expected)
{
    uint32_t born_of = lhstar_parent((uint16_t)bucket);
    printf("parent of bucket %u: ", bucket);
    print_bucket(born_of);
    puts("");
    expect("parent", born_of, expected);
}

/* The collector's day. */

static const struct ride morning[] = {
    { 7, 1 }, { 7, 2 }, { 12, 3 }, { 12, 5 }, { 31, 7 }, { 31, 6 }, { 7, 10 }
};
static const struct ride evening[] = { { 12, 9 }, { 31, 13 } };

static const struct ride ride_2 = { 7, 2 };
static const struct ride ride_5 = { 12, 5 };
static const struct ride ride_6 = { 31, 6 };
static const struct ride ride_7 = { 31, 7 };
static const struct ride ride_11 = { 12, 11 };
static const struct ride ride_14 = { 7, 14 };
static const struct ride ride_18 = { 7, 18 };
static const struct ride ride_19 = { 31, 19 };
static const struct ride ride_34 = { 7, 34 };
static const struct ride never_ridden = { 31, 15 };
static const struct ride other_lift = { 7, 5 };

static void open_file(void)
{
    unsigned client;
    create(CAPACITY, SLOTS, MOST, LHSTAR_DONE);
    for (client = 0; client < CLIENTS; client++)
        join(client, LHSTAR_DONE);
}

static void collect(const struct ride *rides, size_t count)
{
    size_t k;
    for (k = 0; k < count; k++)
        insert_split(GATE, rides[k], THRESHOLD, LHSTAR_DONE);
}

static void look_up(void)
{
    puts("the office is behind and learns from its searches");
    search(OFFICE, ride_5, LHSTAR_DONE);
    search(OFFICE, ride_5, LHSTAR_DONE);
    search(OFFICE, ride_5, LHSTAR_DONE);
    search(OFFICE, other_lift, LHSTAR_ABSENT);
}

static void look_over(void)
{
    puts("the file as it stands");
    check(sizeof file, LHSTAR_DONE);
    view(5, 2);
    view(6, 0);
    parent(5, 1);
    parent(0, LHSTAR_NO_BUCKET);
}

/* In state (2,2) bucket 3 of three records is overfull: 100 * 4 * 3 is not above 100 * 2 * 6. */
static void control_load(void)
{
    puts("overfull, but not due at threshold 100");
    expect("its split", insert_split(GATE, ride_11, 100, LHSTAR_DONE), LHSTAR_SPLIT_NOT_DUE);
    puts("thresholds 0 and 101");
    insert_split(GATE, ride_14, 0, LHSTAR_THRESHOLD);
    insert_split(GATE, ride_14, LHSTAR_THRESHOLD_MOST + 1, LHSTAR_THRESHOLD);
}

static void refuse_lengths(void)
{
    struct lent lent = whole;
    puts("answer block one byte short");
    lent.answer--;
    insert_lent(lent, GATE, ride_14, LHSTAR_BLOCK_LENGTH);
    search_lent(lent, GATE, ride_5, LHSTAR_BLOCK_LENGTH);
    puts("payload one byte short");
    lent = whole;
    lent.payload--;
    insert_lent(lent, GATE, ride_14, LHSTAR_BLOCK_LENGTH);
    puts("client table one byte short");
    lent = whole;
    lent.table--;
    search_lent(lent, GATE, ride_5, LHSTAR_TABLE_LENGTH);
    puts("file one byte short");
    lent = whole;
    lent.file--;
    search_lent(lent, GATE, ride_5, LHSTAR_HEADER_UNSOUND);
    split(lent.file, LHSTAR_HEADER_UNSOUND);
    check(lent.file, LHSTAR_HEADER_UNSOUND);
}

static void refuse_clients(void)
{
    puts("unknown client");
    join(STRANGER, LHSTAR_NO_CLIENT);
    insert(STRANGER, ride_14, LHSTAR_NO_CLIENT);
    search(STRANGER, ride_5, LHSTAR_NO_CLIENT);
    puts("client record without its mark, then joined again");
    table[KIOSK * LHSTAR_CLIENT_BYTES + LHSTAR_CLIENT_MARK] = 0;
    search(KIOSK, ride_5, LHSTAR_CLIENT_UNSOUND);
    join(KIOSK, LHSTAR_DONE);
}

/* A refused insert adjusts the image too; a held key is told before a full bucket. */
static void refuse_rides(void)
{
    puts("held key");
    insert(PATROL, ride_5, LHSTAR_KEY_HELD);
    puts("full bucket, its split put off");
    insert(GATE, ride_14, LHSTAR_DONE);
    insert(KIOSK, ride_18, LHSTAR_BUCKET_FULL);
    insert(KIOSK, ride_2, LHSTAR_KEY_HELD);
}

/*
 * An unsound bucket ends the route, and the image stays as it was. Bucket 2 is the one to split: an
 * insert elsewhere that needs the split is refused too, with its route whole and nothing placed.
 */
static void refuse_bucket(void)
{
    uint8_t *region = file + LHSTAR_HEADER_BYTES + 2 * LHSTAR_REGION_BYTES(SLOTS);
    uint8_t *mark = region + LHSTAR_HEAD_MARK;
    uint8_t kept = *mark;
    puts("bucket 2 without its mark, then mended");
    join(KIOSK, LHSTAR_DONE);
    *mark = 0;
    search(KIOSK, ride_6, LHSTAR_BUCKET_UNSOUND);
    insert_split(KIOSK, ride_19, THRESHOLD, LHSTAR_BUCKET_UNSOUND);
    split(sizeof file, LHSTAR_BUCKET_UNSOUND);
    check(sizeof file, LHSTAR_BUCKET_UNSOUND);
    view(2, 0);
    *mark = kept;
    search(KIOSK, ride_6, LHSTAR_DONE);
}

static void fill_file(void)
{
    int buckets;
    puts("split until the file is full");
    for (buckets = 6; buckets < MOST; buckets++)
        split(sizeof file, LHSTAR_DONE);
    split(sizeof file, LHSTAR_FILE_FULL);
    insert_split(GATE, ride_18, THRESHOLD, LHSTAR_DONE);
    expect("its split", insert_split(GATE, ride_34, THRESHOLD, LHSTAR_DONE), LHSTAR_SPLIT_NO_ROOM);
    check(sizeof file, LHSTAR_DONE);
    search(PATROL, ride_7, LHSTAR_DONE);
    search(PATROL, never_ridden, LHSTAR_ABSENT);
}

static void start_anew(void)
{
    puts("a new file, of which the patrol believes too much");
    create(SLOTS + 1, SLOTS, MOST, LHSTAR_FIGURES);
    create(CAPACITY, SLOTS, MOST, LHSTAR_DONE);
    check(sizeof file, LHSTAR_DONE);
    search(PATROL, ride_7, LHSTAR_CLIENT_AHEAD);
    join(PATROL, LHSTAR_DONE);
    search(PATROL, ride_7, LHSTAR_ABSENT);
}

static void sum_up(void)
{
    unsigned client;
    puts("forwards");
    for (client = 0; client < CLIENTS; client++)
        printf("client %u: %lu\n", client, forwards_of[client]);
}

int main(void)
{
    open_file();
    collect(morning, sizeof morning / sizeof *morning);
    search(PATROL, ride_7, LHSTAR_DONE);
    collect(evening, sizeof evening / sizeof *evening);
    look_up();
    look_over();
    control_load();
    refuse_lengths();
    refuse_clients();
    refuse_rides();
    refuse_bucket();
    fill_file();
    start_anew();
    sum_up();
    return surprised;
}
