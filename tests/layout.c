/*
 * The sizes and places that the header names, compared with the documents' figures and with the
 * bytes and answers that the calls give. It ends with 0 only if all agree.
 */
#include <stdio.h>
#include <string.h>

#include "lhstar.h"

/* The splits lead to state (9, 258): both bytes of a number are then in use. */
enum { CAPACITY = 1, SLOTS = 5, MOST = 772, LEVEL = 9, POINTER = 258, BUCKETS = 512 + POINTER };
enum { CLIENTS = 3, CLIENT = 2 };

static uint8_t file[LHSTAR_FILE_BYTES(SLOTS, MOST)];
static uint8_t table[CLIENTS * LHSTAR_CLIENT_BYTES];
static uint8_t answer[LHSTAR_ANSWER_BYTES];
static uint8_t payload[LHSTAR_PAYLOAD_BYTES];
static uint16_t visits[MOST];
static uint64_t matches[SLOTS];

/* They stand in bucket 769, the last one, whose level is 10. */
static const uint64_t first_key = UINT64_C(0x0807060504030301);
static const uint64_t second_key = UINT64_C(0x0807060514131301);

/* It belongs there too, by its lower ten bits, and so does each key that is a step above. */
static const uint64_t third_key = UINT64_C(0x0807060524231301);
enum { KEY_STEP = 1 << (LEVEL + 1) };

static int failed;

static void expect(const char *what, unsigned long given, unsigned long expected)
{
    if (given != expected) {
        fprintf(stderr, "layout: %s: %lu, not %lu\n", what, given, expected);
        failed = 1;
    }
}

static unsigned number_at(const uint8_t *bytes)
{
    return bytes[0] | (unsigned)bytes[1] << 8;
}

static uint64_t key_at(const uint8_t *bytes)
{
    uint64_t key = 0;
    int k;
    for (k = LHSTAR_KEY_BYTES - 1; k >= 0; k--)
        key = key << 8 | bytes[k];
    return key;
}

static void expect_mark(const char *what, const uint8_t *mark, char last)
{
    expect(what, mark[0], 'L');
    expect(what, mark[1], (unsigned char)last);
}

static void expect_zeros(const char *what, const uint8_t *from, const uint8_t *end)
{
    while (from < end)
        expect(what, *from++, 0);
}

static void judge_sizes(void)
{
    expect("header", LHSTAR_HEADER_BYTES, 16);
    expect("head", LHSTAR_HEAD_BYTES, 8);
    expect("slot", LHSTAR_SLOT_BYTES, 24);
    expect("client record", LHSTAR_CLIENT_BYTES, 8);
    expect("answer block", LHSTAR_ANSWER_BYTES, 24);
    expect("route", LHSTAR_ANSWER_ROUTE + LHSTAR_NUMBER_BYTES * LHSTAR_ROUTE_MOST,
           LHSTAR_ANSWER_COUNT);
    expect("key", LHSTAR_SLOT_KEY + LHSTAR_KEY_BYTES, LHSTAR_SLOT_PAYLOAD);
    expect("region", LHSTAR_REGION_BYTES(64), 8 + 24 * 64);
    expect("file", LHSTAR_FILE_BYTES(64, 4096), 16 + 4096 * (8 + 24 * 64));
    expect("sums as arguments", LHSTAR_FILE_BYTES(1 + 1, 1 + 1), 16 + 2 * (8 + 24 * 2));
}

/* Makes the file and the table, and inserts both keys by an image that is old at first. */
static void fill(void)
{
    int k;
    expect("create", lhstar_create(file, sizeof file, CAPACITY, SLOTS, MOST), LHSTAR_DONE);
    for (k = 1; k < BUCKETS; k++)
        expect("split", lhstar_split(file, sizeof file).reply, LHSTAR_DONE);
    for (k = 0; k < LHSTAR_PAYLOAD_BYTES; k++)
        payload[k] = (uint8_t)(k + 1);
    expect("join", lhstar_join(table, sizeof table, CLIENT), LHSTAR_DONE);
    expect("insert", lhstar_insert(file, sizeof file, table, sizeof table, CLIENT, first_key,
                                   payload, sizeof payload, answer, sizeof answer), LHSTAR_DONE);
    expect("count", answer[LHSTAR_ANSWER_COUNT], 1);
    expect("insert", lhstar_insert(file, sizeof file, table, sizeof table, CLIENT, second_key,
                                   payload, sizeof payload, answer, sizeof answer), LHSTAR_DONE);
    expect("count", answer[LHSTAR_ANSWER_COUNT], 2);
    expect("check", lhstar_check(file, sizeof file).reply, LHSTAR_DONE);
}

static void judge_header(void)
{
    expect_mark("header's mark", file + LHSTAR_HEADER_MARK, 'F');
    expect("level", file[LHSTAR_HEADER_LEVEL], LEVEL);
    expect("capacity", file[LHSTAR_HEADER_CAPACITY], CAPACITY);
    expect("pointer", number_at(file + LHSTAR_HEADER_POINTER), POINTER);
    expect("most", number_at(file + LHSTAR_HEADER_MOST), MOST);
    expect("slots", file[LHSTAR_HEADER_SLOTS], SLOTS);
    expect_zeros("header's zeros", file + LHSTAR_HEADER_ZEROS, file + LHSTAR_HEADER_BYTES);
}

static void judge_slot(const uint8_t *slot, uint64_t key)
{
    expect_mark("slot's mark", slot + LHSTAR_SLOT_MARK, 'R');
    expect("slot's key", key_at(slot + LHSTAR_SLOT_KEY) != key, 0);
    expect("slot's payload", memcmp(slot + LHSTAR_SLOT_PAYLOAD, payload, sizeof payload) != 0, 0);
}

static void judge_bucket(void)
{
    const uint8_t *head = file + LHSTAR_HEADER_BYTES + (BUCKETS - 1) * LHSTAR_REGION_BYTES(SLOTS);
    const uint8_t *slot = head + LHSTAR_HEAD_BYTES;
    struct lhstar_view_answer part = lhstar_view(file, sizeof file, BUCKETS - 1);
    expect_mark("head's mark", head + LHSTAR_HEAD_MARK, 'B');
    expect("bucket's level", head[LHSTAR_HEAD_LEVEL], LEVEL + 1);
    expect("count", number_at(head + LHSTAR_HEAD_COUNT), 2);
    expect_zeros("head's zeros", head + LHSTAR_HEAD_ZEROS, slot);
    expect("view's start", (unsigned long)part.start, (unsigned long)(slot - file));
    expect("view's length", (unsigned long)part.length, 2 * LHSTAR_SLOT_BYTES);
    judge_slot(slot, first_key);
    judge_slot(slot + LHSTAR_SLOT_BYTES, second_key);
    expect_zeros("free slots", slot + 2 * LHSTAR_SLOT_BYTES,
                 head + LHSTAR_REGION_BYTES(SLOTS));
}

/* Bucket 257, of level 10, was the first to send the second key on. */
static void judge_client(void)
{
    const uint8_t *record = table + CLIENT * LHSTAR_CLIENT_BYTES;
    expect_mark("client's mark", record + LHSTAR_CLIENT_MARK, 'C');
    expect("image's level", record[LHSTAR_CLIENT_LEVEL], LEVEL);
    expect("image's pointer", number_at(record + LHSTAR_CLIENT_POINTER), POINTER);
    expect_zeros("client's zeros", record + LHSTAR_CLIENT_ZEROS, record + LHSTAR_CLIENT_BYTES);
    expect_zeros("other clients", table, record);
}

static void judge_answer(void)
{
    const uint8_t *route = answer + LHSTAR_ANSWER_ROUTE;
    expect("route length", answer[LHSTAR_ANSWER_ROUTE_LENGTH], 2);
    expect("first bucket", number_at(route), POINTER - 1);
    expect("second bucket", number_at(route + LHSTAR_NUMBER_BYTES), BUCKETS - 1);
    expect("no third bucket", number_at(route + 2 * LHSTAR_NUMBER_BYTES), LHSTAR_NO_BUCKET);
    expect("forwards", lhstar_forwards(answer, sizeof answer), 1);
    expect("search", lhstar_search(file, sizeof file, table, sizeof table, CLIENT, second_key,
                                   answer, sizeof answer), LHSTAR_DONE);
    expect("payload", memcmp(answer + LHSTAR_ANSWER_PAYLOAD, payload, sizeof payload) != 0, 0);
    expect("search", lhstar_search(file, sizeof file, table, sizeof table, CLIENT, 0,
                                   answer, sizeof answer), LHSTAR_ABSENT);
    expect_zeros("no payload", answer + LHSTAR_ANSWER_PAYLOAD, answer + LHSTAR_ANSWER_BYTES);
    expect("insert", lhstar_insert(file, sizeof file, table, sizeof table, CLIENT, second_key,
                                   payload, sizeof payload, answer, sizeof answer),
           LHSTAR_KEY_HELD);
    expect("reply", answer[LHSTAR_ANSWER_REPLY], LHSTAR_KEY_HELD);
}

static void judge_scan(void)
{
    struct lhstar_scan_answer scan;
    scan = lhstar_scan(file, sizeof file, table, sizeof table, CLIENT,
                       (uint32_t)(first_key >> 32), visits, MOST, matches, SLOTS);
    expect("scan", scan.reply, LHSTAR_DONE);
    expect("visits", scan.visits, BUCKETS);
    expect("last visit", visits[BUCKETS - 1], BUCKETS - 1);
    expect("matches", scan.matches, 2);
    expect("matching keys", matches[0] != first_key || matches[1] != second_key, 0);
    expect("parent", lhstar_parent(BUCKETS - 1), POINTER - 1);
}

/* Inserts by an image that is right, with load control, and compares answer and block. */
static void judge_load(uint64_t key, uint64_t threshold, struct lhstar_load_answer expected,
                       unsigned count)
{
    struct lhstar_load_answer load;
    load = lhstar_insert_split(file, sizeof file, table, sizeof table, CLIENT, key,
                               payload, sizeof payload, threshold, answer, sizeof answer);
    expect("insert_split", load.reply, expected.reply);
    expect("its split", load.split, expected.split);
    expect("its old bucket", load.old_bucket, expected.old_bucket);
    expect("its new bucket", load.new_bucket, expected.new_bucket);
    expect("reply", answer[LHSTAR_ANSWER_REPLY], expected.reply);
    expect("count", answer[LHSTAR_ANSWER_COUNT], count);
    expect_zeros("no payload", answer + LHSTAR_ANSWER_PAYLOAD, answer + LHSTAR_ANSWER_BYTES);
}

static struct lhstar_load_answer load_answer(uint32_t reply, uint32_t split, uint32_t old_bucket,
                                             uint32_t new_bucket)
{
    struct lhstar_load_answer load;
    load.reply = reply;
    load.split = split;
    load.old_bucket = old_bucket;
    load.new_bucket = new_bucket;
    return load;
}

static void refuse_loads(void)
{
    uint8_t *newborn = file + LHSTAR_HEADER_BYTES + BUCKETS * LHSTAR_REGION_BYTES(SLOTS);
    struct lhstar_load_answer refused = load_answer(LHSTAR_THRESHOLD, LHSTAR_SPLIT_NOT_DUE,
                                                    LHSTAR_NO_BUCKET, LHSTAR_NO_BUCKET);
    judge_load(third_key, 0, refused, 0);
    judge_load(third_key, LHSTAR_THRESHOLD_MOST + 1, refused, 0);
    expect("no route", answer[LHSTAR_ANSWER_ROUTE_LENGTH], 0);
    expect("no first bucket", number_at(answer + LHSTAR_ANSWER_ROUTE), LHSTAR_NO_BUCKET);
    *newborn = 1;
    refused.reply = LHSTAR_BUCKET_UNSOUND;
    refused.old_bucket = BUCKETS;
    judge_load(third_key, LHSTAR_THRESHOLD_MOST, refused, 0);
    expect("whole route", number_at(answer + LHSTAR_ANSWER_ROUTE), BUCKETS - 1);
    *newborn = 0;
}

/* Each record makes the last bucket overfull: two more splits are done, then there is no room. */
static void judge_loads(void)
{
    struct lhstar_load_answer no_room = load_answer(LHSTAR_DONE, LHSTAR_SPLIT_NO_ROOM,
                                                    LHSTAR_NO_BUCKET, LHSTAR_NO_BUCKET);
    unsigned k;
    expect("load answer", sizeof no_room, 4 * sizeof(uint32_t));
    for (k = 0; k < MOST - BUCKETS; k++)
        judge_load(third_key + k * KEY_STEP, LHSTAR_THRESHOLD_MOST,
                   load_answer(LHSTAR_DONE, LHSTAR_SPLIT_DONE, POINTER + k, BUCKETS + k), 3 + k);
    judge_load(third_key + k * KEY_STEP, 1, no_room, 3 + k);
    expect("pointer", number_at(file + LHSTAR_HEADER_POINTER), POINTER + k);
    expect("check", lhstar_check(file, sizeof file).reply, LHSTAR_DONE);
}

int main(void)
{
    judge_sizes();
    fill();
    judge_header();
    judge_bucket();
    judge_client();
    judge_answer();
    judge_scan();
    refuse_loads();
    judge_loads();
    return failed;
}
