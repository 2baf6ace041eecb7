/*
 * lhstar: an LH* file over lent memory.
 *
 * The caller lends every buffer as a pointer and a length in bytes, the two lists of a scan as a
 * pointer and a length in entries. No pointer is null, also not with length 0, and the buffers of
 * one call do not overlap. The library keeps nothing between calls: the file buffer is the file,
 * the table buffer holds the clients' images. Numbers of more than one byte are little-endian.
 *
 * The file is in state (i, n), its level and its split pointer, and has 2^i + n buckets. A client's
 * image (i', n') is what it believes of that state. A key may therefore be sent to a bucket that is
 * not its own and be sent on from there, at most twice; the buckets it comes by are its route.
 */
#ifndef LHSTAR_H
#define LHSTAR_H

#include <stddef.h>
#include <stdint.h>

#ifdef __cplusplus
extern "C" {
#endif

/* The library's version; the pkg-config file has it from here. */
#define LHSTAR_VERSION "0.3.0"

/* The replies. A call gives the first, in the order named at the call, whose condition holds. */
enum lhstar_reply {
    LHSTAR_DONE = 0,            /* done, or found */
    LHSTAR_ABSENT = 1,          /* search: the key is not in the file */
    LHSTAR_TABLE_LENGTH = 2,    /* client table length 0, over 2048 or no multiple of 8 */
    LHSTAR_NO_CLIENT = 3,       /* no such client */
    LHSTAR_CLIENT_UNSOUND = 4,  /* client record ill formed, i' > 12 or n' >= 2^i' */
    LHSTAR_HEADER_UNSOUND = 5,  /* file length or header unsound */
    LHSTAR_CLIENT_AHEAD = 6,    /* the client believes in more buckets than the file has */
    LHSTAR_BUCKET_UNSOUND = 7,  /* a bucket needed is unsound; its number is given */
    LHSTAR_KEY_HELD = 8,        /* insert: the key is already held */
    LHSTAR_BUCKET_FULL = 9,     /* insert: every slot of its bucket is in use */
    LHSTAR_FILE_FULL = 10,      /* split: the file has its most buckets */
    LHSTAR_VISITS_SHORT = 11,   /* scan: visit list shorter than the bucket count */
    LHSTAR_MATCHES_SHORT = 12,  /* scan: match list shorter than the matches */
    LHSTAR_FIGURES = 13,        /* create: figures out of range, or not the file's length */
    LHSTAR_BLOCK_LENGTH = 14,   /* answer block not 24 bytes, or insert's payload not 14 */
    LHSTAR_THRESHOLD = 15       /* insert_split: the threshold is not 1 to 100 */
};

/* Stands where there is no bucket. */
#define LHSTAR_NO_BUCKET 65535u

/* The threshold of a load control, in percent: from 1 to this. */
#define LHSTAR_THRESHOLD_MOST 100

/*
 * The layouts: by which byte each part starts, and how many bytes there are. A mark is two bytes;
 * bytes without a name are zero.
 */
#define LHSTAR_NUMBER_BYTES 2 /* a bucket's number, a split pointer, a count */
#define LHSTAR_KEY_BYTES 8
#define LHSTAR_PAYLOAD_BYTES 14

/* The file's header. */
#define LHSTAR_HEADER_MARK 0     /* 4C 46 */
#define LHSTAR_HEADER_LEVEL 2    /* i, one byte */
#define LHSTAR_HEADER_CAPACITY 3 /* b, one byte: a bucket of more records is overfull */
#define LHSTAR_HEADER_POINTER 4  /* n, a number */
#define LHSTAR_HEADER_MOST 6     /* the most buckets, a number */
#define LHSTAR_HEADER_SLOTS 8    /* the slots of each bucket, one byte */
#define LHSTAR_HEADER_ZEROS 9    /* seven bytes */
#define LHSTAR_HEADER_BYTES (LHSTAR_HEADER_ZEROS + 7)

/* A bucket's head. */
#define LHSTAR_HEAD_MARK 0  /* 4C 42 */
#define LHSTAR_HEAD_LEVEL 2 /* the bucket's level, one byte */
#define LHSTAR_HEAD_COUNT 4 /* how many slots are in use, a number */
#define LHSTAR_HEAD_ZEROS 6 /* two bytes */
#define LHSTAR_HEAD_BYTES (LHSTAR_HEAD_ZEROS + 2)

/* A slot in use. Those in use come first, in order of arrival; the others are all zero. */
#define LHSTAR_SLOT_MARK 0     /* 4C 52 */
#define LHSTAR_SLOT_KEY 2      /* eight bytes: the ride, then the lift */
#define LHSTAR_SLOT_PAYLOAD 10 /* fourteen bytes */
#define LHSTAR_SLOT_BYTES (LHSTAR_SLOT_PAYLOAD + LHSTAR_PAYLOAD_BYTES)

/* A client's record in the table. */
#define LHSTAR_CLIENT_MARK 0    /* 4C 43 */
#define LHSTAR_CLIENT_LEVEL 2   /* i', one byte */
#define LHSTAR_CLIENT_POINTER 4 /* n', a number */
#define LHSTAR_CLIENT_ZEROS 6   /* two bytes */
#define LHSTAR_CLIENT_BYTES (LHSTAR_CLIENT_ZEROS + 2)

/* A region is a bucket's head and its slots; a file is its header and then its regions. */
#define LHSTAR_REGION_BYTES(slots) (LHSTAR_HEAD_BYTES + 1UL * LHSTAR_SLOT_BYTES * (slots))
#define LHSTAR_FILE_BYTES(slots, most) (LHSTAR_HEADER_BYTES + (most) * LHSTAR_REGION_BYTES(slots))

/*
 * The answer block of insert, search and insert_split. With replies 2 to 6 and 15 there is no
 * route; with 7 it ends at the unsound bucket, but is whole where insert_split names that bucket in
 * its own answer. Reply 14 leaves the block as it was.
 */
#define LHSTAR_ANSWER_REPLY 0        /* the reply, one byte */
#define LHSTAR_ANSWER_ROUTE_LENGTH 1 /* how many buckets the route has, one byte */
#define LHSTAR_ANSWER_ROUTE 2        /* their numbers, LHSTAR_NO_BUCKET if unused */
#define LHSTAR_ANSWER_COUNT 8        /* the records that an accepted insert leaves, else 0 */
#define LHSTAR_ANSWER_PAYLOAD 10     /* the payload that a search found, else zeros */
#define LHSTAR_ANSWER_BYTES (LHSTAR_ANSWER_PAYLOAD + LHSTAR_PAYLOAD_BYTES)
#define LHSTAR_ROUTE_MOST 3          /* the most buckets of a route */

/*
 * No call takes more bytes of stack, its arguments and its return address included. Measured by
 * tests/stack.c: create 64, join 16, insert 928, search 896, forwards 16, split 848, insert_split
 * 1008, scan 15424, check 832, view 752, parent 16. The binding of memset by a dynamic linker, once
 * in a program, is not counted.
 */
#define LHSTAR_STACK_BYTES 16384

/*
 * Makes a file without records in state (0, 0): capacity b of 1 to slots, 1 to 64 slots for each
 * bucket, 1 to 4096 buckets at most, in exactly LHSTAR_FILE_BYTES(slots, most) bytes.
 * Replies: 13, else 0. Refused, it leaves the buffer untouched.
 */
uint8_t lhstar_create(uint8_t *file, size_t file_length,
                      uint64_t capacity, uint64_t slots, uint64_t most);

/*
 * Writes the image (0, 0) into the client's record, over any old content. The table has 1 to 256
 * records of 8 bytes; the first client is 0.
 * Replies: 2, 3, else 0. Refused, it leaves the table untouched.
 */
uint8_t lhstar_join(uint8_t *table, size_t table_length, uint64_t client);

/*
 * Inserts a record of key and payload by the client's image. The key's upper 32 bits are the lift,
 * its lower 32 bits the ride.
 * Replies: 14, 2, 3, 4, 5, 6, 7 (the first unsound bucket on the route), 8, 9, else 0. Fills the
 * answer block, save with 14. With 0 the record stands in its bucket's first free slot. With 0, 8
 * and 9 the image is adjusted if the first bucket sent the key on. Else file and table stay
 * untouched. It never splits: a coordinator without load control compares the block's byte 8, the
 * count then held, with the capacity and calls lhstar_split; one with it calls lhstar_insert_split.
 */
uint8_t lhstar_insert(uint8_t *file, size_t file_length,
                      uint8_t *table, size_t table_length, uint64_t client, uint64_t key,
                      const uint8_t *payload, size_t payload_length,
                      uint8_t *answer, size_t answer_length);

/*
 * Searches a key by the client's image.
 * Replies: 14, 2, 3, 4, 5, 6, 7 (the first unsound bucket on the route), 1 (absent), else 0. Fills
 * the answer block, save with 14. With 0 and 1 the image is adjusted if the first bucket sent the
 * key on. Else the table stays untouched.
 */
uint8_t lhstar_search(const uint8_t *file, size_t file_length,
                      uint8_t *table, size_t table_length, uint64_t client, uint64_t key,
                      uint8_t *answer, size_t answer_length);

/*
 * How often the key of a filled answer block was sent on: the route's buckets less one; 0 without a
 * route or if the block is not 24 bytes. Gives no reply and changes nothing.
 */
uint32_t lhstar_forwards(const uint8_t *answer, size_t answer_length);

/* With 0 the bucket that was split and its new one; with 7 the unsound bucket first. Else none. */
struct lhstar_split_answer {
    uint32_t reply;
    uint32_t old_bucket;
    uint32_t new_bucket;
};

/*
 * Splits bucket n into n and n + 2^i and moves the split pointer on; clients learn of it by their
 * own calls.
 * Replies: 5, 10, 7 (bucket n, then the new region), else 0. Refused, it leaves the file untouched.
 */
struct lhstar_split_answer lhstar_split(uint8_t *file, size_t file_length);

/* What became of the split of an insert_split. */
enum lhstar_control {
    LHSTAR_SPLIT_NOT_DUE = 0, /* none was due, or the insert was refused */
    LHSTAR_SPLIT_DONE = 1,    /* bucket n was split */
    LHSTAR_SPLIT_NO_ROOM = 2  /* one was due, but the file has its most buckets */
};

/*
 * The reply; what became of the split; where one was done, the bucket that was split and its new
 * one. With 7 and the route whole in the block, the unsound bucket or region first. Else none.
 */
struct lhstar_load_answer {
    uint32_t reply;
    uint32_t split;
    uint32_t old_bucket;
    uint32_t new_bucket;
};

/*
 * Inserts as lhstar_insert does, decides by the load whether a split is due, and does it: a
 * coordinator with load control needs neither the block's byte 8 nor a second call.
 * Where the key's bucket s then holds x records, more than the capacity b, a split is due if
 *     100 * 2^i * x * f > threshold * b * (2^i + n),    f = 2 if s < n or s >= 2^i, else 1
 * in the state (i, n) before it. Bucket n is split, which may be s or another. In a file of its
 * most buckets the record is only inserted. A bucket can be full before it makes a split due if it
 * has fewer than 2 * threshold * b / 100 slots.
 * Replies: 14, 15 (the threshold is not 1 to 100), 2, 3, 4, 5, 6, 7 (the first unsound bucket on
 * the route), 8, 9, 7 (bucket n, then the new region, where the insert would be accepted and a
 * split is due and possible), else 0. Fills the answer block as lhstar_insert does, save with 14.
 * With 0 the record is placed, and the split done if it is due and possible; the block's count is
 * the one before the split. With 0, 8 and 9 the image is adjusted if the first bucket sent the key
 * on. Else file and table stay untouched: with the last 7 nothing is placed and the image stays.
 */
struct lhstar_load_answer lhstar_insert_split(uint8_t *file, size_t file_length,
                                              uint8_t *table, size_t table_length,
                                              uint64_t client, uint64_t key,
                                              const uint8_t *payload, size_t payload_length,
                                              uint64_t threshold,
                                              uint8_t *answer, size_t answer_length);

/*
 * With 7 the unsound bucket, else LHSTAR_NO_BUCKET; with 0 how many entries the visit list and the
 * match list got, else 0 and 0.
 */
struct lhstar_scan_answer {
    uint32_t reply;
    uint32_t bucket;
    uint32_t visits;
    uint32_t matches;
};

/*
 * Scans every bucket by the client's image for the keys of one lift. It writes the numbers of the
 * buckets as they are visited, and the matching keys: visit order, then slot order. The lengths are
 * in entries; entries past those written keep their content.
 * Replies: 2, 3, 4, 5, 6, 11, 7 (the first unsound bucket in visit order), 12, else 0. Refused, it
 * leaves both lists untouched. File and table always stay untouched.
 */
struct lhstar_scan_answer lhstar_scan(const uint8_t *file, size_t file_length,
                                      const uint8_t *table, size_t table_length,
                                      uint64_t client, uint32_t lift,
                                      uint16_t *visits, size_t visits_length,
                                      uint64_t *matches, size_t matches_length);

/* With 7 the lowest unsound region, else LHSTAR_NO_BUCKET. */
struct lhstar_check_answer {
    uint32_t reply;
    uint32_t bucket;
};

/*
 * Judges the whole file: header and all regions, those past the last bucket too.
 * Replies: 5, 7, else 0. Changes nothing.
 */
struct lhstar_check_answer lhstar_check(const uint8_t *file, size_t file_length);

/* A part of the file: its first byte's place and its length; 0 and 0 where it is empty. */
struct lhstar_view_answer {
    uint64_t start;
    uint64_t length;
};

/*
 * Where a bucket's used slots stand in the file, no copy. The part is empty if the header is
 * unsound, the number is too high or the bucket is unsound. Gives no reply and changes nothing.
 */
struct lhstar_view_answer lhstar_view(const uint8_t *file, size_t file_length, uint64_t bucket);

/* The bucket that this one was split from; LHSTAR_NO_BUCKET for bucket 0. Gives no reply. */
uint32_t lhstar_parent(uint16_t bucket);

#ifdef __cplusplus
}
#endif

#endif
