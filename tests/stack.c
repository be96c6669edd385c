// Reads types with thousands of members, writes and compares what was read, lists its slots, finds which records are the same and joins two
// blocks, on a thread whose stack has 256 KiB: the stack must not grow with a count. The same for blocks of 0, 1, 2 and 1,000,000 records.
#include <pthread.h>
#include <stdint.h>
#include <stdio.h>
#include <stdlib.h>
#include <string.h>
#include "datatype.h"

enum { ROWS = 4096, POOL = 65536, MOST = 1 << 20 };

static uint8_t message[MOST], pool[POOL];
static uint32_t table[ROWS * 16];
static size_t length;

static void put(const void *bytes, size_t n) {
    memcpy(message + length, bytes, n);
    length += n;
}

static void header(uint8_t class_and_version, unsigned count, uint32_t size) {
    uint8_t h[8] = {class_and_version, count & 255, count >> 8, 0, size & 255, size >> 8 & 255, size >> 16 & 255, size >> 24};
    put(h, 8);
}

static void fixed(void) {
    header(0x10, 0, 1);
    put("\0\0\x08\0", 4);
}

static void compound(unsigned members) {
    header(0x36, members, 255);
    for (unsigned i = 0; i < members; i++) {
        put("m\0\0", 3);
        fixed();
    }
}

static void enumeration(unsigned members) {
    header(0x38, members, 1);
    fixed();
    for (unsigned i = 0; i < members; i++) put("e\0", 2);
    for (unsigned i = 0; i < members; i++) put("\1", 1);
}

enum { RECORDS = 1000000 };

static uint8_t written[MOST], a[255], b[255], block[RECORDS * 4], joined[RECORDS * 4];
static uint64_t numbers[RECORDS], sizes[RECORDS], work[RECORDS * 3 + 8192];
static int failed;

static void expect(const char *name, const char *call, uint32_t number, uint32_t expected) {
    if (number != expected) {
        printf("%s: %s answers %u\n", name, call, number);
        failed = 1;
    }
}

// The record's size, the bytes in which two records differ, and what comparing answers.
struct run {
    const char *name;
    size_t size;
    uint32_t compared;
    uint64_t differs;
};

static void *calls(void *given) {
    const struct run *run = given;
    uint64_t first = 0, second = 0, slot;
    uint32_t number = datatype_read(message, length, 15, table, ROWS * 16, pool, POOL, &first, &second);
    expect(run->name, "read", number, 0);
    expect(run->name, "the length read", first == length, 1);
    number = datatype_write(table, ROWS * 16, pool, POOL, 3, written, MOST, &first, &second);
    expect(run->name, "write", number, 0);
    expect(run->name, "the message written", first == length && memcmp(written, message, length) == 0, 1);
    memset(a, 1, run->size);
    memset(b, 2, run->size);
    number = datatype_compare(table, ROWS * 16, pool, POOL, a, run->size, b, run->size, &first, &second);
    expect(run->name, "compare", number, run->compared);
    expect(run->name, "the comparison", first == run->differs, 1);
    number = datatype_slots(table, ROWS * 16, pool, POOL, &slot, 1, &first, &second);
    expect(run->name, "slots", number, 0);
    memset(block, 1, 3 * run->size);
    memset(block + run->size, 2, run->size);
    for (size_t words = 0; words <= 4 * 3 + 8192; words += 4 * 3 + 8192) {
        memset(numbers, 255, sizeof numbers);
        memset(sizes, 255, sizeof sizes);
        number = datatype_duplicates(table, ROWS * 16, pool, POOL, block, 3 * run->size, numbers, 3, sizes, 3, work, words, &first, &second);
        expect(run->name, "duplicates", number, run->compared);
        if (number == 0)
            expect(run->name, "the groups", first == 3 && second == 2 && numbers[0] == 0 && numbers[1] == 1 && numbers[2] == 0 && sizes[0] == 2 && sizes[1] == 1, 1);
        memset(joined, 255, 3 * run->size);
        number = datatype_join(table, ROWS * 16, pool, POOL, block, 2 * run->size, block + run->size, 2 * run->size, joined, 3 * run->size, work, words, &first, &second);
        expect(run->name, "join", number, run->compared);
        if (number == 0)
            expect(run->name, "the joined block", first == 2 * run->size && second == 2 && memcmp(joined, block, 2 * run->size) == 0 && joined[2 * run->size] == 255, 1);
    }
    if (!failed) printf("%s: %zu bytes read, written, compared, searched for slots and for duplicates, joined\n", run->name, length);
    return 0;
}

// Records of two members of a byte with a gap behind each: 251 values of the one and 3 of the other.
static void *records(void *given) {
    const char *name = given;
    uint64_t first = 0, second = 0, words = 0;
    expect(name, "read", datatype_read(message, length, 15, table, ROWS * 16, pool, POOL, &first, &second), 0);
    expect(name, "words", datatype_duplicates_words(table, ROWS * 16, pool, POOL, RECORDS, &words, &second), 0);
    expect(name, "the words", words == 3 * (uint64_t)RECORDS + 4, 1);
    for (size_t k = 0; k < RECORDS; k++) {
        uint8_t record[4] = {k % 251, k * 7, k / 251 % 3, k * 13};
        memcpy(block + 4 * k, record, 4);
    }
    for (size_t n = 0; n <= RECORDS; n = n < 2 ? n + 1 : n < RECORDS ? RECORDS : RECORDS + 1) {
        memset(numbers, 255, sizeof numbers);
        memset(sizes, 255, sizeof sizes);
        expect(name, "duplicates", datatype_duplicates(table, ROWS * 16, pool, POOL, block, 4 * n, numbers, n, sizes, n, work, words, &first, &second), 0);
        expect(name, "the records", first == n, 1);
        expect(name, "the distinct", second == (n < 753 ? n : 753), 1);
        for (size_t k = 0; k < n; k++)
            if (numbers[k] != k % 251 + 251 * (k / 251 % 3)) expect(name, "a number", 1, 0);
        uint64_t sum = 0;
        for (size_t g = 0; g < second; g++) sum += sizes[g];
        expect(name, "the sizes' sum", sum == n, 1);
        for (size_t m = 0; m <= n; m = m < n / 2 ? n / 2 : m < n ? n : n + 1) {
            const size_t kept = n < 753 ? n : 753;
            memset(joined, 255, sizeof joined);
            expect(name, "join", datatype_join(table, ROWS * 16, pool, POOL, block, 4 * m, block + 4 * m, 4 * (n - m), joined, 4 * n, work, words, &first, &second), 0);
            expect(name, "the joined block", first == 4 * kept && second == kept && memcmp(joined, block, 4 * kept) == 0, 1);
            for (size_t i = 4 * kept; i < sizeof joined; i++)
                if (joined[i] != 255) expect(name, "a byte behind the joined block", 1, 0);
        }
    }
    if (!failed) printf("%s: searched for duplicates, joined\n", name);
    return 0;
}

static void on_small_stack(void *(*calls)(void *), void *given) {
    pthread_attr_t attributes;
    pthread_t thread;
    pthread_attr_init(&attributes);
    pthread_attr_setstacksize(&attributes, 256 * 1024);
    if (pthread_create(&thread, &attributes, calls, given) != 0) {
        printf("no thread\n");
        failed = 1;
        return;
    }
    pthread_join(thread, 0);
    length = 0;
}

static void run(struct run given) {
    on_small_stack(calls, &given);
}

int main(void) {
    compound(2047);
    run((struct run){"2,047 compound members", 255, 0, 1});
    enumeration(4094);
    run((struct run){"4,094 enumeration members", 1, 0, 1});
    for (int i = 0; i < 30; i++) header(0x19, 0, 16);
    compound(2032);
    run((struct run){"2,032 members under 30 sequences", 16, DATATYPE_HEAP_HELD, 0});
    header(0x36, 2, 4);
    put("a\0\0", 3);
    fixed();
    put("b\0\2", 3);
    fixed();
    on_small_stack(records, "blocks of 0, 1, 2 and 1,000,000 records");
    return failed;
}
