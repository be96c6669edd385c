// Calls each exported function from C, through include/datatype.h: on a compound P of a byte `a` at 0 and two bytes `b` at 2, an array of
// two references, a NUL-terminated string and an enumeration; with NULL for every empty slice; and lists the fields of P by the columns of
// its rows.
#include <inttypes.h>
#include <stdio.h>
#include <string.h>

#include "datatype.h"

static const uint8_t P[38] = {0x36, 2, 0, 0, 4, 0, 0, 0, 'a', 0, 0, 0x10, 0, 0, 0, 1, 0, 0, 0, 0, 0, 8, 0, 'b', 0, 2, 0x10, 0, 0, 0, 2, 0, 0, 0, 0, 0, 16, 0};
static const uint8_t TWO[21] = {0x3A, 0, 0, 0, 0, 0, 0, 0, 1, 2, 0, 0, 0, 0x17, 0, 0, 0, 8, 0, 0, 0};
static const uint8_t NAME[8] = {0x13, 0, 0, 0, 4, 0, 0, 0};
// an enumeration of 2 bytes over U2, with names `no` and `yes` and values 0 and 1
static const uint8_t ENUM[31] = {0x38, 2, 0, 0, 2, 0, 0, 0, 0x10, 0, 0, 0, 2, 0, 0, 0, 0, 0, 16, 0, 'n', 'o', 0, 'y', 'e', 's', 0, 0, 0, 1, 0};
static uint32_t table[8 * 16];
static uint8_t pool[32], out[64];
static uint64_t first, second;
static int failed;

static void answers(const char *call, uint32_t number, uint32_t expected, uint64_t one, uint64_t two) {
    if (number != expected || first != one || second != two) {
        printf("%s: %" PRIu32 " %" PRIu64 " %" PRIu64 ", not %" PRIu32 " %" PRIu64 " %" PRIu64 "\n", call, number, first, second, expected, one, two);
        failed = 1;
    }
}

// Each slice is NULL with length 0.
static void empty_slices(void) {
    const uint8_t one[1] = {0};
    answers("datatype_read of NULL", datatype_read(NULL, 0, 15, NULL, 0, NULL, 0, &first, &second), DATATYPE_TOO_MANY, 0, 0);
    answers("datatype_read of NULL", datatype_read(NULL, 0, 15, table, 16, NULL, 0, &first, &second), DATATYPE_SHORT, 8, 0);
    answers("datatype_read into NULL", datatype_read(NAME, 8, 15, table, 16, NULL, 0, &first, &second), 0, 8, 0);
    answers("datatype_write into NULL", datatype_write(table, 16, NULL, 0, 3, NULL, 0, &first, &second), DATATYPE_NO_ROOM, 8, 0);
    answers("datatype_compare of NULL", datatype_compare(table, 16, NULL, 0, NULL, 0, NULL, 0, &first, &second), DATATYPE_WRONG_LENGTH, 0, 0);
    answers("datatype_slots into NULL", datatype_slots(table, 16, NULL, 0, NULL, 0, &first, &second), 0, 0, 0);
    answers("datatype_write of NULL", datatype_write(NULL, 0, NULL, 0, 3, NULL, 0, &first, &second), DATATYPE_BAD_TABLE, 0, 0);
    answers("datatype_compare of NULL", datatype_compare(NULL, 0, NULL, 0, one, 1, one, 1, &first, &second), DATATYPE_BAD_TABLE, 0, 0);
    answers("datatype_size of NULL", datatype_size(NULL, 0, NULL, 0, &first, &second), DATATYPE_BAD_TABLE, 0, 0);
    answers("datatype_element_size of NULL", datatype_element_size(NULL, 0, NULL, 0, &first, &second), DATATYPE_BAD_TABLE, 0, 0);
    answers("datatype_extent of NULL", datatype_extent(NULL, 0, NULL, 0, &first, &second), DATATYPE_BAD_TABLE, 0, 0);
    answers("datatype_slots of NULL", datatype_slots(NULL, 0, NULL, 0, NULL, 0, &first, &second), DATATYPE_BAD_TABLE, 0, 0);
    answers("datatype_references of NULL", datatype_references(NULL, 0, 8, NULL, 0, NULL, 0, NULL, 0, &first, &second), 0, 0, 0);
    answers("datatype_duplicates of NULL", datatype_duplicates(NULL, 0, NULL, 0, NULL, 0, NULL, 0, NULL, 0, NULL, 0, &first, &second), DATATYPE_BAD_TABLE, 0, 0);
    answers("datatype_duplicates of NULL", datatype_duplicates(table, 16, NULL, 0, NULL, 0, NULL, 0, NULL, 0, NULL, 0, &first, &second), 0, 0, 0);
    answers("datatype_duplicates into NULL", datatype_duplicates(table, 16, NULL, 0, NAME, 8, NULL, 0, NULL, 0, NULL, 0, &first, &second), DATATYPE_NO_ROOM, 2, 0);
    answers("datatype_duplicates_words of NULL", datatype_duplicates_words(NULL, 0, NULL, 0, 1, &first, &second), DATATYPE_BAD_TABLE, 0, 0);
    answers("datatype_join of NULL", datatype_join(NULL, 0, NULL, 0, NULL, 0, NULL, 0, NULL, 0, NULL, 0, &first, &second), DATATYPE_BAD_TABLE, 0, 0);
    answers("datatype_join of NULL", datatype_join(table, 16, NULL, 0, NULL, 0, NULL, 0, NULL, 0, NULL, 0, &first, &second), 0, 0, 0);
    answers("datatype_join into NULL", datatype_join(table, 16, NULL, 0, NAME, 8, NULL, 0, NULL, 0, NULL, 0, &first, &second), DATATYPE_NO_ROOM, 8, 0);
    answers("datatype_join into NULL", datatype_join(table, 16, NULL, 0, NULL, 0, NAME, 8, NULL, 0, NULL, 0, &first, &second), DATATYPE_NO_ROOM, 8, 0);
    answers("datatype_member_name of NULL", datatype_member_name(NULL, 0, NULL, 0, 1, &first, &second), 0, 0, 0);
    answers("datatype_holds_object_address of NULL", datatype_holds_object_address(NULL, 0, NULL, 0, &first, &second), DATATYPE_BAD_TABLE, 0, 0);
    answers("datatype_holds_file_address of NULL", datatype_holds_file_address(NULL, 0, NULL, 0, &first, &second), DATATYPE_BAD_TABLE, 0, 0);
}

// The row behind the type at row r.
static size_t row_behind(size_t r) {
    const uint32_t *row = table + 16 * r;
    size_t next = r + 1;
    switch (row[0] - 1) {
    case 6:
        for (uint32_t i = 0; i < row[4]; i++) next = row_behind(next + 1);
        return next;
    case 8:
        return row_behind(next) + row[4];
    case 9:
    case 10:
        return row_behind(next);
    default:
        return next;
    }
}

// A line for each member of the compound at row 0: name, offset, class, size.
static void list_fields(const char *expected) {
    char text[256] = "";
    size_t used = 0, member = 1;
    for (uint32_t i = 0; i < table[4]; i++) {
        const uint32_t *row = table + 16 * member, *type = row + 16;
        used += (size_t)snprintf(text + used, sizeof text - used, "%.*s %" PRIu32 " %" PRIu32 " %" PRIu32 "\n", (int)row[3], (const char *)pool + row[2], row[1], type[0] - 1, type[1]);
        member = row_behind(member + 1);
    }
    if (strcmp(text, expected) != 0) {
        printf("the fields are\n%snot\n%s", text, expected);
        failed = 1;
    }
}

// The values of the enumeration at row 0, over a type of one row: behind the last name, each of column 4's length.
static void list_values(void) {
    const uint32_t *last = table + 16 * (1 + table[4]);
    const uint8_t *value = pool + last[2] + last[3];
    for (uint32_t i = 0; i < table[4]; i++) {
        if (value[0] != i || value[1] != 0) failed = 1;
        value += table[16 * (2 + i) + 4];
    }
}

// Six records of P, of which the bytes at 1 belong to no field: 0, 2 and 3 are the same, and 1 and 4. Without a workspace and with one.
static void duplicates(size_t words) {
    const uint8_t block[24] = {1, 0xFF, 5, 0, 2, 0, 5, 0, 1, 0, 5, 0, 1, 0x11, 5, 0, 2, 0x77, 5, 0, 1, 0, 5, 1};
    const uint64_t firsts[7] = {0, 1, 0, 0, 1, 5, 9}, counts[4] = {3, 2, 1, 9}, none[7] = {9, 9, 9, 9, 9, 9, 9};
    uint64_t numbers[7], sizes[4], work[64];
    if (datatype_duplicates_words(table, words, pool, 32, 0, &first, &second) != 0 || first % 2 != 0 || second != 0) failed = 1;
    const uint64_t runs = first;
    answers("datatype_duplicates_words", datatype_duplicates_words(table, words, pool, 32, 6, &first, &second), 0, runs + 18, 0);
    if (first > 64) failed = 1;
    const size_t told = (size_t)first;
    for (int lent = 0; lent < 2; lent++) {
        const size_t length = lent ? told : 0;
        memcpy(numbers, none, sizeof numbers);
        memcpy(sizes, none, sizeof sizes);
        memset(work, 0x55, sizeof work);
        answers("datatype_duplicates", datatype_duplicates(table, words, pool, 32, block, 23, numbers, 7, sizes, 4, work, length, &first, &second), DATATYPE_WRONG_LENGTH, 0, 0);
        answers("datatype_duplicates", datatype_duplicates(table, words, pool, 32, block, 24, numbers, 5, sizes, 0, work, length, &first, &second), DATATYPE_NO_ROOM, 6, 0);
        answers("datatype_duplicates", datatype_duplicates(table, words, pool, 32, block, 24, numbers, 6, sizes, 2, work, length, &first, &second), DATATYPE_NO_ROOM, 3, 0);
        if (memcmp(numbers, none, sizeof numbers) != 0 || memcmp(sizes, none, sizeof sizes) != 0) failed = 1;
        memset(work, 0x55, sizeof work);
        answers("datatype_duplicates", datatype_duplicates(table, words, pool, 32, block, 24, numbers, 7, sizes, 4, work, length, &first, &second), 0, 6, 3);
        if (memcmp(numbers, firsts, sizeof numbers) != 0 || memcmp(sizes, counts, sizeof sizes) != 0) failed = 1;
        for (size_t i = 0; i < 64; i++) {
            if (work[i] != (i < length ? 0 : UINT64_C(0x5555555555555555))) failed = 1;
        }
    }
}

// One call of datatype_join on P, into `room` of 32 bytes: all 32 are `expected` and then 0x77 afterwards, and of 64 words of workspace those lent
// are 0.
static void joins(size_t words, const uint8_t *a, size_t a_length, const uint8_t *b, size_t b_length, size_t room, size_t length, uint32_t number, uint64_t one, uint64_t two, const uint8_t *expected) {
    uint8_t joined[32], after[32];
    uint64_t work[64];
    memset(joined, 0x77, sizeof joined);
    memset(after, 0x77, sizeof after);
    memset(work, 0x55, sizeof work);
    if (number == 0 && one > 0) memcpy(after, expected, one);
    answers("datatype_join", datatype_join(table, words, pool, 32, a, a_length, b, b_length, joined, room, work, length, &first, &second), number, one, two);
    if (memcmp(joined, after, sizeof joined) != 0) failed = 1;
    for (size_t i = 0; i < 64; i++) {
        if (work[i] != (i < length ? 0 : UINT64_C(0x5555555555555555))) failed = 1;
    }
}

// Two blocks of three records of P and a byte behind them; without a workspace, with a short one and with as much as is told.
static void join(size_t words) {
    const uint8_t a[13] = {1, 0xFF, 5, 0, 1, 0, 5, 0, 2, 0, 5, 0, 9}, b[13] = {2, 0x99, 5, 0, 3, 0, 0, 0, 3, 1, 0, 0, 9};
    const uint8_t ab[12] = {1, 0xFF, 5, 0, 2, 0, 5, 0, 3, 0, 0, 0}, ba[12] = {2, 0x99, 5, 0, 3, 0, 0, 0, 1, 0xFF, 5, 0};
    if (datatype_duplicates_words(table, words, pool, 32, 6, &first, &second) != 0 || first > 64) failed = 1;
    const size_t told = first < 64 ? (size_t)first : 64, lent[4] = {0, told / 2, told, 64};
    for (int i = 0; i < 4; i++) {
        joins(words, a, 12, b, 12, 12, lent[i], 0, 12, 3, ab);
        joins(words, a, 12, b, 12, 32, lent[i], 0, 12, 3, ab);
        joins(words, b, 12, a, 12, 24, lent[i], 0, 12, 3, ba);
        joins(words, a, 12, b, 12, 11, lent[i], DATATYPE_NO_ROOM, 12, 0, NULL);
        joins(words, a, 12, b, 12, 0, lent[i], DATATYPE_NO_ROOM, 12, 0, NULL);
        joins(words, NULL, 0, NULL, 0, 0, lent[i], 0, 0, 0, NULL);
        joins(words, a, 12, NULL, 0, 32, lent[i], 0, 8, 2, ab);
        joins(words, NULL, 0, b, 12, 32, lent[i], 0, 8, 2, ba);
        joins(words, a, 12, b, 13, 0, lent[i], DATATYPE_WRONG_LENGTH, 0, 0, NULL);
        joins(words, a, 12, b, 13, 32, lent[i], DATATYPE_WRONG_LENGTH, 0, 0, NULL);
        joins(words, a, 13, b, 12, 0, lent[i], DATATYPE_WRONG_LENGTH, 0, 0, NULL);
        joins(words, a, 11, b, 13, 32, lent[i], DATATYPE_WRONG_LENGTH, 0, 0, NULL);
    }
}

int main(void) {
    const size_t words = sizeof table / sizeof *table;
    empty_slices();
    const uint8_t a[4] = {1, 0xFF, 5, 0}, b[4] = {1, 0, 5, 0}, c[4] = {2, 0, 5, 0};
    answers("datatype_read", datatype_read(P, 0, 15, table, words, pool, 32, &first, &second), DATATYPE_SHORT, 8, 0);
    answers("datatype_read", datatype_read(P, 38, 15, table, words, pool, 32, &first, &second), 0, 38, 0);
    answers("datatype_write", datatype_write(table, words, pool, 32, 3, out, 64, &first, &second), 0, 38, 0);
    if (memcmp(out, P, 38) != 0 || out[38] != 0) failed = 1;
    answers("datatype_write", datatype_write(table, words, pool, 32, 1, out, 64, &first, &second), DATATYPE_NO_ROOM, 112, 0);
    answers("datatype_compare", datatype_compare(table, words, pool, 32, a, 4, b, 4, &first, &second), 0, 0, 0);
    answers("datatype_compare", datatype_compare(table, words, pool, 32, a, 4, c, 4, &first, &second), 0, 1, 0);
    answers("datatype_compare", datatype_compare(table, words, pool, 32, a, 3, c, 4, &first, &second), DATATYPE_WRONG_LENGTH, 0, 0);
    answers("datatype_size", datatype_size(table, words, pool, 32, &first, &second), 0, 4, 0);
    answers("datatype_element_size", datatype_element_size(table, words, pool, 32, &first, &second), 0, 4, 0);
    answers("datatype_extent", datatype_extent(table, words, pool, 32, &first, &second), 0, 5, 2);
    answers("datatype_compare", datatype_compare(table, 5 * 16, pool, 2, a, 4, c, 4, &first, &second), 0, 1, 0);
    answers("datatype_extent", datatype_extent(table, 5 * 16, pool, 2, &first, &second), 0, 5, 2);
    answers("datatype_extent", datatype_extent(table, 5 * 16 - 1, pool, 2, &first, &second), DATATYPE_BAD_TABLE, 0, 0);
    duplicates(words);
    join(words);
    list_fields("a 0 0 1\nb 2 0 2\n");
    answers("datatype_member_name", datatype_member_name(table, words, pool, 32, 3, &first, &second), 0, 1, 1);
    answers("datatype_member_name", datatype_member_name(table, words, pool, 32, 0, &first, &second), 0, 0, 0);
    answers("datatype_holds_object_address", datatype_holds_object_address(table, words, pool, 32, &first, &second), 0, 0, 0);
    answers("datatype_read", datatype_read(TWO, 21, 15, table, words, pool, 32, &first, &second), 0, 21, 0);
    answers("datatype_holds_file_address", datatype_holds_file_address(table, words, pool, 32, &first, &second), 0, 1, 0);
    uint64_t slots[3] = {9, 9, 9}, places[4], values[4];
    answers("datatype_slots", datatype_slots(table, words, pool, 32, slots, 3, &first, &second), 0, 2, 0);
    if (slots[0] != 0 || slots[1] != 8 || slots[2] != 9) failed = 1;
    uint8_t block[40];
    for (int i = 0; i < 40; i++) block[i] = (uint8_t)i;
    answers("datatype_references", datatype_references(block, 40, 16, slots, 2, places, 4, values, 4, &first, &second), 0, 4, 0);
    if (places[3] != 24 || values[1] != UINT64_C(0x0F0E0D0C0B0A0908)) failed = 1;
    answers("datatype_references", datatype_references(block, 40, 15, slots, 2, places, 4, values, 4, &first, &second), DATATYPE_SLOT_OUTSIDE, 0, 0);
    answers("datatype_read", datatype_read(NAME, 8, 15, table, words, pool, 32, &first, &second), 0, 8, 0);
    answers("datatype_compare", datatype_compare(table, words, pool, 32, (const uint8_t *)"A\0xy", 4, (const uint8_t *)"A\0zz", 4, &first, &second), 0, 0, 0);
    answers("datatype_compare", datatype_compare(table, words, pool, 32, (const uint8_t *)"A\0xy", 4, (const uint8_t *)"AB\0y", 4, &first, &second), 0, 1, 0);
    answers("datatype_read", datatype_read(ENUM, 31, 15, table, words, pool, 32, &first, &second), 0, 31, 0);
    answers("datatype_extent", datatype_extent(table, words, pool, 32, &first, &second), 0, 4, 9);
    list_values();
    if (class_may_hold_object_address(0x16) != 1 || class_may_hold_object_address(0x1B) != 0) failed = 1;
    puts(failed ? "C host: a call answers otherwise" : "C host: each exported function called, all as expected");
    return failed;
}
