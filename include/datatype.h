/* The functions of crate `abi`, for C hosts: HDF5 datatype messages (HDF5 File Format Specification, IV.A.2.d). Link the archive that
 * `tests/archive` writes.
 *
 * A lent slice is a pointer to its first element and the number of elements; where that number is 0 the pointer may be NULL, as that of an
 * empty std::vector is. A slice that is written must not overlap any other argument. `first` and `second` are two different places and
 * never NULL.
 *
 * A type is a table of rows, 16 words a row, and a pool of bytes. A table of 65,536 words and a pool of 65,536 bytes hold every type that
 * can be read; more is never used. Each call looks at all that is lent, since whatever the type does not use must be zero: once a type is
 * read, cut table and pool to what datatype_extent says. With 65,536 words and 65,536 bytes lent, comparing two records of a small compound
 * takes 6 microseconds; with both cut, 0.1.
 *
 * Each function but `class_may_hold_object_address` returns 0 or the number of a refusal, and writes its result, or the refusal's values,
 * to *first and *second, 0 where there is none. A refused reading leaves table and pool all zero; every other refusal leaves what is lent
 * for output untouched.
 *
 * The rows. Row r is table[16 * r] to table[16 * r + 15]. There is a row for each type and for each member, in the order of the message: a
 * compound's row, then for each of its members the member's row and the rows of the member's type; an enumeration's row, the rows of its
 * base, then a row for each member; the row of a variable-length type or an array, then the rows of its base. A column that a row has no
 * use for is 0; so are columns 14 and 15 of every row, and column 6 of a floating-point row.
 *
 *   column  what                                                              in rows of
 *    0      kind: class + 1 for a type (1 to 11), 12 a compound's member,     all
 *           13 an enumeration's member
 *    1      size in bytes                                                     classes 0 to 8
 *           offset of the member in its compound                              12
 *    2      place in the pool: of the tag, the dimensions, the name           classes 5, 10; 12, 13
 *    3      length of the tag or the name in bytes; number of dimensions      classes 5; 12, 13; 10
 *    4      number of members                                                 classes 6, 8
 *           length of the member's value in bytes                             13
 *    5      byte order: 0 little-endian, 1 big-endian, 2 VAX                  classes 0, 1, 2, 4
 *           string padding: 0 NUL-terminated, 1 NUL-padded, 2 space-padded    class 3
 *           reference: 0 object, 1 region                                     class 7
 *           variable length: 1 a string, 0 a sequence                         class 9
 *    6      1 signed                                                          class 0
 *           character set: 0 ASCII, 1 UTF-8                                   class 3
 *           padding of a variable-length string, its code + 1; 0 absent       class 9
 *    7      bit offset                                                        classes 0, 1, 4
 *           character set of a variable-length string, code + 1; 0 absent     class 9
 *    8      bit precision                                                     classes 0, 1, 2, 4
 *    9, 10  place and size of the exponent                                    class 1
 *   11, 12  place and size of the mantissa                                    class 1
 *   13      bias of the exponent                                              class 1
 *
 * Classes: 0 fixed-point, 1 floating-point, 2 time, 3 string, 4 bit field, 5 opaque, 6 compound, 7 reference, 8 enumeration,
 * 9 variable-length, 10 array. The size of a variable-length type is 16 and that of an array its base's times its dimensions, at
 * most 4,294,967,295.
 *
 * The pool has the pieces in the order of the rows, one behind the other: a name is column 3 bytes at column 2, without a NUL; the
 * dimensions are 4 bytes each, little-endian. The values of an enumeration lie behind the last of its names, in the order of its members,
 * each as long as column 4 of its member's row says: the first begins where the name of the last member's row ends.
 *
 * So the fields of the compound at row r are listed thus: row r + 1 is the first member's, with its offset and name; row r + 2 begins its
 * type, with class and size. The row behind the rows of that type is the next member's, and so on for the number of members. The rows of a
 * compound type end behind those of its last member, those of an enumeration behind its base and its members' rows, those of an array or a
 * variable-length type behind its base; any other type is one row. tests/host.c lists the fields of a type in this way.
 *
 * An example: a compound of 4 bytes, with a byte `a` at 0 and two bytes `b` at 2. The pool has the bytes `ab`. Row 0: kind 7, size 4, 2
 * members. Row 1: kind 12, offset 0, name of 1 byte at place 0. Row 2: kind 1, size 1, precision 8. Row 3: kind 12, offset 2, name of 1
 * byte at place 1. Row 4: kind 1, size 2, precision 16. */
#ifndef DATATYPE_H
#define DATATYPE_H

#include <stddef.h>
#include <stdint.h>

#ifdef __cplusplus
extern "C" {
#endif

enum datatype_refusal {
    DATATYPE_BAD_TABLE = 1,
    DATATYPE_TOO_DEEP = 2,
    DATATYPE_TOO_MANY = 3,
    DATATYPE_SHORT = 4,       /* first: expected, second: available */
    DATATYPE_TOO_NEW = 5,     /* first: version */
    DATATYPE_BAD_CLASS = 6,   /* first: class */
    DATATYPE_BAD_VERSION = 7, /* first: class, second: version */
    DATATYPE_BAD_PADDING = 8, /* first: code */
    DATATYPE_BAD_CHARSET = 9, /* first: code */
    DATATYPE_BAD_REFERENCE_KIND = 10, /* first: code */
    DATATYPE_POOL_FULL = 11,
    DATATYPE_ZERO_SIZE = 12, /* first: class */
    DATATYPE_NO_SUCH_EDITION = 13,
    DATATYPE_UNSTORABLE = 14,
    DATATYPE_NOT_IN_EDITION = 15,
    DATATYPE_OUTSIDE_RECORD = 16,
    DATATYPE_HEAP_HELD = 17,
    DATATYPE_WRONG_LENGTH = 18,
    DATATYPE_UNMAPPED = 19,
    DATATYPE_SLOT_OUTSIDE = 20,
    DATATYPE_NO_ROOM = 21 /* first: needed */
};

/* Reads a message; every header is held to the version limit, 15 or more for none. first: the number of bytes that the message takes. */
uint32_t datatype_read(const uint8_t *data, size_t data_length, uint32_t limit, uint32_t *table, size_t table_length, uint8_t *pool,
                       size_t pool_length, uint64_t *first, uint64_t *second);

/* Writes the message of the type in edition 1, 2 or 3. first: its length. */
uint32_t datatype_write(const uint32_t *table, size_t table_length, const uint8_t *pool, size_t pool_length, uint32_t edition, uint8_t *out,
                        size_t out_length, uint64_t *first, uint64_t *second);

/* Whether two records agree on each byte that a field owns; behind the first NUL of a NUL-terminated string a byte counts only if another
   field counts it. first: 0 same, 1 differs. */
uint32_t datatype_compare(const uint32_t *table, size_t table_length, const uint8_t *pool, size_t pool_length, const uint8_t *a,
                          size_t a_length, const uint8_t *b, size_t b_length, uint64_t *first, uint64_t *second);

/* The size of a record in bytes, which datatype_element_size refuses where it is 0. first: the size. */
uint32_t datatype_size(const uint32_t *table, size_t table_length, const uint8_t *pool, size_t pool_length, uint64_t *first,
                       uint64_t *second);
uint32_t datatype_element_size(const uint32_t *table, size_t table_length, const uint8_t *pool, size_t pool_length, uint64_t *first,
                               uint64_t *second);

/* How much of the table and pool the type uses: the first 16 * *first words and the first *second bytes set out the same type. first: the
   rows, second: the pool bytes. */
uint32_t datatype_extent(const uint32_t *table, size_t table_length, const uint8_t *pool, size_t pool_length, uint64_t *first,
                         uint64_t *second);

/* The offsets of the object references in a record. first: how many there are. */
uint32_t datatype_slots(const uint32_t *table, size_t table_length, const uint8_t *pool, size_t pool_length, uint64_t *out,
                        size_t out_length, uint64_t *first, uint64_t *second);

/* The object references of a block of records: their places in the block and their values. first: how many there are. */
uint32_t datatype_references(const uint8_t *block, size_t block_length, uint64_t record_size, const uint64_t *slots, size_t slots_length,
                             uint64_t *places, size_t places_length, uint64_t *values, size_t values_length, uint64_t *first,
                             uint64_t *second);

/* Which records of a block are the same, as datatype_compare says it: numbers[k] becomes the number, from 0, of the earliest record that is
   the same as record k, which is k itself where there is none before; sizes gets, for each record that is its own earliest, in rising order
   of its number, how many records name it. first: the number of records, second: how many of them are distinct.

   block is the records one behind the other. numbers wants an entry a record, sizes one a distinct record. Refusals, in this order: 1, 12,
   16 and 17, as for datatype_compare; 18, the block is no whole number of records; 21 with the number of records, numbers is too short; 21
   with the number of distinct records, sizes is too short. A refusal leaves numbers and sizes as they were; a success writes nothing past
   the result in either. A block without bytes has no records, and is not refused for its length or for room.

   work is a workspace. With as many words as datatype_duplicates_words says, or more, the time grows little faster than the block. With
   fewer the answer is the same and the time grows; with 2 words a record and 2 a run or less, or none, each record is compared with those
   before it up to the first that is the same, twice, so that the time may grow with the square of the records. What work holds does not
   change the answer. Its first word as lent seeds the hash: a host that reads files which it does not trust fills that word at random before
   each call, so that nobody can choose records that make the call slow. The workspace is all zero afterwards, refused or not, whatever its
   length. */
uint32_t datatype_duplicates(const uint32_t *table, size_t table_length, const uint8_t *pool, size_t pool_length, const uint8_t *block,
                             size_t block_length, uint64_t *numbers, size_t numbers_length, uint64_t *sizes, size_t sizes_length,
                             uint64_t *work, size_t work_length, uint64_t *first, uint64_t *second);

/* How long a workspace makes datatype_duplicates fast on a block of so many records, and datatype_join on two of so many together: 3 words
   a record and 2 a run of the type, at most 18,446,744,073,709,551,615. A run is fields that follow one another without a gap and count
   whole, or one NUL-terminated string; one more is counted where the first field is a string or does not begin the record. Refusals: 1, 12,
   16, 17. first: how many 64-bit words. */
uint32_t datatype_duplicates_words(const uint32_t *table, size_t table_length, const uint8_t *pool, size_t pool_length, uint64_t records,
                                   uint64_t *first, uint64_t *second);

/* Two blocks of records of one type made one: the front of out gets, in order and byte for byte, the records of a that are the same as no
   earlier one of a, then the records of b that are the same as none of a and no earlier one of b; the same as datatype_compare says it. No
   two records of the result are the same, and each record of a and of b is the same as one of them. first: how many bytes the result has,
   second: how many records.

   a and b are the records one behind the other; they may share bytes, or be one block. Refusals, in this order: 1, 12, 16 and 17, as for
   datatype_compare; 18, a is no whole number of records; 18, b is none; 21 with the number of bytes of the result, out is too short. A
   refusal leaves out as it was; a success writes nothing past the result. Room for the bytes of both blocks is always enough. A block
   without bytes has no records, and is not refused for its length: of the other's records that are the same the first is kept.

   work is a workspace as that of datatype_duplicates, for the records of both blocks together: with as many words as
   datatype_duplicates_words says of them, or more, the time grows little faster than the blocks; with fewer, or none, the answer is the
   same and the time grows as there. Its first word as lent seeds the hash, and it is all zero afterwards, refused or not. */
uint32_t datatype_join(const uint32_t *table, size_t table_length, const uint8_t *pool, size_t pool_length, const uint8_t *a,
                       size_t a_length, const uint8_t *b, size_t b_length, uint8_t *out, size_t out_length, uint64_t *work,
                       size_t work_length, uint64_t *first, uint64_t *second);

/* The name of the member at a row. Returns 0. first: its place in the pool, second: its length; both 0 where there is none. */
uint32_t datatype_member_name(const uint32_t *table, size_t table_length, const uint8_t *pool, size_t pool_length, uint64_t row,
                              uint64_t *first, uint64_t *second);

/* Whether the type holds an object address, and whether it holds any file address. first: 0 no, 1 yes. */
uint32_t datatype_holds_object_address(const uint32_t *table, size_t table_length, const uint8_t *pool, size_t pool_length, uint64_t *first,
                                       uint64_t *second);
uint32_t datatype_holds_file_address(const uint32_t *table, size_t table_length, const uint8_t *pool, size_t pool_length, uint64_t *first,
                                     uint64_t *second);

/* Whether a message with this first byte may hold an object address: 0 no, 1 yes. */
uint32_t class_may_hold_object_address(uint8_t byte);

#ifdef __cplusplus
}
#endif

#endif
