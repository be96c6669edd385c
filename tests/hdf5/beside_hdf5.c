// Runs the library beside the HDF5 C library. Datatypes of every class are built through its functions; each message of them, as H5Tencode
// makes it and as a file stores it under the earliest and the latest bounds, is read, and the rows are compared with what the functions of
// the C library say of the type. What `datatype_write` makes of the rows, in each edition that carries it, is decoded by H5Tdecode and
// compared by H5Tequal. Arguments: a seed, a number of random types, and, if wanted, a file to put the messages into.
#include <hdf5.h>
#include <stdio.h>
#include <stdlib.h>
#include <string.h>

#include "datatype.h"

enum { ROWS = 4096, POOL = 65536, MOST = 1 << 20 };

static uint32_t table[ROWS * 16], expected[ROWS * 16];
static uint8_t pool[POOL], expected_pool[POOL], out[MOST + 2], encoded[MOST];
static size_t rows, pooled;
static uint64_t seed;
static FILE *messages;

static struct {
    unsigned read, written, departures_read, departures_written, refused;
    unsigned classes[12], editions[4], versions[5];
} counts;

static uint64_t below(uint64_t n) {
    seed ^= seed << 13;
    seed ^= seed >> 7;
    seed ^= seed << 17;
    return seed % n;
}

static void fail(const char *what, const uint8_t *bytes, size_t n) {
    printf("differs in %s:", what);
    for (size_t i = 0; i < n; i++) printf(" %02X", bytes[i]);
    printf("\n");
    exit(1);
}

// ---- What the C library says of a type, as rows and pool bytes

static uint32_t *row(uint32_t kind) {
    uint32_t *r = expected + rows++ * 16;
    memset(r, 0, 64);
    r[0] = kind;
    return r;
}

static void piece(uint32_t *r, const void *bytes, size_t n, size_t length) {
    r[2] = (uint32_t)pooled;
    r[3] = (uint32_t)length;
    memcpy(expected_pool + pooled, bytes, n);
    pooled += n;
}

static uint32_t order(hid_t t) {
    H5T_order_t o = H5Tget_order(t);
    return o == H5T_ORDER_BE ? 1 : o == H5T_ORDER_VAX ? 2 : 0;
}

static void describe(hid_t t);

static void describe_super(hid_t t) {
    hid_t base = H5Tget_super(t);
    describe(base);
    H5Tclose(base);
}

static void describe_compound(hid_t t, uint32_t *r) {
    int n = H5Tget_nmembers(t);
    r[4] = (uint32_t)n;
    for (int i = 0; i < n; i++) {
        char *name = H5Tget_member_name(t, (unsigned)i);
        uint32_t *m = row(12);
        m[1] = (uint32_t)H5Tget_member_offset(t, (unsigned)i);
        piece(m, name, strlen(name), strlen(name));
        H5free_memory(name);
        hid_t inner = H5Tget_member_type(t, (unsigned)i);
        describe(inner);
        H5Tclose(inner);
    }
}

static void describe_enumeration(hid_t t, uint32_t *r) {
    int n = H5Tget_nmembers(t);
    r[4] = (uint32_t)n;
    describe_super(t);
    for (int i = 0; i < n; i++) {
        char *name = H5Tget_member_name(t, (unsigned)i);
        uint32_t *m = row(13);
        piece(m, name, strlen(name), strlen(name));
        m[4] = (uint32_t)H5Tget_size(t);
        H5free_memory(name);
    }
    for (int i = 0; i < n; i++) {
        H5Tget_member_value(t, (unsigned)i, expected_pool + pooled);
        pooled += H5Tget_size(t);
    }
}

static void describe(hid_t t) {
    H5T_class_t class = H5Tis_variable_str(t) > 0 ? H5T_VLEN : H5Tget_class(t);
    uint32_t *r = row((uint32_t)class + 1);
    counts.classes[class]++;
    r[1] = (uint32_t)H5Tget_size(t);
    switch (class) {
    case H5T_FLOAT: {
        size_t sign, exponent, exponent_size, mantissa, mantissa_size;
        H5Tget_fields(t, &sign, &exponent, &exponent_size, &mantissa, &mantissa_size);
        r[9] = (uint32_t)exponent, r[10] = (uint32_t)exponent_size, r[11] = (uint32_t)mantissa, r[12] = (uint32_t)mantissa_size;
        r[13] = (uint32_t)H5Tget_ebias(t);
    }
    // fall through
    case H5T_INTEGER:
    case H5T_BITFIELD:
        r[7] = (uint32_t)H5Tget_offset(t);
    // fall through
    case H5T_TIME:
        r[5] = order(t);
        r[8] = (uint32_t)H5Tget_precision(t);
        if (class == H5T_INTEGER) r[6] = H5Tget_sign(t) == H5T_SGN_2;
        break;
    case H5T_STRING:
        r[5] = (uint32_t)H5Tget_strpad(t), r[6] = (uint32_t)H5Tget_cset(t);
        break;
    case H5T_OPAQUE: {
        // the C library stores a tag with its padding, and counts that
        char padded[264] = {0}, *tag = H5Tget_tag(t);
        memcpy(padded, tag, strlen(tag));
        piece(r, padded, (strlen(tag) + 7) / 8 * 8, (strlen(tag) + 7) / 8 * 8);
        H5free_memory(tag);
        break;
    }
    case H5T_COMPOUND:
        describe_compound(t, r);
        break;
    case H5T_REFERENCE:
        r[5] = H5Tequal(t, H5T_STD_REF_DSETREG) > 0;
        break;
    case H5T_ENUM:
        describe_enumeration(t, r);
        break;
    case H5T_VLEN:
        r[1] = 0;
        if (H5Tis_variable_str(t) > 0) {
            r[5] = 1, r[6] = (uint32_t)H5Tget_strpad(t) + 1, r[7] = (uint32_t)H5Tget_cset(t) + 1;
            // the base, which the functions do not tell: an unsigned byte
            uint32_t *base = row(1);
            base[1] = 1, base[8] = 8;
        } else {
            describe_super(t);
        }
        break;
    case H5T_ARRAY: {
        hsize_t dims[32];
        int rank = H5Tget_array_ndims(t);
        uint8_t bytes[128];
        H5Tget_array_dims2(t, dims);
        for (int i = 0; i < rank; i++)
            for (int k = 0; k < 4; k++) bytes[i * 4 + k] = (uint8_t)(dims[i] >> 8 * k);
        piece(r, bytes, (size_t)rank * 4, (size_t)rank);
        r[1] = 0;
        describe_super(t);
        break;
    }
    default:
        printf("a class that is not built here\n");
        exit(1);
    }
}

// ---- One message

// Sizes and offsets of a type that holds a variable-length string are those of the memory or of the file; the rest of its rows is compared.
static void forget_sizes(uint32_t *words) {
    for (size_t i = 0; i < rows; i++) {
        uint32_t *r = words + i * 16;
        if (r[0] == 7 || r[0] == 12) r[1] = 0;
    }
}

// Whether a test holds of a type at any level.
static int some(hid_t t, int (*test)(hid_t)) {
    int found = test(t);
    if (H5Tget_class(t) == H5T_COMPOUND) {
        for (int i = 0; !found && i < H5Tget_nmembers(t); i++) {
            hid_t inner = H5Tget_member_type(t, (unsigned)i);
            found = some(inner, test);
            H5Tclose(inner);
        }
    } else if (!found && (H5Tget_class(t) == H5T_ARRAY || H5Tget_class(t) == H5T_VLEN)) {
        hid_t inner = H5Tget_super(t);
        found = some(inner, test);
        H5Tclose(inner);
    }
    return found;
}

// A compound whose offsets take 3 bytes in version 3, which the Rust does not know (docs/DIFFERENCES.md).
static int three_bytes(hid_t t) {
    return H5Tget_class(t) == H5T_COMPOUND && H5Tget_size(t) > 65535 && H5Tget_size(t) <= 16777215;
}

// A float whose sign place, normalisation or order the message that is written does not have (docs/DIFFERENCES.md).
static int not_kept(hid_t t) {
    size_t sign, exponent, exponent_size, mantissa, mantissa_size;
    if (H5Tget_class(t) != H5T_FLOAT) return 0;
    H5Tget_fields(t, &sign, &exponent, &exponent_size, &mantissa, &mantissa_size);
    return H5Tget_order(t) == H5T_ORDER_VAX || H5Tget_norm(t) != H5T_NORM_IMPLIED || sign != H5Tget_size(t) * 8 - 1;
}

// Its size in memory is that of a pointer, where the message that is written says 16 (docs/DIFFERENCES.md).
static int variable_string(hid_t t) {
    return H5Tis_variable_str(t) > 0;
}

// What the library writes of the rows, decoded by the C library, beside what it decodes of its own encoding: it does not find its own copy
// of a compound with a reference equal to the one that was encoded.
static void write_back(hid_t t) {
    hid_t own = H5Tdecode(encoded);
    for (uint32_t edition = 1; edition <= 3; edition++) {
        uint64_t first, second;
        uint32_t number = datatype_write(table, ROWS * 16, pool, POOL, edition, out + 2, MOST, &first, &second);
        if (number == DATATYPE_NOT_IN_EDITION && edition == 1 && H5Tdetect_class(t, H5T_ARRAY) > 0) continue;
        if (number != 0) fail("the refusal to write", out, 0);
        out[0] = 3, out[1] = 0;
        hid_t decoded;
        H5E_BEGIN_TRY {
            decoded = H5Tdecode(out);
        }
        H5E_END_TRY;
        counts.editions[edition]++;
        if (some(t, not_kept) || some(t, variable_string) || (edition == 3 && some(t, three_bytes))) counts.departures_written++;
        else if (decoded >= 0 && H5Tequal(decoded, own) > 0) counts.written++;
        else fail("what the C library reads of the message", out + 2, first);
        if (decoded >= 0) H5Tclose(decoded);
    }
    H5Tclose(own);
}

static void compare(hid_t t, const uint8_t *message, size_t n, int in_file) {
    uint64_t first, second;
    rows = pooled = 0;
    memset(expected, 0, sizeof expected);
    memset(expected_pool, 0, sizeof expected_pool);
    describe(t);
    uint32_t number = datatype_read(message, n, 15, table, ROWS * 16, pool, POOL, &first, &second);
    counts.versions[message[0] >> 4]++;
    if (message[0] >> 4 == 3 && some(t, three_bytes)) {
        counts.departures_read++;
        return;
    }
    if (number != 0) {
        printf("refused %u %llu %llu\n", number, (unsigned long long)first, (unsigned long long)second);
        fail("the answer", message, n);
    }
    // a file pads a message to a multiple of 8
    if (first > n || first + 8 <= n || (!in_file && first != n)) fail("the length", message, n);
    if (messages != NULL) {
        uint32_t length = (uint32_t)n;
        fwrite(&length, 4, 1, messages);
        fwrite(message, 1, n, messages);
    }
    if (in_file && some(t, variable_string)) {
        static uint32_t kept[ROWS * 16];
        memcpy(kept, table, sizeof kept);
        forget_sizes(kept), forget_sizes(expected);
        if (memcmp(kept, expected, sizeof kept) != 0) fail("the rows", message, n);
    } else {
        if (memcmp(table, expected, sizeof table) != 0) fail("the rows", message, n);
        write_back(t);
    }
    if (memcmp(pool, expected_pool, POOL) != 0) fail("the pool", message, n);
    counts.read++;
}

// ---- The messages of a type

static uint64_t number_at(const uint8_t *bytes, int n) {
    uint64_t x = 0;
    for (int i = n; i-- > 0;) x = x << 8 | bytes[i];
    return x;
}

// The datatype message in the object header at a place of a file.
static const uint8_t *stored(const uint8_t *file, size_t at, size_t *length) {
    const uint8_t *p = file + at;
    int second = memcmp(p, "OHDR", 4) == 0;
    size_t size;
    if (second) {
        unsigned flags = p[5];
        p += 6 + (flags & 32 ? 16 : 0) + (flags & 16 ? 4 : 0);
        size = number_at(p, 1 << (flags & 3));
        p += 1 << (flags & 3);
        for (const uint8_t *end = p + size; p < end;) {
            size_t n = number_at(p + 1, 2), head = 4 + (flags & 4 ? 2 : 0);
            if (p[0] == 3) return *length = n, p + head;
            p += head + n;
        }
    } else {
        size = number_at(p + 8, 4);
        p += 16;
        for (const uint8_t *end = p + size; p < end;) {
            size_t n = number_at(p + 2, 2);
            if (number_at(p, 2) == 3) return *length = n, p + 8;
            p += 8 + n;
        }
    }
    return NULL;
}

static void in_file(hid_t t, H5F_libver_t low) {
    static uint8_t image[1 << 22];
    hid_t access = H5Pcreate(H5P_FILE_ACCESS);
    H5Pset_fapl_core(access, 1 << 16, 0);
    H5Pset_libver_bounds(access, low, H5F_LIBVER_LATEST);
    hid_t file = H5Fcreate("unused", H5F_ACC_TRUNC, H5P_DEFAULT, access);
    hid_t copy = H5Tcopy(t);
    H5O_info_t info;
    if (H5Tcommit2(file, "t", copy, H5P_DEFAULT, H5P_DEFAULT, H5P_DEFAULT) < 0) fail("the commit", image, 0);
    H5Oget_info_by_name(file, "t", &info, H5P_DEFAULT);
    H5Fflush(file, H5F_SCOPE_GLOBAL);
    ssize_t n = H5Fget_file_image(file, image, sizeof image);
    size_t length = 0;
    const uint8_t *message = n < 0 ? NULL : stored(image, (size_t)info.addr, &length);
    // a header whose messages go on elsewhere is left to H5Tencode
    if (message != NULL) compare(t, message, length, 1);
    else counts.refused++;
    H5Tclose(copy);
    H5Fclose(file);
    H5Pclose(access);
}

static void run(hid_t t) {
    size_t n = 0;
    if (H5Tencode(t, NULL, &n) < 0 || n > MOST || H5Tencode(t, encoded, &n) < 0) fail("the encoding", encoded, 0);
    compare(t, encoded + 2, n - 2, 0);
    in_file(t, H5F_LIBVER_EARLIEST);
    in_file(t, H5F_LIBVER_LATEST);
}

// ---- Types

static hid_t integer(void) {
    hid_t list[] = {H5T_STD_I8LE, H5T_STD_I8BE, H5T_STD_I16LE, H5T_STD_I16BE, H5T_STD_I32LE, H5T_STD_U32BE, H5T_STD_I64LE, H5T_STD_U64BE, H5T_STD_U8LE, H5T_STD_U16BE};
    hid_t t = H5Tcopy(list[below(10)]);
    if (below(4) == 0) {
        size_t bits = H5Tget_size(t) * 8, precision = 1 + below(bits);
        H5Tset_precision(t, precision);
        H5Tset_offset(t, below(bits - precision + 1));
    }
    return t;
}

static hid_t leaf(void) {
    hid_t floats[] = {H5T_IEEE_F32LE, H5T_IEEE_F32BE, H5T_IEEE_F64LE, H5T_IEEE_F64BE, H5T_VAX_F32, H5T_VAX_F64, H5T_NATIVE_LDOUBLE};
    hid_t fields[] = {H5T_STD_B8LE, H5T_STD_B16BE, H5T_STD_B32LE, H5T_STD_B64BE};
    hid_t times[] = {H5T_UNIX_D32LE, H5T_UNIX_D32BE, H5T_UNIX_D64LE, H5T_UNIX_D64BE};
    char tag[256];
    hid_t t;
    switch (below(8)) {
    case 0:
        return H5Tcopy(floats[below(7)]);
    case 1:
        return H5Tcopy(fields[below(4)]);
    case 2:
        return H5Tcopy(times[below(4)]);
    case 3:
        t = H5Tcreate(H5T_OPAQUE, 1 + below(20));
        size_t n = below(20) == 0 ? 200 + below(40) : below(20);
        memset(tag, 't', n);
        tag[n] = 0;
        H5Tset_tag(t, tag);
        return t;
    case 4:
        return H5Tcopy(below(2) ? H5T_STD_REF_OBJ : H5T_STD_REF_DSETREG);
    case 5:
        t = H5Tcopy(H5T_C_S1);
        H5Tset_size(t, below(3) == 0 ? H5T_VARIABLE : 1 + below(30));
        H5Tset_strpad(t, (H5T_str_t)below(3));
        H5Tset_cset(t, (H5T_cset_t)below(2));
        return t;
    default:
        return integer();
    }
}

static void named(char *name, const char *stem, unsigned i) {
    int n = sprintf(name, "%s%u", stem, i);
    for (uint64_t k = below(12); k > 0; k--) name[n++] = (char)('a' + below(26));
    if (below(6) == 0) name[n++] = (char)0xC3, name[n++] = (char)0xA9;
    name[n] = 0;
}

static hid_t type(unsigned levels) {
    if (levels == 0) return leaf();
    char name[64];
    hid_t base, t;
    switch (below(5)) {
    case 0: {
        unsigned n = 1 + (unsigned)below(6);
        size_t at = 0;
        hid_t inner[6];
        size_t offsets[6];
        for (unsigned i = 0; i < n; i++) {
            inner[i] = type(levels - 1);
            offsets[i] = at + below(3) + (below(40) == 0 ? 70000 : below(20) == 0 ? 300 : 0);
            at = offsets[i] + H5Tget_size(inner[i]);
        }
        t = H5Tcreate(H5T_COMPOUND, at + below(3));
        for (unsigned i = 0; i < n; i++) {
            named(name, "m", i);
            H5Tinsert(t, name, offsets[i], inner[i]);
            H5Tclose(inner[i]);
        }
        return t;
    }
    case 1: {
        base = integer();
        t = H5Tenum_create(base);
        unsigned n = 1 + (unsigned)below(6);
        for (unsigned i = 0; i < n; i++) {
            uint8_t value[8] = {0};
            value[0] = (uint8_t)(i + 1);
            named(name, "e", i);
            H5Tenum_insert(t, name, value);
        }
        H5Tclose(base);
        return t;
    }
    case 2:
        base = type(levels - 1);
        t = H5Tvlen_create(base);
        H5Tclose(base);
        return t;
    case 3: {
        hsize_t dims[4];
        unsigned rank = 1 + (unsigned)below(4);
        for (unsigned i = 0; i < rank; i++) dims[i] = 1 + below(4);
        base = type(levels - 1);
        t = H5Tarray_create2(base, rank, dims);
        H5Tclose(base);
        return t;
    }
    default:
        return leaf();
    }
}

int main(int argc, char **argv) {
    H5dont_atexit();
    seed = (argc > 1 ? strtoull(argv[1], NULL, 10) : 1) * 0x9E3779B97F4A7C15ull | 1;
    unsigned n = argc > 2 ? (unsigned)atoi(argv[2]) : 2000;
    if (argc > 3) messages = fopen(argv[3], "wb");
    for (unsigned i = 0; i < n; i++) {
        hid_t t = type((unsigned)below(5));
        run(t);
        H5Tclose(t);
    }
    if (messages != NULL) fclose(messages);
    printf("beside HDF5 %u.%u.%u: %u messages read as the C library says, %u departures on the list, %u with a header that goes on elsewhere\n", H5_VERS_MAJOR, H5_VERS_MINOR, H5_VERS_RELEASE, counts.read,
           counts.departures_read, counts.refused);
    printf("%u messages written and found equal by H5Tequal, %u departures\n", counts.written, counts.departures_written);
    printf("types by class");
    int lacking = 0;
    for (int i = 0; i < 11; i++) printf(" %u", counts.classes[i]), lacking |= counts.classes[i] == 0;
    printf("; messages by version");
    for (int i = 1; i < 4; i++) printf(" %u", counts.versions[i]), lacking |= counts.versions[i] == 0;
    printf("; by edition %u %u %u\n", counts.editions[1], counts.editions[2], counts.editions[3]);
    if (lacking) printf("a class or version was never met\n");
    return lacking;
}
