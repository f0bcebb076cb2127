/* The structs of octseq.h are laid out as the library has them: the compiler's offsets are stated here, and the library
 * fills structs whose octets are read at those offsets. It is compiled as C and as C++. */
#define _DEFAULT_SOURCE
#include "check.h"
#include "octseq.h"

/* Fails to compile where a condition doesn't hold. */
#define ASSERT(name, condition) typedef char name[(condition) ? 1 : -1]
#define AT(type, field, offset, size) \
    ASSERT(type##_has_##field, offsetof(type, field) == (offset) && sizeof(((type *)0)->field) == (size))

AT(octseq_lossy_state, octets, 0, 3);
AT(octseq_lossy_state, len, 3, 1);
ASSERT(octseq_lossy_state_size, sizeof(octseq_lossy_state) == 4);

AT(octseq_dns_header, id, 0, 2);
AT(octseq_dns_header, flags, 2, 2);
AT(octseq_dns_header, qdcount, 4, 2);
AT(octseq_dns_header, ancount, 6, 2);
AT(octseq_dns_header, nscount, 8, 2);
AT(octseq_dns_header, arcount, 10, 2);
ASSERT(octseq_dns_header_size, sizeof(octseq_dns_header) == 12);

AT(octseq_dns_row, name_at, 0, 8);
AT(octseq_dns_row, data_at, 8, 8);
AT(octseq_dns_row, data_len, 16, 8);
AT(octseq_dns_row, ttl, 24, 4);
AT(octseq_dns_row, rtype, 28, 2);
AT(octseq_dns_row, rclass, 30, 2);
AT(octseq_dns_row, section, 32, 4);
ASSERT(octseq_dns_row_size, sizeof(octseq_dns_row) == 40);

AT(octseq_dns_field, at, 0, 8);
AT(octseq_dns_field, len, 8, 8);
AT(octseq_dns_field, number, 16, 4);
AT(octseq_dns_field, kind, 20, 4);
ASSERT(octseq_dns_field_size, sizeof(octseq_dns_field) == 24);

AT(octseq_bgp_row, at, 0, 8);
AT(octseq_bgp_row, len, 8, 8);
AT(octseq_bgp_row, kind, 16, 4);
AT(octseq_bgp_row, path_id, 20, 4);
AT(octseq_bgp_row, has_path_id, 24, 2);
AT(octseq_bgp_row, afi, 26, 2);
AT(octseq_bgp_row, safi, 28, 1);
AT(octseq_bgp_row, bits, 29, 1);
AT(octseq_bgp_row, flags, 30, 1);
AT(octseq_bgp_row, type_code, 31, 1);
ASSERT(octseq_bgp_row_size, sizeof(octseq_bgp_row) == 32);

/* The number of some octets at an offset, the lowest octet first. */
static uint64_t at(const void *things, size_t offset, size_t size) {
    const uint8_t *octets = (const uint8_t *)things + offset;
    uint64_t found = 0;
    for (size_t i = size; i > 0; i--)
        found = found << 8 | octets[i - 1];
    return found;
}

/* One question, then two, three and four records of the root, each with three octets of data. */
#define LEN (12 + 5 + 9 * 14)

static void make_message(uint8_t *octets) {
    static const uint8_t HEADER[] = {0x11, 0x22, 0x85, 0x80, 0, 1, 0, 2, 0, 3, 0, 4};
    static const uint8_t QUESTION[] = {0, 0xFD, 0xE8, 0xFC, 0xE9};
    static const uint8_t RECORD[] = {0, 0xFE, 0x0B, 0xFD, 0x0C, 0x01, 0x02, 0x03, 0x04, 0, 3, 7, 8, 9};
    memcpy(octets, HEADER, sizeof HEADER);
    memcpy(octets + 12, QUESTION, sizeof QUESTION);
    for (size_t i = 0; i < 9; i++)
        memcpy(octets + 17 + 14 * i, RECORD, sizeof RECORD);
}

static void check_header(const uint8_t *octets) {
    octseq_dns_header header;
    CHECK(octseq_dns_message_header(octets, LEN, &header) == OCTSEQ_OK);
    CHECK(at(&header, 0, 2) == 0x1122);
    CHECK(at(&header, 2, 2) == 0x8580);
    CHECK(at(&header, 4, 2) == 1);
    CHECK(at(&header, 6, 2) == 2);
    CHECK(at(&header, 8, 2) == 3);
    CHECK(at(&header, 10, 2) == 4);
}

static void check_row(const octseq_dns_row *row, uint64_t name_at, uint64_t section) {
    int is_record = section != 0;
    CHECK(at(row, 0, 8) == name_at);
    CHECK(at(row, 8, 8) == (is_record ? name_at + 11 : 0));
    CHECK(at(row, 16, 8) == (is_record ? 3 : 0));
    CHECK(at(row, 24, 4) == (is_record ? 0x01020304 : 0));
    CHECK(at(row, 28, 2) == (is_record ? 0xFE0Bu : 0xFDE8u));
    CHECK(at(row, 30, 2) == (is_record ? 0xFD0Cu : 0xFCE9u));
    CHECK(at(row, 32, 4) == section);
    note(section, row, 36);
}

static void check_rows(const uint8_t *octets) {
    static const uint64_t SECTIONS[10] = {0, 1, 1, 2, 2, 2, 3, 3, 3, 3};
    octseq_dns_row rows[10];
    size_t count = 0;
    CHECK(octseq_dns_rows(octets, LEN, rows, 10, &count) == OCTSEQ_OK);
    CHECK(count == 10);
    for (size_t i = 0; i < 10; i++)
        check_row(&rows[i], i ? 17 + 14 * (i - 1) : 12, SECTIONS[i]);
}

/* The library reads rows as it writes them. */
static void check_read(const uint8_t *octets) {
    octseq_dns_row row = {17, 28, 3, 0x01020304, 0xFE0B, 0xFD0C, 1}, again[2];
    uint8_t out[64];
    size_t written = 0, count = 0;
    CHECK(octseq_dns_answer(octets, LEN, 0, octets, LEN, &row, 1, out, sizeof out, &written) == OCTSEQ_OK);
    CHECK(written == 12 + 5 + 14 && is_same(out + 17, octets + 17, 14));
    CHECK(octseq_dns_rows(out, written, again, 2, &count) == OCTSEQ_OK);
    CHECK(count == 2);
    check_row(&again[1], 17, 1);
}

/* An UPDATE with a withdrawn IPv6 multicast prefix of 12 bits, which has a path id. */
static void check_bgp_rows(void) {
    static const uint8_t BODY[] = {0, 0, 0, 14, 0x90, 15, 0, 10, 0, 2, 2, 0x01, 0x02, 0x03, 0x04, 12, 0x20, 0x10};
    uint8_t octets[19 + sizeof BODY];
    octseq_bgp_row rows[2];
    size_t count = 0;
    memset(octets, 0xFF, 16);
    octets[16] = 0;
    octets[17] = sizeof octets;
    octets[18] = 2;
    memcpy(octets + 19, BODY, sizeof BODY);
    CHECK(octseq_bgp_rows(octets, sizeof octets, OCTSEQ_BGP_ADD_PATH_IPV6_MULTICAST, rows, 2, &count) == OCTSEQ_OK);
    CHECK(count == 2);
    CHECK(at(&rows[0], 0, 8) == 27 && at(&rows[0], 8, 8) == 10 && at(&rows[0], 16, 4) == OCTSEQ_BGP_ATTRIBUTE);
    CHECK(at(&rows[0], 20, 8) == 0 && at(&rows[0], 28, 2) == 0);
    CHECK(at(&rows[0], 30, 1) == 0x90 && at(&rows[0], 31, 1) == 15);
    CHECK(at(&rows[1], 0, 8) == 35 && at(&rows[1], 8, 8) == 2 && at(&rows[1], 16, 4) == OCTSEQ_BGP_UNREACHED);
    CHECK(at(&rows[1], 20, 4) == 0x01020304 && at(&rows[1], 24, 2) == 1 && at(&rows[1], 26, 2) == 2);
    CHECK(at(&rows[1], 28, 1) == 2 && at(&rows[1], 29, 1) == 12 && at(&rows[1], 30, 2) == 0);
    note(count, rows, sizeof rows);
}

static void check_hops(void) {
    static const uint8_t PATH[] = {1, 2, 1, 2, 3, 4, 5, 6, 7, 8};
    octseq_bgp_hop hops[2];
    size_t count = 0;
    CHECK(octseq_bgp_as_path(PATH, sizeof PATH, 0, hops, 2, &count) == OCTSEQ_OK && count == 2);
    CHECK(at(&hops[0], 0, 4) == 0x01020304 && at(&hops[0], 4, 2) == 1 && at(&hops[0], 6, 2) == 2);
    CHECK(at(&hops[1], 0, 4) == 0x05060708 && at(&hops[1], 4, 2) == 1 && at(&hops[1], 6, 2) == 2);
    note(count, hops, sizeof hops);
}

/* The numbers that each kind of row of a record has. */
static void check_mrt_event(void) {
    static const uint8_t RECORD[] = {0x65, 0x53, 0xF1, 0, 0, 17, 0, 5, 0, 0, 0, 52, 0, 1, 2, 3, 0, 1, 0xFD, 0xE9, 0, 2,
                                     0xFD, 0xEA, 0, 7, 0, 2, 0x20, 1, 0, 0, 0, 0, 0, 0, 0, 0, 0, 0, 0, 0, 0, 9, 0x20,
                                     1, 0, 0, 0, 0, 0, 0, 0, 0, 0, 0, 0, 0, 0, 8, 0, 3, 0, 4};
    octseq_mrt_header header;
    octseq_mrt_row row;
    size_t count = 0;
    CHECK(octseq_mrt_record_header(RECORD, 12, &header) == OCTSEQ_OK);
    CHECK(at(&header, 0, 8) == sizeof RECORD && at(&header, 8, 4) == 0x6553F100);
    CHECK(at(&header, 12, 2) == 17 && at(&header, 14, 2) == 5);
    CHECK(octseq_mrt_rows(RECORD, sizeof RECORD, &row, 1, &count) == OCTSEQ_OK && count == 1);
    CHECK(at(&row, 0, 8) == 0 && at(&row, 8, 8) == 0 && at(&row, 16, 8) == 0);
    CHECK(at(&row, 24, 4) == OCTSEQ_MRT_STATE_CHANGE && at(&row, 28, 4) == 0 && at(&row, 32, 4) == 0x00010203);
    CHECK(at(&row, 36, 4) == 0x0001FDE9 && at(&row, 40, 4) == 0x0002FDEA && at(&row, 44, 4) == 0);
    CHECK(at(&row, 48, 4) == 3 && at(&row, 52, 4) == 4 && at(&row, 56, 2) == 7 && at(&row, 58, 2) == 2);
    CHECK(at(&row, 60, 1) == 0 && at(&row, 61, 1) == 0 && at(&row, 62, 1) == 1 && at(&row, 63, 1) == 16);
    CHECK(memcmp((const uint8_t *)&row + 64, RECORD + 28, 32) == 0);
    note(count, &row, sizeof row);
}

static void check_mrt_rib(void) {
    static const uint8_t RECORD[] = {0,    0, 0, 0, 0, 13, 0, 9, 0, 0, 0, 24, 1,    2,  3, 4, 12, 10,
                                     0xF0, 0, 1, 0x12, 0x34, 9, 8, 7, 6, 5, 4, 3, 2, 0, 3, 0xC0, 99, 0};
    octseq_mrt_row rows[2];
    octseq_bgp_row attribute;
    size_t count = 0;
    CHECK(octseq_mrt_rows(RECORD, sizeof RECORD, rows, 2, &count) == OCTSEQ_OK && count == 2);
    CHECK(at(&rows[0], 0, 8) == 17 && at(&rows[0], 8, 8) == 2 && at(&rows[0], 16, 8) == 1);
    CHECK(at(&rows[0], 24, 4) == OCTSEQ_MRT_RIB && at(&rows[0], 28, 4) == 0x01020304 && at(&rows[0], 32, 8) == 0);
    CHECK(at(&rows[0], 58, 2) == 1 && at(&rows[0], 60, 1) == 2 && at(&rows[0], 61, 1) == 12);
    CHECK(at(&rows[1], 0, 8) == 0 && at(&rows[1], 8, 8) == 0 && at(&rows[1], 16, 8) == 1);
    CHECK(at(&rows[1], 24, 4) == OCTSEQ_MRT_ENTRY && at(&rows[1], 28, 4) == 0x05040302);
    CHECK(at(&rows[1], 32, 4) == 0x09080706 && at(&rows[1], 56, 2) == 0x1234 && at(&rows[1], 62, 1) == 1);
    CHECK(octseq_mrt_attributes(RECORD, sizeof RECORD, &attribute, 1, &count) == OCTSEQ_OK && count == 1);
    CHECK(at(&attribute, 0, 8) == sizeof RECORD && at(&attribute, 8, 8) == 0);
    CHECK(at(&attribute, 16, 4) == OCTSEQ_BGP_ATTRIBUTE);
    CHECK(at(&attribute, 30, 1) == 0xC0 && at(&attribute, 31, 1) == 99);
    note(count, rows, sizeof rows);
}

static void check_state(void) {
    octseq_lossy_state state;
    size_t written = 99;
    memset(&state, 0, sizeof state);
    CHECK(octseq_lossy_piece(&state, (const uint8_t *)"\xF0\x9F\x98", 3, NULL, 0, &written) == OCTSEQ_OK);
    CHECK(written == 0);
    CHECK(at(&state, 0, 4) == 0x03989FF0);
}

int main(void) {
    uint8_t octets[LEN];
    make_message(octets);
    check_header(octets);
    check_rows(octets);
    check_read(octets);
    check_bgp_rows();
    check_hops();
    check_mrt_event();
    check_mrt_rib();
    check_state();
    return finish("layout");
}
