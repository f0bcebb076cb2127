/* The calls of BGP, against what another reader made of messages of five daemons and of messages that were made:
 *
 *     bgp STDIN STDOUT [few]
 *
 * Both files are those of crates/octseq_bgp_messages. With `few` it takes each eighth message, as under valgrind. */
#define _DEFAULT_SOURCE
#define BGP_MESSAGES
#include "ask.h"
#include "messages.h"
#include <arpa/inet.h>

#define HEAD_LEN 19

static uint32_t u16_at(const uint8_t *octets) {
    return (uint32_t)octets[0] << 8 | octets[1];
}

static uint32_t u32_at(const uint8_t *octets) {
    return u16_at(octets) << 16 | u16_at(octets + 2);
}

/* The flags of a session that the octet before a message says: 1 AS numbers of two octets, 2 path ids, 4 messages of up
 * to 65,535 octets. */
static uint32_t session_of(uint8_t said) {
    return (said & 1 ? OCTSEQ_BGP_TWO_OCTET_ASN : 0) | (said & 2 ? OCTSEQ_BGP_ADD_PATH : 0) |
           (said & 4 ? OCTSEQ_BGP_EXTENDED_MESSAGE : 0);
}

/* ---- rows against the octets ---- */

/* Which part of a message rows are of: the octets of one list, from one offset to another. */
struct part {
    size_t begin, end;
    uint16_t afi;
    uint8_t safi;
};

/* The rows of prefixes of a kind, from an index on, fill a part. Returns the index after them. */
static size_t check_prefixes(const struct given *given, const octseq_bgp_row *rows, size_t count, size_t i,
                             uint32_t kind, struct part part) {
    const uint8_t *octets = given->octets;
    for (size_t at = part.begin; at < part.end; i++) {
        const octseq_bgp_row *row = &rows[i];
        CHECK(i < count && row->kind == kind);
        CHECK(row->has_path_id == (given->session & OCTSEQ_BGP_ADD_PATH ? 1u : 0u));
        CHECK(row->path_id == (row->has_path_id ? u32_at(octets + at) : 0));
        at += row->has_path_id ? 4 : 0;
        CHECK(row->bits == octets[at]);
        CHECK(row->at == at + 1 && row->len == (row->bits + 7u) / 8);
        CHECK(row->afi == part.afi && row->safi == part.safi);
        CHECK(row->flags == 0 && row->type_code == 0);
        at = row->at + row->len;
        CHECK(at <= part.end);
    }
    return i;
}

/* The rows of the prefixes of an attribute, from an index on, fill its value after its head. */
static size_t check_value(const struct given *given, const octseq_bgp_row *rows, size_t count, size_t i,
                          const octseq_bgp_row *attribute) {
    const uint8_t *value = given->octets + attribute->at;
    int is_reach = attribute->type_code == 14;
    uint32_t kind = is_reach ? OCTSEQ_BGP_REACHED : OCTSEQ_BGP_UNREACHED;
    if (i >= count || (rows[i].kind != OCTSEQ_BGP_REACHED && rows[i].kind != OCTSEQ_BGP_UNREACHED))
        return i;
    CHECK(is_reach || attribute->type_code == 15);
    struct part part = {attribute->at + 3, attribute->at + attribute->len, (uint16_t)u16_at(value), value[2]};
    if (is_reach)
        part.begin += (size_t)value[3] + 2;
    return check_prefixes(given, rows, count, i, kind, part);
}

/* The rows of attributes, from an index on, fill the octets from one offset to another. */
static size_t check_attributes(const struct given *given, const octseq_bgp_row *rows, size_t count, size_t i,
                               size_t at, size_t end) {
    const uint8_t *octets = given->octets;
    while (at < end) {
        const octseq_bgp_row *row = &rows[i];
        CHECK(i < count && row->kind == OCTSEQ_BGP_ATTRIBUTE);
        CHECK(row->flags == octets[at] && row->type_code == octets[at + 1]);
        size_t width = row->flags & 16 ? 2 : 1;
        CHECK(row->at == at + 2 + width);
        CHECK(row->len == (width == 2 ? u16_at(octets + at + 2) : octets[at + 2]));
        CHECK(row->path_id == 0 && row->has_path_id == 0 && row->afi == 0 && row->safi == 0 && row->bits == 0);
        at = row->at + row->len;
        CHECK(at <= end);
        i = check_value(given, rows, count, i + 1, row);
    }
    return i;
}

/* The rows of an UPDATE follow one another in its three parts. Other messages have none. */
static void check_rows(const struct given *given, const octseq_bgp_row *rows, size_t count) {
    const uint8_t *octets = given->octets;
    struct part part = {HEAD_LEN + 2, 0, 1, 1};
    CHECK(count <= given->len);
    if (octets[18] != 2) {
        CHECK(count == 0);
        return;
    }
    part.end = part.begin + u16_at(octets + HEAD_LEN);
    size_t i = check_prefixes(given, rows, count, 0, OCTSEQ_BGP_WITHDRAWN, part);
    part.begin = part.end + 2 + u16_at(octets + part.end);
    i = check_attributes(given, rows, count, i, part.end + 2, part.begin);
    part.end = given->len;
    i = check_prefixes(given, rows, count, i, OCTSEQ_BGP_ANNOUNCED, part);
    CHECK(i == count);
}

/* ---- rows against the text ---- */

/* The line of a row of a prefix, without the line feed. */
static void make_line(char *line, const uint8_t *octets, const octseq_bgp_row *row) {
    static const char *const WORDS[] = {"withdrawn", "attribute", "announced", "reached", "unreached"};
    uint8_t address[16];
    char shown[INET6_ADDRSTRLEN];
    memset(address, 0, sizeof address);
    CHECK(row->len <= (row->afi == 1 ? 4u : 16u));
    memcpy(address, octets + row->at, row->len);
    if (row->bits % 8)
        address[row->bits / 8] &= (uint8_t)(0xFF00 >> row->bits % 8);
    CHECK(inet_ntop(row->afi == 1 ? AF_INET : AF_INET6, address, shown, sizeof shown) == shown);
    line += sprintf(line, "%s %s/%u", WORDS[row->kind], shown, row->bits);
    if (row->has_path_id)
        sprintf(line, " path %lu", (unsigned long)row->path_id);
}

/* Each line of the text of an UPDATE but the first is of the row at its offset. */
static void check_lines(const struct message *message, const octseq_bgp_row *rows, size_t count) {
    const char *line = message->text, *end = message->text + message->text_len;
    if (message->octets[18] != 2)
        return;
    CHECK(strncmp(line, "update\n", 7) == 0);
    line += 7;
    for (size_t i = 0; i < count; i++) {
        char wanted[120] = "attribute ";
        CHECK(line < end);
        size_t len = (size_t)(strchr(line, '\n') - line);
        if (rows[i].kind == OCTSEQ_BGP_ATTRIBUTE) {
            CHECK(len > strlen(wanted) && strncmp(line, wanted, strlen(wanted)) == 0);
        } else {
            make_line(wanted, message->octets, &rows[i]);
            CHECK(len == strlen(wanted) && strncmp(line, wanted, len) == 0);
        }
        line += len + 1;
    }
    CHECK(line == end);
}

static void check_message(const struct message *message) {
    struct given given = given_of(message->octets, message->len, session_of(message->session));
    uint32_t may = message->text ? MAY_OK : MAY(OCTSEQ_MALFORMED);
    struct answer text = ask(bgp_message_text, &given, may);
    struct answer rows = ask_units(bgp_rows, &given, sizeof(octseq_bgp_row), may);
    if (message->text) {
        CHECK(text.status == OCTSEQ_OK && text.len == message->text_len);
        CHECK(is_same(text.out, message->text, text.len) && octseq_is_utf8(text.out, text.len) == 1);
        CHECK(rows.status == OCTSEQ_OK);
        check_rows(&given, (const octseq_bgp_row *)(const void *)rows.out, rows.len);
        check_lines(message, (const octseq_bgp_row *)(const void *)rows.out, rows.len);
    }
    release(text.out);
    release(rows.out);
    let_go(given);
}

/* ---- messages that were cut off or changed ---- */

static const uint8_t CHANGES[] = {0x00, 0x01, 0x7F, 0x80, 0xFF};

/* What octets were read as: how often, how often as no message, and the digest of all texts, each with an empty line
 * after it. */
struct shown {
    unsigned long count, malformed;
    uint64_t digest;
};

/* Reads octets, shows them, and takes what was shown. Both calls agree on whether they are a message. */
static void show(struct shown *shown, const uint8_t *octets, size_t len, uint32_t session) {
    struct given given = given_of(octets, len, session);
    struct answer text = ask(bgp_message_text, &given, MAY_OK | MAY(OCTSEQ_MALFORMED));
    struct answer rows = ask_units(bgp_rows, &given, sizeof(octseq_bgp_row), MAY_OK | MAY(OCTSEQ_MALFORMED));
    CHECK(rows.status == text.status);
    shown->count++;
    if (text.status == OCTSEQ_MALFORMED) {
        shown->malformed++;
        shown->digest = digest_on(shown->digest, "malformed\n", 10);
    } else {
        shown->digest = digest_on(shown->digest, text.out, text.len);
        check_rows(&given, (const octseq_bgp_row *)(const void *)rows.out, rows.len);
    }
    shown->digest = digest_on(shown->digest, "\n", 1);
    release(text.out);
    release(rows.out);
    let_go(given);
}

/* Each front of a message but the whole, with its length in its header. */
static struct shown shown_cuts(const struct message *message) {
    struct shown shown = {0, 0, DIGEST_START};
    uint8_t octets[LONGEST_OF_LINES];
    memcpy(octets, message->octets, message->len);
    for (size_t len = 0; len < message->len; len++) {
        if (message->len > 17) {
            octets[16] = (uint8_t)(len >> 8);
            octets[17] = (uint8_t)len;
        }
        show(&shown, octets, len, session_of(message->session));
    }
    return shown;
}

/* A message with each octet changed in turn. */
static struct shown shown_changes(const struct message *message) {
    struct shown shown = {0, 0, DIGEST_START};
    uint8_t octets[LONGEST_OF_LINES];
    memcpy(octets, message->octets, message->len);
    for (size_t at = 0; at < message->len; at++) {
        for (size_t i = 0; i < sizeof CHANGES; i++) {
            octets[at] = CHANGES[i];
            show(&shown, octets, message->len, session_of(message->session));
        }
        octets[at] = message->octets[at];
    }
    return shown;
}

static void check_line(const struct message *message) {
    char line[200];
    struct shown cuts = shown_cuts(message), changes = shown_changes(message);
    int len = sprintf(line, "cuts %lu, %lu malformed, %016llx; changes %lu, %lu malformed, %016llx\n", cuts.count,
                      cuts.malformed, (unsigned long long)cuts.digest, changes.count, changes.malformed,
                      (unsigned long long)changes.digest);
    if (strncmp(line, message->line, (size_t)len) != 0)
        fprintf(stderr, "of message %ld, wanted: %.*sgot: %s", (long)(message - messages), len, message->line, line);
    CHECK(strncmp(line, message->line, (size_t)len) == 0);
}

/* ---- sessions ---- */

/* Puts the head of a message of a type before what follows it. Returns how many octets there are. */
static size_t put_head(uint8_t *octets, uint8_t kind, size_t body_len) {
    size_t len = HEAD_LEN + body_len;
    memset(octets, 0xFF, 16);
    octets[16] = (uint8_t)(len >> 8);
    octets[17] = (uint8_t)len;
    octets[18] = kind;
    return len;
}

/* The status of both calls for a message in each session. */
static uint32_t status_of(const uint8_t *octets, size_t len, uint32_t session) {
    struct given given = given_of(octets, len, session);
    struct answer text = ask(bgp_message_text, &given, MAY_OK | MAY(OCTSEQ_MALFORMED));
    struct answer rows = ask_units(bgp_rows, &given, sizeof(octseq_bgp_row), MAY_OK | MAY(OCTSEQ_MALFORMED));
    CHECK(text.status == rows.status);
    release(text.out);
    release(rows.out);
    let_go(given);
    return text.status;
}

/* The high bits of a session, which have no meaning. */
#define NO_FLAGS 0xFFFFFFC0u

/* Both calls on a message whose one prefix has a path id: with the flag of its family alone, its last row is that
 * prefix, and without it `other_count` rows are there, or no message if that is 0. */
static void check_flag(const uint8_t *octets, size_t len, uint32_t flag, octseq_bgp_row wanted, size_t other_count) {
    for (uint32_t bit = 1; bit < 64; bit <<= 1)
        for (int is_high = 0; is_high < 2; is_high++) {
            struct given given = given_of(octets, len, is_high ? bit | NO_FLAGS : bit);
            uint32_t may = bit == flag || other_count ? MAY_OK : MAY(OCTSEQ_MALFORMED);
            struct answer rows = ask_units(bgp_rows, &given, sizeof(octseq_bgp_row), may);
            if (bit == flag)
                CHECK(rows.len > 0 && is_same(rows.out + (rows.len - 1) * sizeof wanted, &wanted, sizeof wanted));
            else
                CHECK(rows.len == other_count);
            release(rows.out);
            let_go(given);
        }
}

/* A path id, and a prefix of 8 bits. Read without path ids they are three prefixes of no bits and one of one bit, and
 * too few octets of one of ten bits. */
#define PATH_PREFIX 0, 0, 0, 1, 8, 10

/* The flags of families: of an MP_UNREACH_NLRI, which is opaque where they say something else, and of the withdrawn and
 * announced prefixes of a message, which is malformed then. */
static void check_families(void) {
    static const uint8_t WITHDRAWN[] = {0, 6, PATH_PREFIX, 0, 0};
    static const uint8_t ANNOUNCED[] = {0, 0, 0, 0, PATH_PREFIX};
    uint8_t octets[HEAD_LEN + 16];
    uint32_t flag = OCTSEQ_BGP_ADD_PATH_IPV4_UNICAST;
    for (uint8_t afi = 1; afi <= 2; afi++)
        for (uint8_t safi = 1; safi <= 2; safi++, flag <<= 1) {
            const uint8_t body[16] = {0, 0, 0, 12, 0x80, 15, 9, 0, afi, safi, PATH_PREFIX};
            octseq_bgp_row row = {34, 1, OCTSEQ_BGP_UNREACHED, 1, 1, afi, safi, 8, 0, 0};
            memcpy(octets + HEAD_LEN, body, sizeof body);
            check_flag(octets, put_head(octets, 2, sizeof body), flag, row, 1);
        }
    CHECK(flag == 2 * OCTSEQ_BGP_ADD_PATH_IPV6_MULTICAST);
    octseq_bgp_row withdrawn = {26, 1, OCTSEQ_BGP_WITHDRAWN, 1, 1, 1, 1, 8, 0, 0};
    memcpy(octets + HEAD_LEN, WITHDRAWN, sizeof WITHDRAWN);
    check_flag(octets, put_head(octets, 2, sizeof WITHDRAWN), OCTSEQ_BGP_ADD_PATH_IPV4_UNICAST, withdrawn, 0);
    octseq_bgp_row announced = {28, 1, OCTSEQ_BGP_ANNOUNCED, 1, 1, 1, 1, 8, 0, 0};
    memcpy(octets + HEAD_LEN, ANNOUNCED, sizeof ANNOUNCED);
    check_flag(octets, put_head(octets, 2, sizeof ANNOUNCED), OCTSEQ_BGP_ADD_PATH_IPV4_UNICAST, announced, 0);
}

/* An AS_PATH of one AS number, in a message of each width. */
static void check_asns(void) {
    static const uint8_t BODY[] = {0, 0, 0, 7, 0x40, 2, 4, 2, 1, 0xFD, 0xE8};
    static const char NARROW[] = "update\nattribute T AS_PATH sequence 65000\n";
    uint8_t octets[HEAD_LEN + sizeof BODY];
    size_t len = put_head(octets, 2, sizeof BODY);
    memcpy(octets + HEAD_LEN, BODY, sizeof BODY);
    for (uint32_t session = 0; session < 64; session++) {
        struct given given = given_of(octets, len, session);
        struct answer text = ask(bgp_message_text, &given, MAY_OK);
        int is_narrow = text.len == strlen(NARROW) && is_same(text.out, NARROW, text.len);
        CHECK(is_narrow == (session & OCTSEQ_BGP_TWO_OCTET_ASN ? 1 : 0));
        release(text.out);
        let_go(given);
    }
}

/* A NOTIFICATION may have more than 4,096 octets where messages are extended. A KEEPALIVE has none after its head. */
static void check_sizes(void) {
    static uint8_t octets[65535];
    static const size_t SIZES[] = {21, 4096, 4097, 65535};
    static const uint32_t SESSIONS[] = {0, OCTSEQ_BGP_EXTENDED_MESSAGE, UINT32_MAX - OCTSEQ_BGP_EXTENDED_MESSAGE};
    for (size_t i = 0; i < sizeof SIZES / sizeof SIZES[0]; i++)
        for (size_t j = 0; j < sizeof SESSIONS / sizeof SESSIONS[0]; j++) {
            int fits = SIZES[i] <= 4096 || SESSIONS[j] & OCTSEQ_BGP_EXTENDED_MESSAGE;
            size_t len = put_head(octets, 3, SIZES[i] - HEAD_LEN);
            CHECK(status_of(octets, len, SESSIONS[j]) == (fits ? OCTSEQ_OK : OCTSEQ_MALFORMED));
            put_head(octets, 4, SIZES[i] - HEAD_LEN);
            CHECK(status_of(octets, len, SESSIONS[j]) == OCTSEQ_MALFORMED);
        }
    CHECK(status_of(octets, put_head(octets, 4, 0), 0) == OCTSEQ_OK);
    CHECK(status_of(octets, 0, 0) == OCTSEQ_MALFORMED);
    CHECK(status_of(octets, 18, 0) == OCTSEQ_MALFORMED);
}

int main(int argc, char **argv) {
    int few = read_arguments(argc, argv);
    for (size_t i = 0; i < message_count; i += few ? 8 : 1) {
        check_message(&messages[i]);
        if (messages[i].line && (!few || i % 64 == 0))
            check_line(&messages[i]);
    }
    check_families();
    check_asns();
    check_sizes();
    return finish("bgp");
}
