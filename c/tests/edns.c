/* Queries with an OPT record and answers within a limit, against octets put together by hand, and on messages of real
 * traffic:
 *
 *     edns STDIN STDOUT [few]
 *
 * Both files are those of crates/octseq_dns_messages. With `few` it takes each eighth message, as under valgrind. */
#define _DEFAULT_SOURCE
#include "ask.h"
#include "messages.h"

static uint32_t u16_at(const uint8_t *octets) {
    return (uint32_t)octets[0] << 8 | octets[1];
}

/* ---- queries with an OPT record ---- */

/* What a query is made of; its name is example.com, as text and as octets. */
struct asked {
    const char *name;
    uint16_t payload, edns_flags;
    const uint8_t *options;
    size_t options_len;
};

static struct asked asked;

static uint32_t query_edns(const struct given *given, uint8_t *out, size_t room, size_t *written) {
    return octseq_dns_query_edns(given->id, given->flags, given->octets, given->len, given->rtype, given->rclass,
                                 asked.payload, asked.edns_flags, asked.options, asked.options_len, out, room, written);
}

static struct answer ask_edns(const char *name, const void *options, size_t options_len, uint32_t may) {
    struct given given;
    uint8_t *octets = block_with(name, strlen(name)), *opt = block_with(options, options_len);
    memset(&given, 0, sizeof given);
    given.octets = octets;
    given.len = strlen(name);
    given.id = 0x1234;
    given.flags = 0x0100;
    given.rtype = 28;
    given.rclass = 1;
    asked.options = opt;
    asked.options_len = options_len;
    struct answer answer = ask(query_edns, &given, may);
    release(opt);
    release(octets);
    return answer;
}

/* A header that counts a question and an additional record, the question, and an OPT record of RFC 6891, 6.1.2, up to
 * the length of its data: 1,232 octets, version 0, and the flag DO. */
static const uint8_t EDNS_FRONT[] = {0x12, 0x34, 1,   0,   0, 1, 0, 0,  0, 0, 0, 1, 7, 'e', 'x',  'a', 'm', 'p', 'l',
                                     'e',  3,    'c', 'o', 'm', 0, 0, 28, 0, 1, 0, 0, 41, 4, 0xD0, 0, 0, 0x80, 0};

static void check_edns(const void *options, size_t len) {
    static uint8_t wanted[sizeof EDNS_FRONT + 2 + 65535];
    memcpy(wanted, EDNS_FRONT, sizeof EDNS_FRONT);
    wanted[sizeof EDNS_FRONT] = (uint8_t)(len >> 8);
    wanted[sizeof EDNS_FRONT + 1] = (uint8_t)len;
    if (len)
        memcpy(wanted + sizeof EDNS_FRONT + 2, options, len);
    asked.payload = 1232;
    asked.edns_flags = OCTSEQ_DNS_DO;
    struct answer answer = ask_edns("example.com.", options, len, MAY_OK);
    CHECK(answer.status == OCTSEQ_OK && answer.len == sizeof EDNS_FRONT + 2 + len);
    CHECK(is_same(answer.out, wanted, answer.len));
    release(answer.out);
    answer = ask_edns("example.com", options, len, MAY(OCTSEQ_MALFORMED));
    CHECK(answer.status == OCTSEQ_MALFORMED);
}

/* A cookie of a client (RFC 7873, 4), an empty option (RFC 5001, 2.1), and what is cut off. */
static void check_options(void) {
    static const uint8_t OPTIONS[] = {0, 10, 0, 8, 1, 2, 3, 4, 5, 6, 7, 8, 0, 3, 0, 0};
    check_edns(OPTIONS, 0);
    check_edns(OPTIONS, 12);
    check_edns(OPTIONS, 16);
    for (size_t len = 1; len < 16; len++)
        if (len != 12)
            CHECK(ask_edns("example.com.", OPTIONS, len, MAY(OCTSEQ_MALFORMED)).status == OCTSEQ_MALFORMED);
}

/* One option with so much data that the query has 65,535 octets, or more. */
static void check_long_options(void) {
    static uint8_t option[70004];
    static const size_t LENS[] = {65491, 65492, 65531, 65535};
    for (size_t i = 0; i < sizeof LENS / sizeof LENS[0]; i++) {
        option[2] = (uint8_t)(LENS[i] >> 8);
        option[3] = (uint8_t)LENS[i];
        if (sizeof EDNS_FRONT + 2 + 4 + LENS[i] <= 65535)
            check_edns(option, 4 + LENS[i]);
        else
            CHECK(ask_edns("example.com.", option, 4 + LENS[i], MAY(OCTSEQ_TOO_LONG)).status == OCTSEQ_TOO_LONG);
    }
}

/* ---- answers within a limit ---- */

static uint16_t limit;

static uint32_t answer_within(const struct given *given, uint8_t *out, size_t room, size_t *written) {
    return octseq_dns_answer_within(given->octets, given->len, given->flags, given->source, given->source_len,
                                    given->rows, given->count, limit, out, room, written);
}

/* The answer with the first rows, as octseq_dns_answer composes it, with the flag TC as a limit sets it. */
static struct answer first_rows(const struct given *given, size_t count) {
    struct given part = *given;
    part.count = count;
    part.flags = (uint16_t)((given->flags & ~OCTSEQ_DNS_TC) | (count < given->count ? OCTSEQ_DNS_TC : 0));
    return ask(answer_to, &part, MAY_OK);
}

/* An answer within a limit is that with the rows before the first with which it has more octets. */
static void check_limit(const struct given *given, const size_t *lens, size_t most) {
    size_t kept = given->count;
    limit = (uint16_t)most;
    if (lens[given->count] > most)
        for (kept = 0; kept < given->count && lens[kept] <= most;)
            kept++;
    if (lens[given->count] > most && kept == 0) {
        CHECK(ask(answer_within, given, MAY(OCTSEQ_TOO_LONG)).status == OCTSEQ_TOO_LONG);
        return;
    }
    if (lens[given->count] > most)
        kept--;
    struct answer wanted = first_rows(given, kept), answer = ask(answer_within, given, MAY_OK);
    CHECK(answer.status == OCTSEQ_OK && answer.len <= most);
    CHECK(answer.len == wanted.len && is_same(answer.out, wanted.out, wanted.len));
    CHECK(!(answer.out[2] & 2) == (kept == given->count));
    release(wanted.out);
    release(answer.out);
}

#define MOST_ROWS 512

/* Limits that just fit the first rows, and others. */
static void check_limits(const struct given *given) {
    static size_t lens[MOST_ROWS + 1];
    CHECK(given->count <= MOST_ROWS);
    for (size_t count = 0; count <= given->count; count++) {
        struct answer answer = first_rows(given, count);
        lens[count] = answer.len;
        release(answer.out);
    }
    for (size_t count = 0; count <= given->count; count += given->count > 16 ? 1 + below(8) : 1) {
        check_limit(given, lens, lens[count]);
        check_limit(given, lens, lens[count] - 1);
    }
    check_limit(given, lens, 0);
    check_limit(given, lens, 512);
    check_limit(given, lens, 1232);
    check_limit(given, lens, 65535);
}

/* Answers to a message with the records that it has, within limits. */
static void check_message(const struct message *message) {
    struct given given;
    memset(&given, 0, sizeof given);
    given.octets = given.source = block_with(message->octets, message->len);
    given.len = given.source_len = message->len;
    limit = 512;
    if (!message->text) {
        CHECK(ask(answer_within, &given, MAY(OCTSEQ_MALFORMED)).status == OCTSEQ_MALFORMED);
        release((uint8_t *)(uintptr_t)given.octets);
        return;
    }
    struct answer answer = ask_units(rows, &given, sizeof(octseq_dns_row), MAY_OK);
    size_t question_count = u16_at(given.octets + 4);
    given.rows = (const octseq_dns_row *)(void *)answer.out + question_count;
    given.count = answer.len - question_count;
    given.flags = (uint16_t)number();
    struct answer whole = ask(answer_to, &given, MAY_OK | MAY(OCTSEQ_IMMOVABLE));
    if (whole.status == OCTSEQ_OK)
        check_limits(&given);
    else
        CHECK(ask(answer_within, &given, MAY(OCTSEQ_IMMOVABLE)).status == OCTSEQ_IMMOVABLE);
    release(whole.out);
    release(answer.out);
    release((uint8_t *)(uintptr_t)given.octets);
}

/* Three addresses of one octet's name: 12 octets of header, 17 of the first record, 16 of each other. */
static void check_cut(void) {
    static const uint8_t QUERY[12] = {0, 7, 1}, SOURCE[] = {1, 'a', 0, 1, 2, 3, 4};
    static const octseq_dns_row ROW = {0, 3, 4, 9, 1, 1, 1};
    static const uint8_t WANTED[] = {0, 7, 0x87, 0, 0,    0,  0, 2, 0, 0, 0, 0, 1, 'a', 0, 0, 1, 0, 1, 0, 0, 0, 9,
                                     0, 4, 1,    2, 3,    4,  0xC0, 12, 0, 1, 0, 1, 0, 0, 0, 9, 0, 4, 1, 2, 3, 4};
    octseq_dns_row three[3] = {ROW, ROW, ROW};
    struct given given;
    memset(&given, 0, sizeof given);
    given.octets = block_with(QUERY, sizeof QUERY);
    given.len = sizeof QUERY;
    given.source = block_with(SOURCE, sizeof SOURCE);
    given.source_len = sizeof SOURCE;
    given.rows = (const octseq_dns_row *)(void *)block_with(three, sizeof three);
    given.count = 3;
    given.flags = OCTSEQ_DNS_AA;
    for (limit = 45; limit <= 60; limit++) {
        struct answer answer = ask(answer_within, &given, MAY_OK);
        CHECK(answer.status == OCTSEQ_OK && answer.len == sizeof WANTED);
        CHECK(is_same(answer.out, WANTED, sizeof WANTED));
        release(answer.out);
    }
    limit = 61;
    struct answer answer = ask(answer_within, &given, MAY_OK);
    CHECK(answer.status == OCTSEQ_OK && answer.len == 61 && answer.out[2] == 0x85 && answer.out[7] == 3);
    release(answer.out);
    release((uint8_t *)(uintptr_t)given.rows);
    release((uint8_t *)(uintptr_t)given.source);
    release((uint8_t *)(uintptr_t)given.octets);
}

/* One row after another is of the root, with no data. */
static void check_many_rows(void) {
    static octseq_dns_row many[65536];
    static const uint8_t QUERY[12] = {0, 7};
    size_t written = 99;
    for (size_t i = 0; i < 65536; i++)
        many[i] = (octseq_dns_row){0, 0, 0, 0, 0xFF00, 1, 1};
    CHECK(octseq_dns_answer_within(QUERY, 12, 0, QUERY, 12, many, 65536, 512, NULL, 0, &written) == OCTSEQ_TOO_LONG);
    CHECK(written == 0);
    CHECK(octseq_dns_answer_within(QUERY, 12, 0, QUERY, 12, many, 65535, 512, NULL, 0, &written) == OCTSEQ_NO_ROOM);
    CHECK(written == 12 + 45 * 11);
}

int main(int argc, char **argv) {
    int few = read_arguments(argc, argv);
    check_options();
    check_long_options();
    check_cut();
    check_many_rows();
    for (size_t i = 0; i < message_count; i += few ? 8 : 1)
        check_message(&messages[i]);
    return finish("edns");
}
