/* The calls of MRT files, against what another reader made of the records of four daemons and of records that were
 * made:
 *
 *     mrt STDIN STDOUT [few]
 *
 * Both files are those of crates/octseq_mrt_tests. With `few` it takes each eighth record, as under valgrind. */
#define _DEFAULT_SOURCE
#include "ask.h"
#include "messages.h"
#include <arpa/inet.h>

#define HEADER_LEN 12

/* The text of a record, from one offset to another. */
struct text {
    const char *at, *end;
};

static uint32_t number_at(const uint8_t *octets, size_t len) {
    uint32_t number = 0;
    for (size_t i = 0; i < len; i++)
        number = number << 8 | octets[i];
    return number;
}

/* The next line of a text is this one. */
static void check_line(struct text *text, const char *wanted) {
    size_t len = strlen(wanted);
    int is_same_line = (size_t)(text->end - text->at) > len && memcmp(text->at, wanted, len) == 0;
    if (!is_same_line || text->at[len] != '\n')
        fprintf(stderr, "wanted: %.*s\ngot: %s\n", (int)len + 20, text->at, wanted);
    CHECK(is_same_line && text->at[len] == '\n');
    text->at += len + 1;
}

/* Whether the next line begins with a word. */
static int begins_with(const struct text *text, const char *word) {
    size_t len = strlen(word);
    return (size_t)(text->end - text->at) > len && memcmp(text->at, word, len) == 0;
}

/* Appends an address. Returns the end. */
static char *put_address(char *to, const uint8_t *octets, size_t len) {
    char shown[INET6_ADDRSTRLEN];
    CHECK(len == 4 || len == 16);
    CHECK(inet_ntop(len == 4 ? AF_INET : AF_INET6, octets, shown, sizeof shown) == shown);
    return to + sprintf(to, "%s", shown);
}

static char *put_id(char *to, uint32_t id) {
    return to + sprintf(to, "%u.%u.%u.%u", id >> 24, id >> 16 & 255, id >> 8 & 255, id & 255);
}

/* An address has the length of its family, and zeros follow it. */
static void check_address(const octseq_mrt_row *row, const uint8_t *address) {
    CHECK(row->addr_len == (row->afi == 1 ? 4 : 16) && (row->afi == 1 || row->afi == 2));
    for (size_t i = row->addr_len; i < 16; i++)
        CHECK(address[i] == 0);
}

/* ---- headers ---- */

static octseq_mrt_header header_at(const uint8_t *octets, size_t len) {
    octseq_mrt_header header = {1, 2, 3, 4};
    uint8_t *front = NULL;
    for (size_t few = 0; few < HEADER_LEN; few++) {
        front = block_with(octets, few);
        CHECK(octseq_mrt_record_header(front, few, &header) == OCTSEQ_MALFORMED);
        CHECK(header.len == 1 && header.timestamp == 2 && header.type_code == 3 && header.subtype == 4);
        release(front);
    }
    front = block_with(octets, HEADER_LEN);
    CHECK(octseq_mrt_record_header(front, HEADER_LEN, &header) == OCTSEQ_OK);
    release(front);
    CHECK(header.timestamp == number_at(octets, 4) && header.type_code == number_at(octets + 4, 2));
    CHECK(header.subtype == number_at(octets + 6, 2));
    CHECK(header.len == HEADER_LEN + (size_t)number_at(octets + 8, 4) && header.len <= len);
    return header;
}

/* ---- AS paths ---- */

/* Appends the words of an AS path. */
static void put_hops(char *to, const octseq_bgp_hop *hops, size_t count) {
    static const char *const KINDS[] = {"", "set", "sequence", "confed-sequence", "confed-set"};
    *to = 0;
    for (size_t i = 0; i < count;) {
        size_t end = i + hops[i].count;
        CHECK(hops[i].kind >= 1 && hops[i].kind <= 4 && hops[i].count >= 1 && end <= count);
        to += sprintf(to, " %s", KINDS[hops[i].kind]);
        for (size_t first = i; i < end; i++) {
            CHECK(hops[i].kind == hops[first].kind && hops[i].count == hops[first].count);
            to += sprintf(to, " %lu", (unsigned long)hops[i].asn);
        }
    }
}

/* The AS path of a value, against the line of its attribute. */
static void check_path(const uint8_t *octets, size_t len, uint32_t session, struct text line) {
    char words[8192];
    struct given given = given_of(octets, len, session);
    const char *shown = strstr(line.at, " AS_PATH");
    CHECK(shown && shown < line.end);
    shown += strlen(" AS_PATH");
    int is_opaque = strncmp(shown, " \\#", 3) == 0;
    uint32_t may = is_opaque ? MAY(OCTSEQ_MALFORMED) : MAY_OK;
    struct answer answer = ask_units(bgp_as_path, &given, sizeof(octseq_bgp_hop), may);
    if (!is_opaque) {
        CHECK(len < 1000);
        put_hops(words, (const octseq_bgp_hop *)(const void *)answer.out, answer.len);
        CHECK((size_t)(line.end - shown) == strlen(words) && memcmp(words, shown, strlen(words)) == 0);
    }
    release(answer.out);
    let_go(given);
}

/* The next line of a text that begins with `attribute` is of a row. */
static void check_attribute(struct text *text, const uint8_t *octets, const octseq_bgp_row *row, uint32_t session) {
    char wanted[40] = "attribute ";
    while (!begins_with(text, "attribute ")) {
        CHECK(text->at < text->end);
        text->at = strchr(text->at, '\n') + 1;
    }
    char *to = wanted + strlen(wanted);
    to += sprintf(to, "%s", row->flags & 0x80 ? "O" : "");
    to += sprintf(to, "%s%s", row->flags & 0x40 ? "T" : "", row->flags & 0x20 ? "P" : "");
    sprintf(to, "%s ", to[-1] == ' ' ? "-" : "");
    CHECK(begins_with(text, wanted));
    struct text line = {text->at, strchr(text->at, '\n')};
    if (row->type_code == 2)
        check_path(octets + row->at, row->len, session, line);
    text->at = line.end + 1;
}

/* ---- records ---- */

static void check_opaque(const octseq_mrt_header *header, const struct given *given, const octseq_mrt_row *row,
                         struct text *text) {
    char *wanted = (char *)malloc(2 * given->len + 100);
    CHECK(wanted && row->at == HEADER_LEN && row->len == given->len - HEADER_LEN);
    char *to = wanted + sprintf(wanted, "record %lu %u %u \\# %zu%s", (unsigned long)header->timestamp,
                                header->type_code, header->subtype, row->len, row->len ? " " : "");
    for (size_t i = 0; i < row->len; i++)
        to += sprintf(to, "%02x", given->octets[row->at + i]);
    check_line(text, wanted);
    free(wanted);
}

static void check_table(const octseq_mrt_header *header, const struct given *given, const octseq_mrt_row *rows,
                        size_t count, struct text *text) {
    char wanted[1000];
    CHECK(rows->count == count - 1 && rows->len < 100);
    char *to = wanted + sprintf(wanted, "peers %lu collector ", (unsigned long)header->timestamp);
    to = put_id(to, rows->id);
    sprintf(to, " view \"%.*s\"", (int)rows->len, (const char *)given->octets + rows->at);
    check_line(text, wanted);
    for (size_t i = 1; i < count; i++) {
        CHECK(rows[i].kind == OCTSEQ_MRT_PEER && rows[i].len == 0 && rows[i].count == 0);
        check_address(&rows[i], rows[i].addr);
        to = put_id(wanted + sprintf(wanted, "peer %zu id ", i - 1), rows[i].id);
        to = put_address(to + sprintf(to, " address "), rows[i].addr, rows[i].addr_len);
        sprintf(to, " as %lu", (unsigned long)rows[i].asn);
        check_line(text, wanted);
    }
}

static void check_rib(const octseq_mrt_header *header, const struct given *given, const octseq_mrt_row *row,
                      struct text *text) {
    char wanted[200];
    uint8_t address[16];
    size_t len = row->afi == 1 ? 4 : 16;
    memset(address, 0, sizeof address);
    CHECK(row->len == (row->bits + 7u) / 8 && row->len <= len && (row->afi == 1 || row->afi == 2));
    CHECK(row->safi == (header->subtype % 2 ? 2 : 1));
    memcpy(address, given->octets + row->at, row->len);
    if (row->bits % 8)
        address[row->bits / 8] &= (uint8_t)(0xFF00 >> row->bits % 8);
    char *to = wanted + sprintf(wanted, "rib %lu %u sequence %lu ", (unsigned long)header->timestamp, header->subtype,
                                (unsigned long)row->id);
    sprintf(put_address(to, address, len), "/%u", row->bits);
    check_line(text, wanted);
}

/* The entries of a RIB, each with its attributes. */
static void check_entries(const struct given *given, const octseq_mrt_row *rows, size_t count, struct text *text) {
    struct answer all = ask_units(mrt_attributes, given, sizeof(octseq_bgp_row), MAY_OK);
    const octseq_bgp_row *row = (const octseq_bgp_row *)(const void *)all.out, *end = row + all.len;
    CHECK(rows->count == count - 1);
    for (size_t i = 1; i < count; i++) {
        char wanted[200];
        CHECK(rows[i].kind == OCTSEQ_MRT_ENTRY && rows[i].count <= (size_t)(end - row));
        char *to = wanted + sprintf(wanted, "entry %u time %lu", rows[i].index, (unsigned long)rows[i].time);
        if (rows[i].has_number)
            sprintf(to, " path %lu", (unsigned long)rows[i].id);
        check_line(text, wanted);
        for (size_t left = rows[i].count; left > 0; left--, row++) {
            CHECK(row->kind == OCTSEQ_BGP_ATTRIBUTE && row->at + row->len <= given->len);
            check_attribute(text, given->octets, row, 0);
        }
        while (begins_with(text, "reached ") || begins_with(text, "unreached "))
            text->at = strchr(text->at, '\n') + 1;
    }
    CHECK(row == end);
    release(all.out);
}

static void check_message(const struct given *record, const octseq_mrt_row *row, struct text *text) {
    struct given given = given_of(record->octets + row->at, row->len, row->session);
    int is_malformed = begins_with(text, "malformed");
    uint32_t may = is_malformed ? MAY(OCTSEQ_MALFORMED) : MAY_OK;
    struct answer shown = ask(bgp_message_text, &given, may);
    struct answer rows = ask_units(bgp_rows, &given, sizeof(octseq_bgp_row), may);
    if (!is_malformed) {
        CHECK(shown.len == (size_t)(text->end - text->at) && is_same(shown.out, text->at, shown.len));
        for (size_t i = 0; i < rows.len; i++) {
            const octseq_bgp_row *one = (const octseq_bgp_row *)(const void *)rows.out + i;
            if (one->kind == OCTSEQ_BGP_ATTRIBUTE)
                check_attribute(text, given.octets, one, row->session);
        }
    }
    text->at = text->end;
    release(shown.out);
    release(rows.out);
    let_go(given);
}

static void check_event(const octseq_mrt_header *header, const struct given *given, const octseq_mrt_row *row,
                        struct text *text) {
    char wanted[300];
    check_address(row, row->addr);
    check_address(row, row->local_addr);
    CHECK(row->has_number == (header->type_code == 17 ? 1 : 0));
    char *to = wanted + sprintf(wanted, "bgp4mp %lu", (unsigned long)header->timestamp);
    if (row->has_number)
        to += sprintf(to, ".%06lu", (unsigned long)row->time);
    to = put_address(to + sprintf(to, " %u peer ", header->subtype), row->addr, row->addr_len);
    to += sprintf(to, " as %lu local ", (unsigned long)row->asn);
    to = put_address(to, row->local_addr, row->addr_len);
    to += sprintf(to, " as %lu interface %u", (unsigned long)row->local_asn, row->index);
    if (row->kind == OCTSEQ_MRT_STATE_CHANGE)
        sprintf(to, " state %lu %lu", (unsigned long)row->old_state, (unsigned long)row->new_state);
    check_line(text, wanted);
    if (row->kind == OCTSEQ_MRT_MESSAGE)
        check_message(given, row, text);
}

static void check_record(const octseq_mrt_header *header, const uint8_t *octets, struct text text) {
    struct given given = given_of(octets, header->len, 0);
    struct answer answer = ask_units(mrt_rows, &given, sizeof(octseq_mrt_row), MAY_OK);
    const octseq_mrt_row *rows = (const octseq_mrt_row *)(const void *)answer.out;
    CHECK(answer.len >= 1);
    if (rows->kind == OCTSEQ_MRT_OPAQUE)
        check_opaque(header, &given, rows, &text);
    else if (rows->kind == OCTSEQ_MRT_TABLE)
        check_table(header, &given, rows, answer.len, &text);
    else if (rows->kind == OCTSEQ_MRT_RIB) {
        check_rib(header, &given, rows, &text);
        check_entries(&given, rows, answer.len, &text);
    } else
        check_event(header, &given, rows, &text);
    if (rows->kind != OCTSEQ_MRT_RIB) {
        struct answer none = ask_units(mrt_attributes, &given, sizeof(octseq_bgp_row), MAY_OK);
        CHECK(none.len == 0);
        release(none.out);
    }
    CHECK(text.at == text.end);
    release(answer.out);
    let_go(given);
}

/* What isn't exactly one record: one octet too few, one too many. */
static void check_refused(const uint8_t *octets, size_t len) {
    for (size_t other = len - 1; other <= len + 1; other += 2) {
        struct given given = given_of(octets, other, 0);
        release(ask_units(mrt_rows, &given, sizeof(octseq_mrt_row), MAY(OCTSEQ_MALFORMED)).out);
        release(ask_units(mrt_attributes, &given, sizeof(octseq_bgp_row), MAY(OCTSEQ_MALFORMED)).out);
        let_go(given);
    }
}

int main(int argc, char **argv) {
    size_t len = 0, text_len = 0, number = 0;
    int is_few = argc > 3 && strcmp(argv[3], "few") == 0;
    if (argc < 3)
        return 2;
    const uint8_t *octets = (const uint8_t *)read_file(argv[1], &len);
    const char *shown = read_file(argv[2], &text_len);
    for (size_t at = 0; at < len; number++) {
        octseq_mrt_header header = header_at(octets + at, len - at);
        const char *end = strstr(shown, "\n\n");
        CHECK(end != NULL);
        if (!is_few || number % 8 == 0) {
            struct text text = {shown, end + 1};
            check_record(&header, octets + at, text);
            if (at + header.len < len)
                check_refused(octets + at, header.len);
        }
        shown = end + 2;
        at += header.len;
    }
    CHECK(*shown == 0 && number > 1000);
    return finish("mrt");
}
