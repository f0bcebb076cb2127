/* The calls of DNS on messages of real traffic, against what another reader made of them:
 *
 *     dns STDIN STDOUT [few]
 *
 * Both files are those of crates/octseq_dns_messages. With `few` it takes each eighth message, as under valgrind. */
#define _DEFAULT_SOURCE
#include "ask.h"
#include "messages.h"
#include "names.h"

/* ---- numbers and texts ---- */

static uint32_t u16_at(const uint8_t *octets) {
    return (uint32_t)octets[0] << 8 | octets[1];
}

static uint32_t u32_at(const uint8_t *octets) {
    return u16_at(octets) << 16 | u16_at(octets + 2);
}

/* A text that is being made. */
struct text {
    uint8_t octets[1 << 16];
    size_t len;
};

static void add(struct text *text, const void *octets, size_t len) {
    CHECK(text->len + len <= sizeof text->octets);
    if (len)
        memcpy(text->octets + text->len, octets, len);
    text->len += len;
}

static void add_word(struct text *text, const char *word) {
    add(text, word, strlen(word));
}

/* Adds what a call writes, and releases it. */
static void add_answer(struct text *text, struct answer answer) {
    CHECK(answer.status == OCTSEQ_OK);
    add(text, answer.out, answer.len);
    release(answer.out);
}

/* Adds the line of a header, as the texts of messages have it. */
static void add_header(struct text *text, unsigned id, unsigned flags) {
    static const struct {
        unsigned bit;
        const char *name;
    } FLAGS[] = {{0x8000, " QR"}, {0x0400, " AA"}, {0x0200, " TC"}, {0x0100, " RD"},
                 {0x0080, " RA"}, {0x0020, " AD"}, {0x0010, " CD"}};
    char line[80];
    sprintf(line, "id %u opcode %u rcode %u flags", id, flags >> 11 & 15, flags & 15);
    add_word(text, line);
    for (size_t i = 0; i < sizeof FLAGS / sizeof FLAGS[0]; i++)
        if (flags & FLAGS[i].bit)
            add_word(text, FLAGS[i].name);
    add_word(text, "\n");
}

/* ---- a message ---- */

/* A message in a block of its size, with what is known of it. */
struct read {
    const struct message *message;
    struct given given;
    const octseq_dns_row *rows;
    size_t count;
    size_t question_count;
};

static void check_header(const struct read *it) {
    const uint8_t *octets = it->given.octets;
    octseq_dns_header header;
    CHECK(octseq_dns_message_header(octets, it->given.len, &header) == OCTSEQ_OK);
    CHECK(header.id == u16_at(octets));
    CHECK(header.flags == u16_at(octets + 2));
    CHECK(header.qdcount == u16_at(octets + 4));
    CHECK(header.ancount == u16_at(octets + 6));
    CHECK(header.nscount == u16_at(octets + 8));
    CHECK(header.arcount == u16_at(octets + 10));
    CHECK(OCTSEQ_DNS_OPCODE(header.flags) == (unsigned)(octets[2] >> 3 & 15));
    CHECK(OCTSEQ_DNS_RCODE(header.flags) == (octets[3] & 15u));
}

/* A row against the octets before the offset where its entry ends. Returns that offset. */
static size_t check_fields(const struct read *it, const octseq_dns_row *row, size_t end) {
    const uint8_t *octets = it->given.octets;
    if (row->section == 0) {
        CHECK(row->data_at == 0 && row->data_len == 0 && row->ttl == 0);
        CHECK(row->name_at + 5 <= end && end <= it->given.len);
        CHECK(row->rtype == u16_at(octets + end - 4));
        CHECK(row->rclass == u16_at(octets + end - 2));
        return end;
    }
    CHECK(row->name_at + 11 <= row->data_at && row->data_at <= it->given.len);
    CHECK(row->data_len <= it->given.len - row->data_at);
    CHECK(row->rtype == u16_at(octets + row->data_at - 10));
    CHECK(row->rclass == u16_at(octets + row->data_at - 8));
    CHECK(row->ttl == u32_at(octets + row->data_at - 6));
    CHECK(row->data_len == u16_at(octets + row->data_at - 2));
    return row->data_at + row->data_len;
}

/* The rows follow one another from the header to the end, as many in each section as the header says. */
static void check_rows(const struct read *it) {
    const uint8_t *octets = it->given.octets;
    size_t at = 12, i = 0;
    for (uint32_t section = 0; section < 4; section++)
        for (uint32_t count = u16_at(octets + 4 + 2 * section); count > 0; count--, i++) {
            CHECK(i < it->count);
            CHECK(it->rows[i].section == section);
            CHECK(it->rows[i].name_at == at);
            at = check_fields(it, &it->rows[i], i + 1 < it->count ? it->rows[i + 1].name_at : it->given.len);
        }
    CHECK(i == it->count);
    CHECK(at == (it->count ? it->given.len : 12));
}

/* The line of a row, put together from what calls say of its parts. */
static void add_row(struct text *text, struct given given, const octseq_dns_row *row) {
    static const char *const WORDS[] = {"question ", "answer ", "authority ", "additional "};
    given.offset = row->name_at;
    given.rtype = row->rtype;
    given.rclass = row->rclass;
    add_word(text, WORDS[row->section]);
    add_answer(text, ask(name_text, &given, MAY_OK));
    if (row->section) {
        char ttl[16];
        sprintf(ttl, " %lu", (unsigned long)row->ttl);
        add_word(text, ttl);
    }
    add_word(text, " ");
    add_answer(text, ask(class_text, &given, MAY_OK));
    add_word(text, " ");
    add_answer(text, ask(rtype_text, &given, MAY_OK));
    if (row->section) {
        given.offset = row->data_at;
        given.data_len = row->data_len;
        add_word(text, " ");
        add_answer(text, ask(data_text, &given, MAY_OK));
    }
    add_word(text, "\n");
}

/* The text of the whole, and the one that is put together from its parts. */
static void check_text(const struct read *it) {
    static struct text text;
    struct answer answer = ask(message_text, &it->given, MAY_OK);
    CHECK(answer.status == OCTSEQ_OK);
    CHECK(answer.len == it->message->text_len);
    CHECK(is_same(answer.out, it->message->text, answer.len));
    release(answer.out);
    text.len = 0;
    add_header(&text, u16_at(it->given.octets), u16_at(it->given.octets + 2));
    for (size_t i = 0; i < it->count; i++)
        add_row(&text, it->given, &it->rows[i]);
    CHECK(text.len == it->message->text_len);
    CHECK(is_same(text.octets, it->message->text, text.len));
}

/* Data has its type's form where its text is that of its type. */
static void check_typed(const struct read *it) {
    for (size_t i = it->question_count; i < it->count; i++) {
        const octseq_dns_row *row = &it->rows[i];
        struct given given = it->given;
        given.offset = row->data_at;
        given.data_len = row->data_len;
        given.rtype = row->rtype;
        given.rclass = row->rclass;
        struct answer answer = ask(data_text, &given, MAY_OK);
        CHECK(answer.status == OCTSEQ_OK && answer.len > 0);
        uint32_t is_typed = octseq_dns_data_is_typed(given.octets, given.len, row->data_at, row->data_len, row->rtype,
                                                     row->rclass);
        CHECK(is_typed == (answer.len > 2 && is_same(answer.out, "\\# ", 3) ? 0u : 1u));
        release(answer.out);
    }
}

/* ---- names ---- */

/* A name as wire form, as text and back. Returns how many octets `wire` then has. */
static size_t check_name(const struct read *it, size_t offset, uint8_t *wire) {
    struct given given = it->given, back = it->given;
    size_t len = plain_name(given.octets, given.len, offset, wire);
    given.offset = offset;
    struct answer answer = ask(name_wire, &given, MAY_OK);
    CHECK(answer.status == OCTSEQ_OK && answer.len == len && is_same(answer.out, wire, len));
    release(answer.out);
    struct answer text = ask(name_text, &given, MAY_OK);
    CHECK(text.status == OCTSEQ_OK && text.len <= 1004 && text.out[text.len - 1] == '.');
    back.octets = text.out;
    back.len = text.len;
    answer = ask(name_from_text, &back, MAY_OK);
    CHECK(answer.status == OCTSEQ_OK && answer.len == len && is_same(answer.out, wire, len));
    release(answer.out);
    back.len = text.len - 1;
    answer = ask(name_from_text, &back, MAY(OCTSEQ_MALFORMED));
    CHECK(answer.status == OCTSEQ_MALFORMED);
    release(text.out);
    return len;
}

static void check_order(const struct read *it, size_t offset, size_t other_offset, int wanted) {
    const uint8_t *octets = it->given.octets;
    size_t len = it->given.len;
    int32_t order = 99, back = 99;
    CHECK(octseq_dns_name_compare(octets, len, offset, octets, len, other_offset, &order) == OCTSEQ_OK);
    CHECK(octseq_dns_name_compare(octets, len, other_offset, octets, len, offset, &back) == OCTSEQ_OK);
    CHECK(order == wanted);
    CHECK(back == -wanted);
}

/* Every row's name, and how it compares with those of the rows before it. */
static void check_names(const struct read *it) {
    uint8_t wire[NAME_SIZE], other[NAME_SIZE];
    for (size_t i = 0; i < it->count; i++) {
        size_t offset = it->rows[i].name_at;
        check_name(it, offset, wire);
        check_order(it, offset, offset, 0);
        for (size_t j = i < 4 ? 0 : i - 4; j < i; j++) {
            plain_name(it->given.octets, it->given.len, it->rows[j].name_at, other);
            check_order(it, offset, it->rows[j].name_at, plain_order(wire, other));
        }
    }
}

/* ---- messages that are written ---- */

static void check_text_of(const uint8_t *octets, size_t len, const uint8_t *text, size_t text_len) {
    struct given given;
    memset(&given, 0, sizeof given);
    given.octets = octets;
    given.len = len;
    struct answer answer = ask(message_text, &given, MAY_OK);
    CHECK(answer.status == OCTSEQ_OK);
    CHECK(answer.len == text_len && is_same(answer.out, text, text_len));
    release(answer.out);
}

static int has_untyped(const struct read *it) {
    for (size_t i = it->question_count; i < it->count; i++) {
        const octseq_dns_row *row = &it->rows[i];
        if (!octseq_dns_data_is_typed(it->given.octets, it->given.len, row->data_at, row->data_len, row->rtype,
                                      row->rclass))
            return 1;
    }
    return 0;
}

/* What is written anew says the same, and written anew once more is the same. Returns whether it can be written. */
static int check_rewrite(const struct read *it) {
    struct answer answer = ask(rewrite, &it->given, MAY_OK | MAY(OCTSEQ_IMMOVABLE));
    if (answer.status != OCTSEQ_OK) {
        CHECK(has_untyped(it));
        return 0;
    }
    check_text_of(answer.out, answer.len, (const uint8_t *)it->message->text, it->message->text_len);
    struct given given = it->given;
    given.octets = answer.out;
    given.len = answer.len;
    struct answer again = ask(rewrite, &given, MAY_OK);
    CHECK(again.status == OCTSEQ_OK);
    CHECK(again.len == answer.len && is_same(again.out, answer.out, answer.len));
    release(again.out);
    release(answer.out);
    return 1;
}

/* The rows of a message's records, those of the last section first. Each section keeps its order. */
static octseq_dns_row *turned_rows(const struct read *it) {
    size_t count = it->count - it->question_count, at = 0;
    octseq_dns_row *made = (octseq_dns_row *)(void *)block_of(count * sizeof *made);
    for (uint32_t section = 3; section > 0; section--)
        for (size_t i = 0; i < it->count; i++)
            if (it->rows[i].section == section)
                made[at++] = it->rows[i];
    return made;
}

/* An answer to a message, with the records of the same message, says what the message does, but for its flags. */
static void check_answer(const struct read *it, int is_movable, uint16_t flags) {
    static struct text text;
    octseq_dns_row *made = turned_rows(it);
    struct given given = it->given;
    given.flags = flags;
    given.source = given.octets;
    given.source_len = given.len;
    given.rows = made;
    given.count = it->count - it->question_count;
    struct answer answer = ask(answer_to, &given, MAY_OK | MAY(OCTSEQ_IMMOVABLE));
    CHECK(answer.status == (is_movable ? OCTSEQ_OK : OCTSEQ_IMMOVABLE));
    if (is_movable) {
        const char *rest = strchr(it->message->text, '\n') + 1;
        text.len = 0;
        add_header(&text, u16_at(given.octets), 0x8000u | (u16_at(given.octets + 2) & 0x7900u) | (flags & 0x06FFu));
        add(&text, rest, it->message->text_len - (size_t)(rest - it->message->text));
        check_text_of(answer.out, answer.len, text.octets, text.len);
    }
    release(answer.out);
    release((uint8_t *)made);
}

/* Asks for an answer with one row, which isn't one. */
static void check_bad_row(const struct read *it, octseq_dns_row row) {
    struct given given = it->given;
    octseq_dns_row *made = (octseq_dns_row *)(void *)block_with(&row, sizeof row);
    given.source = given.octets;
    given.source_len = given.len;
    given.rows = made;
    given.count = 1;
    CHECK(ask(answer_to, &given, MAY(OCTSEQ_BAD_ROW)).status == OCTSEQ_BAD_ROW);
    release((uint8_t *)made);
}

static void check_bad_rows(const struct read *it) {
    octseq_dns_row row = {12, 0, 4, 0, 1, 1, 1}; /* an address, in the octets of the header */
    if (it->question_count == 0)
        return;
    for (uint32_t section = 0; section < 8; section++)
        if (section < 1 || section > 3) {
            row.section = section;
            check_bad_row(it, row);
        }
    row.section = UINT32_MAX;
    check_bad_row(it, row);
    row.section = 1;
    row.name_at = it->given.len;
    check_bad_row(it, row);
    row.name_at = SIZE_MAX;
    check_bad_row(it, row);
    row.name_at = 12;
    row.data_at = it->given.len;
    row.data_len = 1;
    check_bad_row(it, row);
    row.data_at = 1;
    row.data_len = SIZE_MAX;
    check_bad_row(it, row);
    row.data_at = SIZE_MAX;
    check_bad_row(it, row);
    row.data_len = 0;
    check_bad_row(it, row);
}

/* A query for a question, octet by octet. */
static void check_query(const struct read *it, const octseq_dns_row *row) {
    uint8_t wanted[12 + NAME_SIZE + 4];
    struct given given = it->given;
    given.offset = row->name_at;
    struct answer text = ask(name_text, &given, MAY_OK);
    size_t len = 12 + plain_name(given.octets, given.len, row->name_at, wanted + 12);
    memcpy(wanted, given.octets, 4);
    memcpy(wanted + 4, "\0\1\0\0\0\0\0\0", 8);
    uint8_t end[4] = {(uint8_t)(row->rtype >> 8), (uint8_t)row->rtype, (uint8_t)(row->rclass >> 8),
                      (uint8_t)row->rclass};
    memcpy(wanted + len, end, 4);
    given.octets = text.out;
    given.len = text.len;
    given.id = (uint16_t)u16_at(wanted);
    given.flags = (uint16_t)u16_at(wanted + 2);
    given.rtype = row->rtype;
    given.rclass = row->rclass;
    struct answer answer = ask(query, &given, MAY_OK);
    CHECK(answer.status == OCTSEQ_OK && answer.len == len + 4 && answer.len <= 271);
    CHECK(is_same(answer.out, wanted, len + 4));
    release(answer.out);
    given.len--;
    CHECK(ask(query, &given, MAY(OCTSEQ_MALFORMED)).status == OCTSEQ_MALFORMED);
    release(text.out);
}

/* ---- all messages ---- */

/* What is no message is refused by each call that reads one. */
static void check_malformed(const struct given *given) {
    octseq_dns_header header, filling;
    memset(&header, FILLING, sizeof header);
    filling = header;
    CHECK(octseq_dns_message_header(given->octets, given->len, &header) == OCTSEQ_MALFORMED);
    CHECK(is_same(&header, &filling, sizeof header));
    CHECK(ask_units(rows, given, sizeof(octseq_dns_row), MAY(OCTSEQ_MALFORMED)).status == OCTSEQ_MALFORMED);
    CHECK(ask(message_text, given, MAY(OCTSEQ_MALFORMED)).status == OCTSEQ_MALFORMED);
    CHECK(ask(rewrite, given, MAY(OCTSEQ_MALFORMED)).status == OCTSEQ_MALFORMED);
    CHECK(ask(answer_to, given, MAY(OCTSEQ_MALFORMED)).status == OCTSEQ_MALFORMED);
}

static void check_message(const struct message *message) {
    uint8_t *octets = block_with(message->octets, message->len);
    struct read it;
    memset(&it, 0, sizeof it);
    it.message = message;
    it.given.octets = octets;
    it.given.len = message->len;
    if (!message->text) {
        check_malformed(&it.given);
        release(octets);
        return;
    }
    struct answer answer = ask_units(rows, &it.given, sizeof(octseq_dns_row), MAY_OK);
    it.rows = (const octseq_dns_row *)(void *)answer.out;
    it.count = answer.len;
    it.question_count = u16_at(octets + 4);
    check_header(&it);
    check_rows(&it);
    check_text(&it);
    check_typed(&it);
    check_names(&it);
    int is_movable = check_rewrite(&it);
    check_answer(&it, is_movable, (uint16_t)u16_at(octets + 2));
    check_answer(&it, is_movable, (uint16_t)number());
    check_bad_rows(&it);
    for (size_t i = 0; i < it.question_count; i++)
        check_query(&it, &it.rows[i]);
    release(answer.out);
    release(octets);
}

/* ---- answers, octet by octet ---- */

/* Asks for an answer to a query, with rows of a source. */
static struct answer answer_of(const uint8_t *query, size_t len, const uint8_t *source, size_t source_len,
                               const octseq_dns_row *from, size_t count) {
    struct given given;
    uint8_t *octets = block_with(query, len), *sources = block_with(source, source_len);
    uint8_t *made = block_with(from, count * sizeof *from);
    memset(&given, 0, sizeof given);
    given.octets = octets;
    given.len = len;
    given.source = sources;
    given.source_len = source_len;
    given.rows = (const octseq_dns_row *)(void *)made;
    given.count = count;
    struct answer answer = ask(answer_to, &given, MAY_OK | MAY(OCTSEQ_TOO_LONG));
    release(made);
    release(sources);
    release(octets);
    return answer;
}

/* The names of RFC 1035, 4.1.4: F.ISI.ARPA in the question, then FOO.F.ISI.ARPA, ARPA and the root. */
static void check_compressed(void) {
    static const uint8_t QUERY[] = {0x12, 0x34, 0x01, 0,   0,   1,   0, 0,   0,   0,   0,   0, 1, 'F',
                                    3,    'I',  'S',  'I', 4,   'A', 'R', 'P', 'A', 0, 0,   1, 0, 1};
    static const uint8_t SOURCE[] = {3, 'F', 'O', 'O', 1, 'F', 3, 'I', 'S', 'I', 4, 'A', 'R', 'P', 'A', 0};
    static const octseq_dns_row ROWS[] = {{0, 16, 0, 1, 0xFF00, 1, 1}, {10, 16, 0, 2, 0xFF00, 1, 2},
                                          {15, 15, 1, 3, 0xFF00, 1, 3}};
    static const uint8_t RECORDS[] = {3,    'F',  'O',  'O', 0xC0, 12, 0xFF, 0, 0, 1, 0, 0, 0, 1, 0, 0,
                                      0xC0, 18,   0xFF, 0,   0,    1,  0,    0, 0, 2, 0, 0,
                                      0,    0xFF, 0,    0,   1,    0,  0,    0, 3, 0, 1, 0};
    uint8_t wanted[sizeof QUERY + sizeof RECORDS];
    struct answer answer = answer_of(QUERY, sizeof QUERY, SOURCE, sizeof SOURCE, ROWS, 3);
    memcpy(wanted, QUERY, sizeof QUERY);
    memcpy(wanted + sizeof QUERY, RECORDS, sizeof RECORDS);
    wanted[2] = 0x81;
    wanted[7] = wanted[9] = wanted[11] = 1;
    CHECK(answer.status == OCTSEQ_OK && answer.len == sizeof wanted);
    CHECK(is_same(answer.out, wanted, sizeof wanted));
    release(answer.out);
}

/* One record of the root, with so much data that the message has 65,535 octets, or more. */
static void check_too_long(void) {
    static const uint8_t QUERY[12] = {0x12, 0x34};
    static const size_t LENS[] = {65511, 65512, 65513, 65535, 65536, 70000};
    static uint8_t source[70001];
    for (size_t i = 1; i < sizeof source; i++)
        source[i] = (uint8_t)number();
    for (size_t i = 0; i < sizeof LENS / sizeof LENS[0]; i++) {
        octseq_dns_row row = {0, 1, 0, 7, 0xFF00, 1, 2};
        row.data_len = LENS[i];
        struct answer answer = answer_of(QUERY, sizeof QUERY, source, sizeof source, &row, 1);
        CHECK(answer.status == (LENS[i] <= 65512 ? OCTSEQ_OK : OCTSEQ_TOO_LONG));
        if (answer.status == OCTSEQ_OK) {
            CHECK(answer.len == 23 + LENS[i]);
            CHECK(is_same(answer.out + 23, source + 1, LENS[i]));
        }
        release(answer.out);
    }
}

/* ---- mnemonics ---- */

/* Some of IANA's registries of types and classes. */
static const struct {
    uint16_t number;
    int is_class;
    const char *name;
} NAMED[] = {
    {1, 0, "A"},     {2, 0, "NS"},     {5, 0, "CNAME"},  {6, 0, "SOA"},    {12, 0, "PTR"},    {15, 0, "MX"},
    {16, 0, "TXT"},  {28, 0, "AAAA"},  {33, 0, "SRV"},   {41, 0, "OPT"},   {43, 0, "DS"},     {46, 0, "RRSIG"},
    {47, 0, "NSEC"}, {48, 0, "DNSKEY"}, {64, 0, "SVCB"}, {65, 0, "HTTPS"}, {257, 0, "CAA"},   {1, 1, "IN"},
    {3, 1, "CH"},    {254, 1, "NONE"}, {255, 1, "ANY"},  {5, 1, "CLASS5"}, {1234, 0, "TYPE1234"},
    {65535, 0, "TYPE65535"},           {65535, 1, "CLASS65535"},
};

static uint32_t number_of(int is_class, const void *text, size_t len, uint16_t *number) {
    uint8_t *octets = block_with(text, len);
    uint32_t status =
        is_class ? octseq_dns_class_from_text(octets, len, number) : octseq_dns_rtype_from_text(octets, len, number);
    release(octets);
    return status;
}

static void check_named(void) {
    for (size_t i = 0; i < sizeof NAMED / sizeof NAMED[0]; i++) {
        struct given given;
        size_t len = strlen(NAMED[i].name);
        uint16_t found = 99;
        memset(&given, 0, sizeof given);
        given.rtype = given.rclass = NAMED[i].number;
        struct answer answer = ask(NAMED[i].is_class ? class_text : rtype_text, &given, MAY_OK);
        CHECK(answer.status == OCTSEQ_OK && answer.len == len && is_same(answer.out, NAMED[i].name, len));
        CHECK(number_of(NAMED[i].is_class, NAMED[i].name, len, &found) == OCTSEQ_OK);
        CHECK(found == NAMED[i].number);
        release(answer.out);
    }
}

/* Each number's text, in letters of either case, names that number. */
static void check_numbers(uint32_t step) {
    for (uint32_t i = 0; i < 0x20000; i += step) {
        struct given given;
        int is_class = i >= 0x10000;
        uint16_t found = 99;
        memset(&given, 0, sizeof given);
        given.rtype = given.rclass = (uint16_t)i;
        struct answer answer = ask(is_class ? class_text : rtype_text, &given, MAY_OK);
        CHECK(answer.status == OCTSEQ_OK);
        CHECK(number_of(is_class, answer.out, answer.len, &found) == OCTSEQ_OK && found == given.rtype);
        for (size_t j = 0; j < answer.len; j++)
            answer.out[j] = (uint8_t)lower(answer.out[j]);
        found = 99;
        CHECK(number_of(is_class, answer.out, answer.len, &found) == OCTSEQ_OK && found == given.rtype);
        release(answer.out);
    }
}

static void check_unnamed(void) {
    static const char *const UNNAMED[] = {"", "NOPE", "TYPE", "CLASS", "TYPE65536", "CLASS65536", "TYPE99999999999",
                                          "TYPE-1", "TYPE 1", "A ", " A", "IN.", "TYPE1x", "CLASS1x"};
    for (size_t i = 0; i < sizeof UNNAMED / sizeof UNNAMED[0]; i++)
        for (int is_class = 0; is_class < 2; is_class++) {
            uint16_t found = 99;
            CHECK(number_of(is_class, UNNAMED[i], strlen(UNNAMED[i]), &found) == OCTSEQ_MALFORMED);
            CHECK(found == 0);
        }
}

/* ---- texts of names ---- */

/* Texts of RFC 1035, 5.1, each with its wire form, or with none. */
static const struct {
    const char *text;
    size_t len; /* of the wire form, or 0 where the text is no name */
    const char *wire;
} TEXTS[] = {
    {".", 1, "\0"},
    {"a.", 3, "\1a"},
    {"Example.COM.", 13, "\7Example\3COM"},
    {"a\\.b.c.", 7, "\3a.b\1c"},
    {"\\097\\000.", 4, "\2a\0"},
    {"\\\\.", 3, "\1\\"},
    {"", 0, NULL},
    {"a", 0, NULL},
    {"..", 0, NULL},
    {".a.", 0, NULL},
    {"a..b.", 0, NULL},
    {"a\\.", 0, NULL},
    {"a\\", 0, NULL},
    {"\\256.", 0, NULL},
    {"\\25.", 0, NULL},
};

static struct answer wire_of(const void *text, size_t len) {
    struct given given;
    uint8_t *octets = block_with(text, len);
    memset(&given, 0, sizeof given);
    given.octets = octets;
    given.len = len;
    struct answer answer = ask(name_from_text, &given, MAY_OK | MAY(OCTSEQ_MALFORMED));
    release(octets);
    return answer;
}

static void check_texts(void) {
    for (size_t i = 0; i < sizeof TEXTS / sizeof TEXTS[0]; i++) {
        struct answer answer = wire_of(TEXTS[i].text, strlen(TEXTS[i].text));
        CHECK(answer.status == (TEXTS[i].wire ? OCTSEQ_OK : OCTSEQ_MALFORMED));
        CHECK(answer.len == TEXTS[i].len && is_same(answer.out, TEXTS[i].wire, answer.len));
        release(answer.out);
    }
}

/* Labels of 63 octets and names of 255 are the longest. */
static void check_longest(void) {
    char text[260];
    for (size_t len = 62; len <= 65; len++) {
        memset(text, 'x', len);
        text[len] = '.';
        struct answer answer = wire_of(text, len + 1);
        CHECK(answer.status == (len <= 63 ? OCTSEQ_OK : OCTSEQ_MALFORMED));
        CHECK(answer.len == (len <= 63 ? len + 2 : 0));
        release(answer.out);
    }
    for (size_t last = 60; last <= 63; last++) {
        memset(text, 'x', sizeof text);
        text[63] = text[127] = text[191] = text[192 + last] = '.';
        struct answer answer = wire_of(text, 193 + last);
        CHECK(answer.status == (last <= 61 ? OCTSEQ_OK : OCTSEQ_MALFORMED));
        CHECK(answer.len == (last <= 61 ? 194 + last : 0));
        release(answer.out);
    }
}

int main(int argc, char **argv) {
    int few = read_arguments(argc, argv);
    for (size_t i = 0; i < message_count; i += few ? 8 : 1)
        check_message(&messages[i]);
    check_compressed();
    check_too_long();
    check_named();
    check_numbers(few ? 97 : 1);
    check_unnamed();
    check_texts();
    check_longest();
    return finish("dns");
}
