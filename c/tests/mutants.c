/* The calls of DNS on messages that were cut off and changed:
 *
 *     mutants STDIN STDOUT [few]
 *
 * Both files are those of crates/octseq_dns_messages. What another reader made of each front of each message, and of
 * each message with one octet changed, is there as counts and digests. After that, messages are changed at random, and
 * each call has to answer as octseq.h says that it may. With `few` it takes some messages alone, as under valgrind. */
#define _DEFAULT_SOURCE
#include "ask.h"
#include "messages.h"
#include "names.h"

/* ---- what another reader made of them ---- */

/* What an octet is changed to. */
static const uint8_t CHANGES[] = {0x00, 0x3F, 0x40, 0xBF, 0xC0, 0xFF};

/* What octets were read as: how often, how often as no message, and the digest of all texts, each with an empty line
 * after it. */
struct shown {
    unsigned long count, malformed;
    uint64_t digest;
};

/* Reads octets, shows them, and notes what it was. The text is exactly as long as it is said to be. */
static void show(struct shown *shown, const uint8_t *octets, size_t len) {
    static const char NONE[] = "malformed\n";
    size_t size = 99, written = 99;
    uint32_t status = octseq_dns_message_text(octets, len, NULL, 0, &size);
    shown->count++;
    if (status == OCTSEQ_MALFORMED) {
        CHECK(size == 0);
        shown->malformed++;
        shown->digest = digest_on(shown->digest, NONE, strlen(NONE));
    } else {
        CHECK(status == OCTSEQ_NO_ROOM && size > 0);
        uint8_t *text = filled_block(size);
        CHECK(octseq_dns_message_text(octets, len, text, size, &written) == OCTSEQ_OK);
        CHECK(written == size);
        shown->digest = digest_on(shown->digest, text, size);
        release(text);
    }
    shown->digest = digest_on(shown->digest, "\n", 1);
}

/* Each front of a message but the whole. */
static struct shown shown_cuts(const struct message *message) {
    struct shown shown = {0, 0, DIGEST_START};
    for (size_t len = 0; len < message->len; len++) {
        uint8_t *octets = block_with(message->octets, len);
        show(&shown, octets, len);
        release(octets);
    }
    return shown;
}

/* A message with each octet changed in turn. */
static struct shown shown_changes(const struct message *message) {
    struct shown shown = {0, 0, DIGEST_START};
    uint8_t *octets = block_with(message->octets, message->len);
    for (size_t at = 0; at < message->len; at++) {
        for (size_t i = 0; i < sizeof CHANGES; i++) {
            octets[at] = CHANGES[i];
            show(&shown, octets, message->len);
        }
        octets[at] = message->octets[at];
    }
    release(octets);
    return shown;
}

static void check_line(const struct message *message) {
    char line[200];
    struct shown cuts = shown_cuts(message), changes = shown_changes(message);
    int len = sprintf(line, "cuts %lu, %lu malformed, %016llx; changes %lu, %lu malformed, %016llx\n", cuts.count,
                      cuts.malformed, (unsigned long long)cuts.digest, changes.count, changes.malformed,
                      (unsigned long long)changes.digest);
    note((uint64_t)len, line, (size_t)len);
    if (strncmp(line, message->line, (size_t)len) != 0)
        fprintf(stderr, "of message %ld, wanted: %.*sgot: %s", (long)(message - messages), len, message->line, line);
    CHECK(strncmp(line, message->line, (size_t)len) == 0);
}

/* ---- messages changed at random ---- */

#define MOST_ROWS 64

/* The number of an entry, a length or an offset: mostly one that may be right. */
static size_t offset_in(size_t len) {
    switch (below(16)) {
    case 0:
        return len;
    case 1:
        return SIZE_MAX - below(4);
    case 2:
        return len + below(70000);
    default:
        return len ? below(len) : 0;
    }
}

/* A message that is cut off, grows, or has octets changed, in a block of its size. */
static uint8_t *mutant_of(const struct message *message, size_t *len) {
    uint8_t octets[1 << 13];
    size_t size = message->len;
    CHECK(size + 16 <= sizeof octets);
    memcpy(octets, message->octets, size);
    if (below(8) == 0)
        size = below(size + 1);
    if (below(16) == 0)
        for (size_t more = below(16); more > 0; more--)
            octets[size++] = (uint8_t)number();
    for (size_t count = below(4); count > 0 && size > 0; count--) {
        size_t at = below(below(3) == 0 && size > 12 ? 12 : size);
        octets[at] = below(2) ? CHANGES[below(sizeof CHANGES)] : (uint8_t)number();
    }
    *len = size;
    return block_with(octets, size);
}

/* The calls that read a message agree on whether it is one. Returns whether it is. */
static int check_readers(const struct given *given, octseq_dns_row *kept, size_t *kept_count) {
    octseq_dns_header header, filling;
    memset(&header, FILLING, sizeof header);
    filling = header;
    uint32_t status = octseq_dns_message_header(given->octets, given->len, &header);
    CHECK(status == OCTSEQ_OK || status == OCTSEQ_MALFORMED);
    uint32_t may = status == OCTSEQ_OK ? MAY_OK : MAY(OCTSEQ_MALFORMED);
    size_t stop = given->len + 1;
    CHECK(octseq_dns_message_fault(given->octets, given->len, &stop) == status);
    CHECK(status == OCTSEQ_OK ? stop == given->len : stop <= given->len);
    struct answer answer = ask_units(rows, given, sizeof(octseq_dns_row), may);
    *kept_count = answer.len < MOST_ROWS ? answer.len : MOST_ROWS;
    if (*kept_count)
        memcpy(kept, answer.out, *kept_count * sizeof *kept);
    release(answer.out);
    struct answer text = ask(message_text, given, may);
    if (status == OCTSEQ_OK) {
        size_t entries = (size_t)header.qdcount + header.ancount + header.nscount + header.arcount;
        CHECK(answer.len == entries);
        CHECK(octseq_is_utf8(text.out, text.len) == 1);
    } else {
        CHECK(is_same(&header, &filling, sizeof header));
    }
    release(text.out);
    return status == OCTSEQ_OK;
}

/* A message that is written reads as one, with as many rows. */
static void check_written(struct answer answer, size_t count) {
    struct given given;
    memset(&given, 0, sizeof given);
    given.octets = answer.out;
    given.len = answer.len;
    CHECK(answer.len <= 65535);
    struct answer again = ask_units(rows, &given, sizeof(octseq_dns_row), MAY_OK);
    CHECK(again.status == OCTSEQ_OK && again.len == count);
    release(again.out);
}

static void check_writers(const struct given *given, int is_message, size_t count) {
    uint32_t may = is_message ? MAY_OK | MAY(OCTSEQ_IMMOVABLE) | MAY(OCTSEQ_TOO_LONG) : MAY(OCTSEQ_MALFORMED);
    struct answer answer = ask(rewrite, given, may);
    if (answer.status == OCTSEQ_OK && count < MOST_ROWS)
        check_written(answer, count);
    release(answer.out);
}

/* An answer to one message with rows of another, some of which are none. */
static void check_answer(struct given given, int is_message, const octseq_dns_row *from, size_t count) {
    octseq_dns_row *made = (octseq_dns_row *)(void *)block_of(count * sizeof *made);
    for (size_t i = 0; i < count; i++) {
        made[i] = from[below(count)];
        made[i].section = 1 + (uint32_t)below(3);
        if (below(32) == 0)
            made[i].section = (uint32_t)below(6);
        if (below(32) == 0)
            made[i].name_at = offset_in(given.source_len);
        if (below(32) == 0)
            made[i].data_at = offset_in(given.source_len);
        if (below(32) == 0)
            made[i].data_len = offset_in(given.source_len);
        if (below(32) == 0)
            made[i].rtype = (uint16_t)below(70);
    }
    given.rows = made;
    given.count = count;
    given.flags = (uint16_t)number();
    uint32_t may = is_message ? MAY_OK | MAY(OCTSEQ_BAD_ROW) | MAY(OCTSEQ_IMMOVABLE) | MAY(OCTSEQ_TOO_LONG)
                              : MAY(OCTSEQ_MALFORMED);
    struct answer answer = ask(answer_to, &given, may);
    if (answer.status == OCTSEQ_OK)
        check_written(answer, count + ((size_t)given.octets[4] << 8 | given.octets[5]));
    release(answer.out);
    release((uint8_t *)made);
}

/* Wire form and text at an offset agree on whether a name is there, and on which. */
static void check_name(struct given given) {
    given.offset = offset_in(given.len);
    struct answer wire = ask(name_wire, &given, MAY_OK | MAY(OCTSEQ_MALFORMED));
    int is_name = wire.status == OCTSEQ_OK;
    struct answer text = ask(name_text, &given, is_name ? MAY_OK : MAY(OCTSEQ_MALFORMED));
    size_t other_offset = offset_in(given.len);
    int32_t order = 99;
    uint32_t status = octseq_dns_name_compare(given.octets, given.len, given.offset, given.octets, given.len,
                                              other_offset, &order);
    CHECK(status == OCTSEQ_OK || status == OCTSEQ_MALFORMED);
    CHECK(status == OCTSEQ_OK ? -1 <= order && order <= 1 : order == 2);
    CHECK(is_name || status == OCTSEQ_MALFORMED);
    note(status, &order, sizeof order);
    if (is_name) {
        CHECK(0 < wire.len && wire.len <= NAME_SIZE && wire.out[wire.len - 1] == 0);
        CHECK(0 < text.len && text.len <= 1004);
        struct given back = given;
        back.octets = text.out;
        back.len = text.len;
        struct answer again = ask(name_from_text, &back, MAY_OK);
        CHECK(again.status == OCTSEQ_OK && again.len == wire.len && is_same(again.out, wire.out, wire.len));
        release(again.out);
    }
    release(text.out);
    release(wire.out);
}

static void check_data(struct given given) {
    given.offset = offset_in(given.len);
    given.data_len = offset_in(given.len);
    if (given.offset < given.len && below(4))
        given.data_len = below(given.len - given.offset + 1);
    given.rtype = (uint16_t)below(70);
    given.rclass = below(4) ? 1 : (uint16_t)number();
    int is_within = given.offset <= given.len && given.data_len <= given.len - given.offset;
    struct answer text = ask(data_text, &given, is_within ? MAY_OK : MAY(OCTSEQ_MALFORMED));
    uint32_t is_typed = octseq_dns_data_is_typed(given.octets, given.len, given.offset, given.data_len, given.rtype,
                                                 given.rclass);
    if (is_within)
        CHECK(is_typed == (text.len > 2 && is_same(text.out, "\\# ", 3) ? 0u : 1u));
    else
        CHECK(is_typed == 0);
    note(is_typed, NULL, 0);
    release(text.out);
    struct answer fields = ask_units(data_fields, &given, sizeof(octseq_dns_field),
                                     is_within ? MAY_OK : MAY(OCTSEQ_MALFORMED));
    for (size_t i = 0; i < fields.len; i++) {
        const octseq_dns_field *field = (const octseq_dns_field *)(void *)fields.out + i;
        CHECK(field->kind <= OCTSEQ_DNS_PARAMETER);
        CHECK(field->kind == OCTSEQ_DNS_NUMBER || (field->at >= given.offset && field->len <= given.len - field->at));
    }
    release(fields.out);
}

/* The octets as a text that may spell a name, a type or a class, a record or a message. */
static void check_spelt(struct given given) {
    uint16_t rtype = 99, rclass = 99;
    given.len = given.len < 40 ? given.len : below(40);
    uint8_t *text = block_with(given.octets, given.len);
    for (size_t i = 0; i < given.len; i++)
        if (below(4))
            text[i] = (uint8_t)"abz09.\\. "[below(9)];
    given.octets = text;
    struct answer answer = ask(name_from_text, &given, MAY_OK | MAY(OCTSEQ_MALFORMED));
    release(answer.out);
    answer = ask(query, &given, answer.status == OCTSEQ_OK ? MAY_OK : MAY(OCTSEQ_MALFORMED));
    release(answer.out);
    uint32_t status = octseq_dns_rtype_from_text(text, given.len, &rtype);
    CHECK(status == OCTSEQ_OK || (status == OCTSEQ_MALFORMED && rtype == 0));
    status = octseq_dns_class_from_text(text, given.len, &rclass);
    CHECK(status == OCTSEQ_OK || (status == OCTSEQ_MALFORMED && rclass == 0));
    note(rtype, &rclass, sizeof rclass);
    answer = ask(record_from_text, &given, MAY_OK | MAY(OCTSEQ_MALFORMED));
    release(answer.out);
    answer = ask(message_from_text, &given, MAY(OCTSEQ_MALFORMED));
    release(answer.out);
    release(text);
}

static void check_mutant(void) {
    octseq_dns_row kept[MOST_ROWS], others[MOST_ROWS];
    size_t count = 0, other_count = 0, len = 0, other_len = 0;
    uint8_t *octets = mutant_of(&messages[below(message_count)], &len);
    uint8_t *other = mutant_of(&messages[below(message_count)], &other_len);
    struct given given, from;
    memset(&given, 0, sizeof given);
    given.octets = octets;
    given.len = len;
    from = given;
    from.octets = other;
    from.len = other_len;
    int is_message = check_readers(&given, kept, &count);
    check_readers(&from, others, &other_count);
    check_writers(&given, is_message, count);
    given.source = other;
    given.source_len = other_len;
    check_answer(given, is_message, others, other_count);
    check_name(given);
    check_data(given);
    check_spelt(given);
    release(other);
    release(octets);
}

int main(int argc, char **argv) {
    int few = read_arguments(argc, argv);
    for (size_t i = 0; i < message_count; i += few ? 40 : 1)
        if (messages[i].line)
            check_line(&messages[i]);
    for (size_t i = few ? 1000 : 100000; i > 0; i--)
        check_mutant();
    return finish("mutants");
}
