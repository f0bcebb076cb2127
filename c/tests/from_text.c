/* The calls that read records and messages from text, on the texts of messages of real traffic, and on others:
 *
 *     from_text STDIN STDOUT [few]
 *
 * Both files are those of crates/octseq_dns_messages. With `few` it takes each eighth message, as under valgrind. With
 * REFUSING, and malloc and realloc wrapped by the linker, it refuses each request for memory in turn. */
#define _DEFAULT_SOURCE
#include "ask.h"
#include "messages.h"

static uint32_t u16_at(const uint8_t *octets) {
    return (uint32_t)octets[0] << 8 | octets[1];
}

#ifdef REFUSING
/* How many requests for memory the calls may make before one is refused; none is, if it is negative. */
static long left = -1;

void *__real_malloc(size_t size);
void *__real_realloc(void *block, size_t size);
void *__wrap_malloc(size_t size);
void *__wrap_realloc(void *block, size_t size);

static int is_refused(void) {
    return left >= 0 && left-- == 0;
}

void *__wrap_malloc(size_t size) {
    return is_refused() ? NULL : __real_malloc(size);
}

void *__wrap_realloc(void *block, size_t size) {
    return is_refused() ? NULL : __real_realloc(block, size);
}
#endif

static struct answer of_text(call *it, const char *text, size_t len, uint32_t may) {
    struct given given;
    uint8_t *octets = block_with(text, len);
    memset(&given, 0, sizeof given);
    given.octets = octets;
    given.len = len;
    struct answer answer = ask(it, &given, may);
    release(octets);
    return answer;
}

/* The text that a call writes of octets is this. */
static void check_shown(call *it, const struct given *given, const char *text, size_t len) {
    struct answer answer = ask(it, given, MAY_OK);
    CHECK(answer.status == OCTSEQ_OK && answer.len == len && is_same(answer.out, text, len));
    release(answer.out);
}

/* Returns what follows the first words of a text, as many as that, and the space after each. */
static const char *after_words(const char *text, int count) {
    while (count-- > 0)
        text = strchr(text, ' ') + 1;
    return text;
}

/* The octets of a line of a record have its name, its numbers and its data, as other calls show them. */
static void check_record(const char *text, size_t len, const octseq_dns_row *row) {
    struct given given;
    struct answer answer = of_text(record_from_text, text, len, MAY_OK);
    CHECK(answer.status == OCTSEQ_OK);
    memset(&given, 0, sizeof given);
    given.octets = answer.out;
    given.len = answer.len;
    struct answer wire = ask(name_wire, &given, MAY_OK);
    CHECK(wire.status == OCTSEQ_OK && wire.len + 10 <= answer.len && is_same(wire.out, answer.out, wire.len));
    const uint8_t *middle = answer.out + wire.len;
    CHECK(u16_at(middle) == row->rtype && u16_at(middle + 2) == row->rclass);
    CHECK((u16_at(middle + 4) << 16 | u16_at(middle + 6)) == row->ttl);
    CHECK(u16_at(middle + 8) == answer.len - wire.len - 10);
    check_shown(name_text, &given, text, (size_t)(after_words(text, 1) - text) - 1);
    given.offset = wire.len + 10;
    given.data_len = answer.len - given.offset;
    given.rtype = row->rtype;
    given.rclass = row->rclass;
    const char *data = after_words(text, 4);
    check_shown(data_text, &given, data, (size_t)(text + len - data));
    release(wire.out);
    release(answer.out);
}

/* The message that a text is has that text; none is the text without its end. */
static void check_text(const struct message *message, const octseq_dns_row *rows, size_t question_count) {
    struct given given;
    struct answer answer = of_text(message_from_text, message->text, message->text_len, MAY_OK);
    CHECK(answer.status == OCTSEQ_OK);
    memset(&given, 0, sizeof given);
    given.octets = answer.out;
    given.len = answer.len;
    check_shown(message_text, &given, message->text, message->text_len);
    release(answer.out);
    answer = of_text(message_from_text, message->text, message->text_len - 1, MAY(OCTSEQ_MALFORMED));
    CHECK(answer.status == OCTSEQ_MALFORMED);
    const char *at = strchr(message->text, '\n') + 1, *end = message->text + message->text_len;
    for (size_t i = 0; at < end; i++) {
        const char *next = strchr(at, '\n');
        if (i >= question_count)
            check_record(after_words(at, 1), (size_t)(next - after_words(at, 1)), &rows[i]);
        at = next + 1;
    }
}

/* Lines of records with their octets, or with the offset where they are refused. */
static const struct {
    const char *text;
    size_t offset;
    size_t len;
    const char *octets;
} RECORDS[] = {
    {"example.com. 300 IN MX 10 mail.example.com.", 0, 43,
     "\7example\3com\0\0\17\0\1\0\0\1\54\0\24\0\12\4mail\7example\3com\0"},
    {". IN 1 A 1.2.3.4", 0, 15, "\0\0\1\0\1\0\0\0\1\0\4\1\2\3\4"},
    {". 0 CH TYPE65280 \\# 2 ab CD", 0, 13, "\0\377\0\0\3\0\0\0\0\0\2\253\315"},
    {"", 0, 0, NULL},
    {"a 1 IN A 1.2.3.4", 0, 0, NULL},
    {"a. x IN A 1.2.3.4", 3, 0, NULL},
    {"a. 4294967296 IN A 1.2.3.4", 3, 0, NULL},
    {"a. 1 IN NOTYPE 1.2.3.4", 8, 0, NULL},
    {"a. 1 IN A 1.2.3", 10, 0, NULL},
    {"a. 1 IN A", 9, 0, NULL},
    {"a. 1 IN A 1.2.3.4 x", 18, 0, NULL},
    {"a. 1 IN A 1.2.3.4\n", 10, 0, NULL},
};

static void check_records(void) {
    for (size_t i = 0; i < sizeof RECORDS / sizeof RECORDS[0]; i++) {
        struct answer answer = of_text(record_from_text, RECORDS[i].text, strlen(RECORDS[i].text),
                                       MAY_OK | MAY(OCTSEQ_MALFORMED));
        CHECK(answer.status == (RECORDS[i].octets ? OCTSEQ_OK : OCTSEQ_MALFORMED));
        CHECK(answer.len == RECORDS[i].len && is_same(answer.out, RECORDS[i].octets, answer.len));
        CHECK(answer.status == OCTSEQ_OK || refused.offset == RECORDS[i].offset);
        release(answer.out);
    }
}

/* Texts of no message, with the line and the offset where each is refused. */
static const struct {
    const char *text;
    size_t line, offset;
} NO_MESSAGES[] = {
    {"", 1, 0},
    {"id 7 opcode 0 rcode 0 flags", 1, 27},
    {"id 65536 opcode 0 rcode 0 flags\n", 1, 3},
    {"id 7 opcode 16 rcode 0 flags\n", 1, 12},
    {"id 7 opcode 0 rcode 0 flags RD QR\n", 1, 31},
    {"id 7 opcode 0 rcode 0 flags\nquestion a. IN\n", 2, 14},
    {"id 7 opcode 0 rcode 0 flags\nquestion a. IN A\nanswer a. 1 IN A 1.2.3\n", 3, 17},
    {"id 7 opcode 0 rcode 0 flags\nadditional a. 1 IN A 1.2.3.4\nanswer a. 1 IN A 1.2.3.4\n", 3, 0},
    {"id 7 opcode 0 rcode 0 flags\n\n", 2, 0},
};

static void check_no_messages(void) {
    for (size_t i = 0; i < sizeof NO_MESSAGES / sizeof NO_MESSAGES[0]; i++) {
        const char *text = NO_MESSAGES[i].text;
        struct answer answer = of_text(message_from_text, text, strlen(text), MAY(OCTSEQ_MALFORMED));
        CHECK(answer.status == OCTSEQ_MALFORMED);
        CHECK(refused.line == NO_MESSAGES[i].line && refused.offset == NO_MESSAGES[i].offset);
    }
}

#define ANY (MAY_OK | MAY(OCTSEQ_TOO_LONG) | MAY(OCTSEQ_MALFORMED))

/* Data of 65,535 octets is the longest, and so is a message of that many. */
static void check_long_texts(void) {
    static char text[140000];
    static const size_t LENS[] = {65512, 65513, 65535, 65536};
    for (size_t i = 0; i < sizeof LENS / sizeof LENS[0]; i++) {
        int start = sprintf(text, "id 7 opcode 0 rcode 0 flags\nanswer . 0 IN TYPE65280 \\# %u ", (unsigned)LENS[i]);
        memset(text + start, 'a', 2 * LENS[i]);
        text[start + 2 * (int)LENS[i]] = '\n';
        size_t len = (size_t)start + 2 * LENS[i] + 1;
        struct answer answer = of_text(message_from_text, text, len, ANY);
        CHECK(LENS[i] > 65535 || answer.status == (LENS[i] <= 65512 ? OCTSEQ_OK : OCTSEQ_TOO_LONG));
        CHECK(answer.status != OCTSEQ_OK || answer.len == 23 + LENS[i]);
        release(answer.out);
        const char *record = after_words(strchr(text, '\n') + 1, 1);
        answer = of_text(record_from_text, record, (size_t)(text + len - 1 - record), ANY);
        CHECK((answer.status == OCTSEQ_OK) == (LENS[i] <= 65535));
        CHECK(answer.status != OCTSEQ_OK || answer.len == 11 + LENS[i]);
        release(answer.out);
    }
}

#ifdef REFUSING
/* Each request for memory is refused in turn. */
static void check_refused(void) {
    static const char TEXT[] = "a. 1 IN NSEC b. A MX TYPE1234 CAA", ADDRESS[] = "a. 1 IN A 1.2.3.4";
    uint8_t out[100];
    size_t written = 99, at = 99;
    long count = -1;
    uint32_t status = OCTSEQ_MEMORY;
    while (status == OCTSEQ_MEMORY) {
        memset(out, FILLING, sizeof out);
        left = ++count;
        status = octseq_dns_record_from_text((const uint8_t *)TEXT, sizeof TEXT - 1, out, sizeof out, &written, &at);
        CHECK(status == OCTSEQ_OK || status == OCTSEQ_MEMORY);
        CHECK(at == 0 && (status == OCTSEQ_OK || (written == 0 && is_filling(out, 0, sizeof out))));
    }
    CHECK(count > 0);
    left = 0;
    CHECK(octseq_dns_record_from_text((const uint8_t *)ADDRESS, sizeof ADDRESS - 1, out, sizeof out, &written, &at) ==
          OCTSEQ_OK);
    left = -1;
}
#endif

/* The lines of a message, with the rows that it has. */
static void check_message(const struct message *message) {
    struct given given;
    memset(&given, 0, sizeof given);
    given.octets = message->octets;
    given.len = message->len;
    struct answer answer = ask_units(rows, &given, sizeof(octseq_dns_row), MAY_OK);
    check_text(message, (const octseq_dns_row *)(void *)answer.out, u16_at(given.octets + 4));
    release(answer.out);
}

int main(int argc, char **argv) {
    int few = read_arguments(argc, argv);
    check_records();
    check_no_messages();
    check_long_texts();
#ifdef REFUSING
    check_refused();
#endif
    for (size_t i = 0; i < message_count; i += few ? 8 : 1)
        if (messages[i].text)
            check_message(&messages[i]);
    return finish("from_text");
}
