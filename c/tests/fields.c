/* The fields of the data of all records, against a reader by hand of the form of each type, and where messages that are
 * cut short stop:
 *
 *     fields STDIN STDOUT [few]
 *
 * Both files are those of crates/octseq_dns_messages. With `few` it takes each eighth message, as under valgrind. */
#define _DEFAULT_SOURCE
#include "ask.h"
#include "messages.h"

/* ---- the forms ---- */

/* The form of a type, a letter for each part: 1, 2 and 4 a number of so many octets, a and A an address of 4 and of 16,
 * n a name, s a character string; and at the end S character strings, o octets, t a set of types, p parameters. */
static const struct {
    uint16_t rtype;
    const char *form;
} FORMS[] = {
    {1, "a"},      {2, "n"},       {5, "n"},     {6, "nn44444"},    {12, "n"},    {13, "ss"},    {15, "2n"},
    {16, "S"},     {28, "A"},      {33, "222n"}, {35, "22sssn"},    {39, "n"},    {41, "p"},     {43, "211o"},
    {44, "11o"},   {46, "2114442no"}, {47, "nt"},   {48, "211o"},      {49, "o"},    {50, "112sst"}, {51, "112s"},
    {52, "111o"},  {53, "111o"},   {59, "211o"}, {60, "211o"},      {61, "o"},    {62, "42t"},   {64, "2np"},
    {65, "2np"},   {256, "22o"},   {257, "1so"},
};

/* The form of the data of a row: octets, where it hasn't that of its type. */
static const char *form_of(const struct given *given) {
    int is_typed = given->rtype == 41 ||
                   octseq_dns_data_is_typed(given->octets, given->len, given->offset, given->data_len, given->rtype,
                                            given->rclass) == 1;
    for (size_t i = 0; is_typed && i < sizeof FORMS / sizeof FORMS[0]; i++)
        if (FORMS[i].rtype == given->rtype)
            return FORMS[i].form;
    CHECK(!is_typed);
    return "o";
}

static size_t u16_at(const uint8_t *octets) {
    return (size_t)octets[0] << 8 | octets[1];
}

/* How many octets the name at an offset has there, with the pointer that may end it. */
static size_t name_size(const uint8_t *octets, size_t offset) {
    size_t at = offset;
    while (octets[at] > 0 && octets[at] < 0xC0)
        at += (size_t)octets[at] + 1;
    return at + (octets[at] ? 2 : 1) - offset;
}

/* ---- the fields of data ---- */

/* The fields of data that are left. */
struct left {
    const uint8_t *octets;
    size_t at, end;
    const octseq_dns_field *fields;
    size_t count;
};

/* The next field is of a kind, with this number, and has so many octets after `before` more. */
static void check_field(struct left *left, uint32_t kind, uint32_t number, size_t before, size_t size) {
    const octseq_dns_field *field = left->fields;
    CHECK(left->count > 0);
    CHECK(field->kind == kind && field->number == number);
    CHECK(field->at == left->at + before && field->len == size);
    left->at += before + size;
    CHECK(left->at <= left->end);
    left->fields++;
    left->count--;
}

static void check_number(struct left *left, size_t size) {
    const octseq_dns_field *field = left->fields;
    uint32_t number = 0;
    CHECK(left->count > 0);
    for (size_t i = 0; i < size; i++)
        number = number << 8 | left->octets[left->at + i];
    CHECK(field->kind == OCTSEQ_DNS_NUMBER && field->number == number && field->at == 0 && field->len == 0);
    left->at += size;
    left->fields++;
    left->count--;
}

/* The part of a form that comes next. */
static void check_part(struct left *left, char part) {
    const uint8_t *octets = left->octets;
    switch (part) {
    case 'a':
    case 'A':
        check_field(left, OCTSEQ_DNS_ADDRESS, 0, 0, part == 'a' ? 4 : 16);
        break;
    case 'n':
        check_field(left, OCTSEQ_DNS_NAME, 0, 0, name_size(octets, left->at));
        break;
    case 's':
        check_field(left, OCTSEQ_DNS_STRING, 0, 1, octets[left->at]);
        break;
    case 'S':
        while (left->at < left->end)
            check_field(left, OCTSEQ_DNS_STRING, 0, 1, octets[left->at]);
        break;
    case 'o':
        check_field(left, OCTSEQ_DNS_OCTETS, 0, 0, left->end - left->at);
        break;
    case 't':
        check_field(left, OCTSEQ_DNS_TYPES, 0, 0, left->end - left->at);
        break;
    case 'p':
        while (left->at < left->end)
            check_field(left, OCTSEQ_DNS_PARAMETER, (uint32_t)u16_at(octets + left->at), 4,
                        u16_at(octets + left->at + 2));
        break;
    default:
        check_number(left, (size_t)(part - '0'));
    }
}

/* How many records had each form. */
static size_t seen[sizeof FORMS / sizeof FORMS[0]];

static void count_form(uint16_t rtype) {
    for (size_t i = 0; i < sizeof FORMS / sizeof FORMS[0]; i++)
        if (FORMS[i].rtype == rtype)
            seen[i]++;
}

static void check_data(struct given given, const octseq_dns_row *row) {
    given.offset = row->data_at;
    given.data_len = row->data_len;
    given.rtype = row->rtype;
    given.rclass = row->rclass;
    struct answer answer = ask_units(data_fields, &given, sizeof(octseq_dns_field), MAY_OK);
    struct left left = {given.octets, given.offset, given.offset + given.data_len,
                        (const octseq_dns_field *)(void *)answer.out, answer.len};
    const char *form = form_of(&given);
    if (form[0] != 'o' || form[1] || given.rtype == 49 || given.rtype == 61)
        count_form(given.rtype);
    for (; *form; form++)
        check_part(&left, *form);
    CHECK(left.count == 0 && left.at == left.end);
    release(answer.out);
}

/* Data that isn't within the octets is refused, wherever it is. */
static void check_outside(struct given given) {
    static const size_t OFFSETS_AND_SIZES[][2] = {{0, 1}, {1, 0}, {SIZE_MAX, 1}, {1, SIZE_MAX}, {SIZE_MAX, SIZE_MAX}};
    size_t len = given.len;
    for (size_t i = 0; i < sizeof OFFSETS_AND_SIZES / sizeof OFFSETS_AND_SIZES[0]; i++) {
        size_t offset = OFFSETS_AND_SIZES[i][0], size = OFFSETS_AND_SIZES[i][1];
        given.offset = i < 2 ? len + offset : offset;
        given.data_len = size;
        given.rtype = 16;
        given.rclass = 1;
        CHECK(ask_units(data_fields, &given, sizeof(octseq_dns_field), MAY(OCTSEQ_MALFORMED)).len == 0);
    }
}

/* ---- options ---- */

/* Options that don't fill the data of an OPT are one field of octets. */
static void check_options(void) {
    static const uint8_t OPTIONS[] = {0, 10, 0, 2, 7, 8, 0, 3, 0, 0};
    for (size_t len = 0; len <= sizeof OPTIONS; len++) {
        struct given given;
        memset(&given, 0, sizeof given);
        uint8_t *octets = block_with(OPTIONS, len);
        given.octets = octets;
        given.len = given.data_len = len;
        given.rtype = 41;
        given.rclass = 1232;
        struct answer answer = ask_units(data_fields, &given, sizeof(octseq_dns_field), MAY_OK);
        const octseq_dns_field *fields = (const octseq_dns_field *)(void *)answer.out;
        int is_whole = len == 0 || len == 6 || len == 10;
        CHECK(answer.len == (len == 0 ? 0 : len == 10 ? 2 : 1));
        for (size_t i = 0; i < answer.len; i++)
            CHECK(fields[i].kind == (is_whole ? OCTSEQ_DNS_PARAMETER : OCTSEQ_DNS_OCTETS));
        release(answer.out);
        release(octets);
    }
}

/* ---- where messages stop ---- */

static void check_offset(const uint8_t *octets, size_t len, uint32_t wanted, size_t offset) {
    size_t found = 99;
    uint8_t *block = block_with(octets, len);
    CHECK(octseq_dns_message_fault(block, len, &found) == wanted);
    CHECK(found == offset);
    release(block);
}

/* A message that is cut short stops where the entry begins that is cut; one octet more is where it stops. */
static void check_cuts(const struct given *given, const octseq_dns_row *rows_of_it, size_t count) {
    size_t len = given->len;
    uint8_t *longer = block_of(len + 1);
    memcpy(longer, given->octets, len);
    longer[len] = 0;
    check_offset(given->octets, len, OCTSEQ_OK, len);
    if (len < 65535)
        check_offset(longer, len + 1, OCTSEQ_MALFORMED, len);
    release(longer);
    for (size_t cut = 0; cut < 12; cut++)
        check_offset(given->octets, cut, OCTSEQ_MALFORMED, 0);
    for (size_t i = 0; i < count; i++) {
        size_t end = i + 1 < count ? rows_of_it[i + 1].name_at : len;
        check_offset(given->octets, rows_of_it[i].name_at, OCTSEQ_MALFORMED, rows_of_it[i].name_at);
        check_offset(given->octets, end - 1, OCTSEQ_MALFORMED, rows_of_it[i].name_at);
    }
}

static void check_message(const struct message *message) {
    struct given given;
    memset(&given, 0, sizeof given);
    uint8_t *octets = block_with(message->octets, message->len);
    size_t offset = 99;
    given.octets = octets;
    given.len = message->len;
    CHECK(octseq_dns_message_fault(octets, given.len, &offset) == (message->text ? OCTSEQ_OK : OCTSEQ_MALFORMED));
    CHECK(offset <= given.len);
    if (message->text) {
        struct answer answer = ask_units(rows, &given, sizeof(octseq_dns_row), MAY_OK);
        const octseq_dns_row *found = (const octseq_dns_row *)(void *)answer.out;
        for (size_t i = 0; i < answer.len; i++)
            if (found[i].section)
                check_data(given, &found[i]);
        check_cuts(&given, found, answer.len);
        release(answer.out);
    }
    check_outside(given);
    release(octets);
}

int main(int argc, char **argv) {
    int few = read_arguments(argc, argv);
    for (size_t i = 0; i < message_count; i += few ? 8 : 1)
        check_message(&messages[i]);
    for (size_t i = 0; !few && i < sizeof FORMS / sizeof FORMS[0]; i++)
        CHECK(seen[i] > 0 || FORMS[i].rtype == 61);
    check_options();
    return finish("fields");
}
