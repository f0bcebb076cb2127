/* Asks a call that fills a caller's room: with no room, with one less than it takes, with exactly that, and with more.
 * What octseq.h promises of each is checked. */
#ifndef ASK_H
#define ASK_H

#include "check.h"
#include "octseq.h"

/* All that a call may be given. */
struct given {
    const uint8_t *octets;
    size_t len;
    size_t offset;    /* of a name, or of data */
    size_t data_len; /* of data */
    uint16_t id, flags, rtype, rclass;
    const uint8_t *source; /* of the records of an answer */
    size_t source_len;
    const octseq_dns_row *rows;
    size_t count;
    uint32_t session; /* of a BGP message */
};

/* What a call is given of octets alone: they are in a block of their size, which let_go takes. */
static inline struct given given_of(const uint8_t *octets, size_t len, uint32_t session) {
    struct given given;
    memset(&given, 0, sizeof given);
    given.octets = block_with(octets, len);
    given.len = len;
    given.session = session;
    return given;
}

static inline void let_go(struct given given) {
    release((uint8_t *)(size_t)given.octets);
}

typedef uint32_t call(const struct given *given, uint8_t *out, size_t room, size_t *written);

/* What a call answered. The octets are in a block, which release takes, and NULL but after OCTSEQ_OK. */
struct answer {
    uint32_t status;
    size_t len;
    uint8_t *out;
};

/* The statuses that a call may have, as bits. */
#define MAY(status) (1u << (status))
#define MAY_OK (MAY(OCTSEQ_OK) | MAY(OCTSEQ_NO_ROOM))

/* A call fills rows with what it has to say; what is between their last number and their end is nobody's. */
static inline void clear_padding(uint8_t *out, size_t count, size_t unit) {
    size_t used = offsetof(octseq_dns_row, section) + sizeof(uint32_t);
    if (unit == sizeof(octseq_dns_row))
        for (size_t i = 0; i < count; i++)
            memset(out + i * unit + used, 0, unit - used);
}

/* A call with more room than it asked for, or than a refusal takes. */
static inline void ask_with_more(call *it, const struct given *given, size_t unit, const struct answer *wanted) {
    size_t size = wanted->len, room = size + 9, written = 99;
    uint8_t *out = filled_block(room * unit);
    uint32_t status = it(given, out, room, &written);
    CHECK(status == wanted->status);
    CHECK(written == size);
    clear_padding(out, size, unit);
    CHECK(is_same(out, wanted->out, size * unit));
    CHECK(is_filling(out, size * unit, room * unit));
    release(out);
}

static inline void ask_with_less(call *it, const struct given *given, size_t unit, size_t size) {
    size_t room = size - 1, written = 99;
    uint8_t *out = filled_block(room * unit);
    CHECK(it(given, out, room, &written) == OCTSEQ_NO_ROOM);
    CHECK(written == size);
    CHECK(is_filling(out, 0, room * unit));
    release(out);
}

/* A call with exactly the room that it takes. */
static inline void ask_with_enough(call *it, const struct given *given, size_t unit, struct answer *answer) {
    size_t written = 99;
    answer->out = filled_block(answer->len * unit);
    answer->status = it(given, answer->out, answer->len, &written);
    CHECK(answer->status == OCTSEQ_OK);
    CHECK(written == answer->len);
    clear_padding(answer->out, answer->len, unit);
}

/* Asks a call whose room is counted in things of `unit` octets. */
static inline struct answer ask_units(call *it, const struct given *given, size_t unit, uint32_t may) {
    struct answer answer = {0, 99, NULL};
    answer.status = it(given, NULL, 0, &answer.len);
    CHECK(answer.status < 32 && (may >> answer.status & 1));
    if (answer.status > OCTSEQ_NO_ROOM) {
        CHECK(answer.len == 0);
        note(answer.status, NULL, 0);
    } else {
        CHECK(answer.status == (answer.len ? OCTSEQ_NO_ROOM : OCTSEQ_OK));
        if (answer.len)
            ask_with_less(it, given, unit, answer.len);
        ask_with_enough(it, given, unit, &answer);
        note(answer.len, answer.out, answer.len * unit);
    }
    ask_with_more(it, given, unit, &answer);
    return answer;
}

static inline struct answer ask(call *it, const struct given *given, uint32_t may) {
    return ask_units(it, given, 1, may);
}

/* ---- the calls ---- */

static inline uint32_t rows(const struct given *given, uint8_t *out, size_t room, size_t *written) {
    return octseq_dns_rows(given->octets, given->len, (octseq_dns_row *)(void *)out, room, written);
}

static inline uint32_t message_text(const struct given *given, uint8_t *out, size_t room, size_t *written) {
    return octseq_dns_message_text(given->octets, given->len, out, room, written);
}

static inline uint32_t rewrite(const struct given *given, uint8_t *out, size_t room, size_t *written) {
    return octseq_dns_rewrite(given->octets, given->len, out, room, written);
}

static inline uint32_t query(const struct given *given, uint8_t *out, size_t room, size_t *written) {
    return octseq_dns_query(given->id, given->flags, given->octets, given->len, given->rtype, given->rclass, out, room,
                            written);
}

static inline uint32_t answer_to(const struct given *given, uint8_t *out, size_t room, size_t *written) {
    return octseq_dns_answer(given->octets, given->len, given->flags, given->source, given->source_len, given->rows,
                             given->count, out, room, written);
}

static inline uint32_t name_text(const struct given *given, uint8_t *out, size_t room, size_t *written) {
    return octseq_dns_name_text(given->octets, given->len, given->offset, out, room, written);
}

static inline uint32_t name_wire(const struct given *given, uint8_t *out, size_t room, size_t *written) {
    return octseq_dns_name_wire(given->octets, given->len, given->offset, out, room, written);
}

static inline uint32_t name_from_text(const struct given *given, uint8_t *out, size_t room, size_t *written) {
    return octseq_dns_name_from_text(given->octets, given->len, out, room, written);
}

static inline uint32_t data_text(const struct given *given, uint8_t *out, size_t room, size_t *written) {
    return octseq_dns_data_text(given->octets, given->len, given->offset, given->data_len, given->rtype, given->rclass,
                                out, room, written);
}

static inline uint32_t data_fields(const struct given *given, uint8_t *out, size_t room, size_t *written) {
    return octseq_dns_data_fields(given->octets, given->len, given->offset, given->data_len, given->rtype,
                                  given->rclass, (octseq_dns_field *)(void *)out, room, written);
}

static inline uint32_t rtype_text(const struct given *given, uint8_t *out, size_t room, size_t *written) {
    return octseq_dns_rtype_text(given->rtype, out, room, written);
}

/* Where the last text was refused. */
static struct {
    size_t line, offset;
} refused;

static inline uint32_t record_from_text(const struct given *given, uint8_t *out, size_t room, size_t *written) {
    refused.offset = 99;
    uint32_t status =
        octseq_dns_record_from_text(given->octets, given->len, out, room, written, &refused.offset);
    CHECK(status == OCTSEQ_MALFORMED || refused.offset == 0);
    return status;
}

static inline uint32_t message_from_text(const struct given *given, uint8_t *out, size_t room, size_t *written) {
    refused.line = refused.offset = 99;
    uint32_t status = octseq_dns_message_from_text(given->octets, given->len, out, room, written, &refused.line,
                                                   &refused.offset);
    CHECK(status == OCTSEQ_MALFORMED || (refused.line == 0 && refused.offset == 0));
    CHECK(status != OCTSEQ_MALFORMED || refused.line > 0);
    return status;
}

static inline uint32_t bgp_rows(const struct given *given, uint8_t *out, size_t room, size_t *written) {
    return octseq_bgp_rows(given->octets, given->len, given->session, (octseq_bgp_row *)(void *)out, room, written);
}

static inline uint32_t bgp_message_text(const struct given *given, uint8_t *out, size_t room, size_t *written) {
    return octseq_bgp_message_text(given->octets, given->len, given->session, out, room, written);
}

static inline uint32_t bgp_as_path(const struct given *given, uint8_t *out, size_t room, size_t *written) {
    return octseq_bgp_as_path(given->octets, given->len, given->session, (octseq_bgp_hop *)(void *)out, room, written);
}

static inline uint32_t mrt_rows(const struct given *given, uint8_t *out, size_t room, size_t *written) {
    return octseq_mrt_rows(given->octets, given->len, (octseq_mrt_row *)(void *)out, room, written);
}

static inline uint32_t mrt_attributes(const struct given *given, uint8_t *out, size_t room, size_t *written) {
    return octseq_mrt_attributes(given->octets, given->len, (octseq_bgp_row *)(void *)out, room, written);
}

static inline uint32_t class_text(const struct given *given, uint8_t *out, size_t room, size_t *written) {
    return octseq_dns_class_text(given->rclass, out, room, written);
}

#endif
