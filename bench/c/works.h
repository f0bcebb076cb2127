/* What is done to one message, by the calls of octseq and by those of ldns. Each work answers a number that both sides
 * have to agree on, or REFUSED. What it makes is kept where there is a place for it: none where it is timed. */
#ifndef WORKS_H
#define WORKS_H

#include "sample.h"

#define REFUSED UINT64_MAX

/* A text or a message that a work made. */
struct made {
    uint8_t octets[1 << 20];
    size_t len;
};

typedef uint64_t of_message(const struct sample *sample, struct made *made);

static inline void keep(struct made *made, const void *octets, size_t len) {
    if (!made)
        return;
    check(len <= sizeof made->octets, "what is made is too long");
    memcpy(made->octets, octets, len);
    made->len = len;
}

/* ---- by octseq ---- */

static uint8_t out[1 << 20];
static octseq_dns_row out_rows[MOST_ROWS];

static inline uint64_t our_header(const struct sample *sample, struct made *made) {
    octseq_dns_header header;
    (void)made;
    if (octseq_dns_message_header(sample->octets, sample->len, &header) != OCTSEQ_OK)
        return REFUSED;
    return (uint64_t)header.qdcount + header.ancount + header.nscount + header.arcount;
}

static inline uint64_t our_rows(const struct sample *sample, struct made *made) {
    size_t count;
    (void)made;
    uint32_t status = octseq_dns_rows(sample->octets, sample->len, out_rows, MOST_ROWS, &count);
    return status == OCTSEQ_OK ? count : REFUSED;
}

/* The names of all questions and records, whose rows were read before. */
static inline uint64_t our_names(const struct sample *sample, struct made *made) {
    size_t sum = 0;
    for (size_t i = 0; i < sample->count; i++) {
        const octseq_dns_row *row = &sample->rows[i];
        size_t written;
        if (is_apart(row))
            continue;
        if (octseq_dns_name_text(sample->octets, sample->len, row->name_at, out + sum, LONGEST_NAME, &written))
            return REFUSED;
        sum += written;
        check(sum + LONGEST_NAME <= sizeof out, "the names are too long");
    }
    keep(made, out, sum);
    return sum;
}

/* What a call wrote to `out`. */
static inline uint64_t our_octets(uint32_t status, size_t written, struct made *made) {
    if (status != OCTSEQ_OK)
        return REFUSED;
    keep(made, out, written);
    return written;
}

static inline uint64_t our_text(const struct sample *sample, struct made *made) {
    size_t written;
    uint32_t status = octseq_dns_message_text(sample->octets, sample->len, out, sizeof out, &written);
    return our_octets(status, written, made);
}

static inline uint64_t our_rewrite(const struct sample *sample, struct made *made) {
    size_t written;
    uint32_t status = octseq_dns_rewrite(sample->octets, sample->len, out, LONGEST_MESSAGE, &written);
    return our_octets(status, written, made);
}

static inline uint64_t our_query(const struct sample *sample, struct made *made) {
    size_t written;
    if (sample->name_len == 0)
        return REFUSED;
    const octseq_dns_row *row = sample->rows;
    uint32_t status = octseq_dns_query(NUMBER, OCTSEQ_DNS_RD, (const uint8_t *)sample->name, sample->name_len,
                                       row->rtype, row->rclass, out, LONGEST_MESSAGE, &written);
    return our_octets(status, written, made);
}

static inline uint64_t our_answer(const struct sample *sample, struct made *made) {
    size_t written;
    if (sample->name_len == 0)
        return REFUSED;
    uint32_t status = octseq_dns_answer(sample->query, sample->query_len, ANSWER_FLAGS, sample->octets, sample->len,
                                        sample->records, sample->record_count, out, LONGEST_MESSAGE, &written);
    return our_octets(status, written, made);
}

/* ---- by ldns ---- */

/* A packet that is read anew, or NULL. */
static inline ldns_pkt *read_packet(const uint8_t *octets, size_t len) {
    ldns_pkt *packet;
    return ldns_wire2pkt(&packet, octets, len) == LDNS_STATUS_OK ? packet : NULL;
}

static inline uint64_t count_of_packet(const ldns_pkt *packet) {
    return ldns_rr_list_rr_count(ldns_pkt_question(packet)) + ldns_rr_list_rr_count(ldns_pkt_answer(packet)) +
           ldns_rr_list_rr_count(ldns_pkt_authority(packet)) + ldns_rr_list_rr_count(ldns_pkt_additional(packet)) +
           (ldns_pkt_edns(packet) ? 1 : 0) + (ldns_pkt_tsig(packet) ? 1 : 0);
}

static inline uint64_t their_packet(const struct sample *sample, struct made *made) {
    (void)made;
    ldns_pkt *packet = read_packet(sample->octets, sample->len);
    if (!packet)
        return REFUSED;
    uint64_t count = count_of_packet(packet);
    ldns_pkt_free(packet);
    return count;
}

/* The names of a section, after `sum` octets of those before it. */
static inline size_t names_of_list(const ldns_rr_list *list, size_t sum) {
    for (size_t i = 0; i < ldns_rr_list_rr_count(list); i++) {
        char *text = ldns_rdf2str(ldns_rr_owner(ldns_rr_list_rr(list, i)));
        size_t len = strlen(text);
        check(sum + len <= sizeof out, "the names are too long");
        memcpy(out + sum, text, len);
        sum += len;
        LDNS_FREE(text);
    }
    return sum;
}

/* The names of all questions and records of a packet that was read before. */
static inline uint64_t their_names(const struct sample *sample, struct made *made) {
    if (!sample->packet)
        return REFUSED;
    size_t sum = names_of_list(ldns_pkt_question(sample->packet), 0);
    sum = names_of_list(ldns_pkt_answer(sample->packet), sum);
    sum = names_of_list(ldns_pkt_authority(sample->packet), sum);
    sum = names_of_list(ldns_pkt_additional(sample->packet), sum);
    keep(made, out, sum);
    return sum;
}

static inline uint64_t text_of_packet(const ldns_pkt *packet, struct made *made) {
    char *text = packet ? ldns_pkt2str(packet) : NULL;
    if (!text)
        return REFUSED;
    size_t len = strlen(text);
    keep(made, text, len);
    LDNS_FREE(text);
    return len;
}

static inline uint64_t wire_of_packet(const ldns_pkt *packet, struct made *made) {
    uint8_t *octets = NULL;
    size_t len;
    if (!packet || ldns_pkt2wire(&octets, packet, &len) != LDNS_STATUS_OK)
        return REFUSED;
    keep(made, octets, len);
    LDNS_FREE(octets);
    return len;
}

static inline uint64_t their_text(const struct sample *sample, struct made *made) {
    ldns_pkt *packet = read_packet(sample->octets, sample->len);
    uint64_t len = text_of_packet(packet, made);
    ldns_pkt_free(packet);
    return len;
}

static inline uint64_t their_text_alone(const struct sample *sample, struct made *made) {
    return text_of_packet(sample->packet, made);
}

static inline uint64_t their_rewrite(const struct sample *sample, struct made *made) {
    ldns_pkt *packet = read_packet(sample->octets, sample->len);
    uint64_t len = wire_of_packet(packet, made);
    ldns_pkt_free(packet);
    return len;
}

static inline uint64_t their_wire_alone(const struct sample *sample, struct made *made) {
    return wire_of_packet(sample->packet, made);
}

static inline uint64_t their_query(const struct sample *sample, struct made *made) {
    ldns_rdf *name = sample->name_len ? ldns_dname_new_frm_str(sample->name) : NULL;
    if (!name)
        return REFUSED;
    const octseq_dns_row *row = sample->rows;
    ldns_pkt *packet = ldns_pkt_query_new(name, row->rtype, row->rclass, LDNS_RD);
    if (!packet)
        return REFUSED;
    ldns_pkt_set_id(packet, NUMBER);
    uint64_t len = wire_of_packet(packet, made);
    ldns_pkt_free(packet);
    return len;
}

/* A section of an answer lends the records of another packet, or gives them back. */
static inline int lend(ldns_pkt *answer, const ldns_pkt *query, const ldns_pkt *source) {
    return ldns_pkt_push_rr_list(answer, LDNS_SECTION_QUESTION, ldns_pkt_question(query)) &&
           ldns_pkt_push_rr_list(answer, LDNS_SECTION_ANSWER, ldns_pkt_answer(source)) &&
           ldns_pkt_push_rr_list(answer, LDNS_SECTION_AUTHORITY, ldns_pkt_authority(source)) &&
           ldns_pkt_push_rr_list(answer, LDNS_SECTION_ADDITIONAL, ldns_pkt_additional(source));
}

static inline void give_back(ldns_pkt *answer) {
    ldns_rr_list_set_rr_count(ldns_pkt_question(answer), 0);
    ldns_rr_list_set_rr_count(ldns_pkt_answer(answer), 0);
    ldns_rr_list_set_rr_count(ldns_pkt_authority(answer), 0);
    ldns_rr_list_set_rr_count(ldns_pkt_additional(answer), 0);
}

/* The query is read anew, the records that answer it were read before. */
static inline uint64_t their_answer(const struct sample *sample, struct made *made) {
    ldns_pkt *query = sample->query_len && sample->packet ? read_packet(sample->query, sample->query_len) : NULL;
    if (!query)
        return REFUSED;
    ldns_pkt *answer = ldns_pkt_new();
    ldns_pkt_set_id(answer, ldns_pkt_id(query));
    ldns_pkt_set_qr(answer, true);
    ldns_pkt_set_aa(answer, true);
    ldns_pkt_set_rd(answer, ldns_pkt_rd(query));
    ldns_pkt_set_ra(answer, true);
    uint64_t len = lend(answer, query, sample->packet) ? wire_of_packet(answer, made) : REFUSED;
    give_back(answer);
    ldns_pkt_free(answer);
    ldns_pkt_free(query);
    return len;
}

#endif
