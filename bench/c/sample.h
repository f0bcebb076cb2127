/* Messages of real traffic, with what is made of each before anything is timed. */
#ifndef SAMPLE_H
#define SAMPLE_H

#include "inputs.h"
#include "octseq.h"
#include <ldns/ldns.h>

/* The longest text of a name, and the longest query. */
#define LONGEST_NAME 1004
#define LONGEST_QUERY 271

/* The longest message, and the most entries that one may have. */
#define LONGEST_MESSAGE 65535
#define MOST_ROWS 16384

/* The number and the flags of all queries and answers that are made. */
#define NUMBER 7
#define ANSWER_FLAGS (OCTSEQ_DNS_AA | OCTSEQ_DNS_RA)

struct sample {
    const uint8_t *octets;
    size_t len;
    octseq_dns_row *rows; /* its questions and records */
    size_t count;
    octseq_dns_row *records; /* those that an answer may have: no OPT, no TSIG */
    size_t record_count;
    char name[LONGEST_NAME + 1]; /* of its first question; empty where it has none */
    size_t name_len;
    uint8_t query[LONGEST_QUERY]; /* which asks that question */
    size_t query_len;
    ldns_pkt *packet; /* the message as ldns reads it; NULL where it doesn't */
};

struct samples {
    struct sample *all;
    size_t count;
    size_t octets;
    size_t malformed; /* messages that are none, which are left out */
};

/* Whether ldns keeps a record apart from the others of its section. */
static inline int is_apart(const octseq_dns_row *row) {
    return row->rtype == LDNS_RR_TYPE_OPT || row->rtype == LDNS_RR_TYPE_TSIG;
}

static inline void keep_records(struct sample *sample) {
    sample->records = room_for(sample->count, sizeof *sample->records);
    for (size_t i = 0; i < sample->count; i++)
        if (sample->rows[i].section != 0 && !is_apart(&sample->rows[i]))
            sample->records[sample->record_count++] = sample->rows[i];
}

/* Its first question as text, and the query that asks it. */
static inline void make_query(struct sample *sample) {
    const octseq_dns_row *row = sample->rows;
    if (sample->count == 0 || row->section != 0)
        return;
    uint8_t *name = (uint8_t *)sample->name;
    uint32_t status =
        octseq_dns_name_text(sample->octets, sample->len, row->name_at, name, LONGEST_NAME, &sample->name_len);
    check(status == OCTSEQ_OK, "the name of a question has no text");
    status = octseq_dns_query(NUMBER, OCTSEQ_DNS_RD, name, sample->name_len, row->rtype, row->rclass, sample->query,
                              LONGEST_QUERY, &sample->query_len);
    check(status == OCTSEQ_OK, "a question can't be asked");
}

/* 1 where the octets are a message, else 0. */
static inline int read_sample(struct text text, struct sample *sample) {
    *sample = (struct sample){.octets = text.octets, .len = text.len};
    uint32_t status = octseq_dns_rows(text.octets, text.len, NULL, 0, &sample->count);
    if (status == OCTSEQ_MALFORMED)
        return 0;
    check(sample->count <= MOST_ROWS, "a message has too many entries");
    sample->rows = room_for(sample->count, sizeof *sample->rows);
    status = octseq_dns_rows(text.octets, text.len, sample->rows, sample->count, &sample->count);
    check(status == OCTSEQ_OK, "a message has no rows");
    keep_records(sample);
    make_query(sample);
    if (ldns_wire2pkt(&sample->packet, text.octets, text.len) != LDNS_STATUS_OK)
        sample->packet = NULL;
    return 1;
}

/* The first so many messages of a stream. */
static inline struct samples read_samples(const char *path, size_t most) {
    struct texts texts = read_texts(path, 2);
    struct samples samples = {room_for(texts.count, sizeof(struct sample)), 0, 0, 0};
    for (size_t i = 0; i < texts.count && i < most; i++) {
        if (read_sample(texts.all[i], &samples.all[samples.count]))
            samples.octets += samples.all[samples.count++].len;
        else
            samples.malformed++;
    }
    return samples;
}

#endif
