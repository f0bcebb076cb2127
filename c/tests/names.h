/* A plain reader of names in DNS messages (RFC 1035, 3.1 and 4.1.4), and their canonical order (RFC 4034, 6.1). */
#ifndef NAMES_H
#define NAMES_H

#include "check.h"

/* The most octets of a name. */
#define NAME_SIZE 255

/* The wire form of a name that is known to be there. Returns how many octets it has. */
static inline size_t plain_name(const uint8_t *octets, size_t len, size_t offset, uint8_t *wire) {
    size_t count = 0;
    for (;;) {
        CHECK(offset < len);
        size_t label = octets[offset];
        if (label >= 0xC0) {
            CHECK(offset + 1 < len);
            offset = (label & 0x3F) << 8 | octets[offset + 1];
            continue;
        }
        CHECK(label < 0x40 && offset + label < len && count + label < NAME_SIZE);
        memcpy(wire + count, octets + offset, label + 1);
        count += label + 1;
        offset += label + 1;
        if (label == 0)
            return count;
    }
}

/* The labels of a wire form, the first one of the name first. Returns how many there are but the root's. */
static inline size_t labels_of(const uint8_t *wire, const uint8_t **labels) {
    size_t count = 0;
    for (; *wire; wire += *wire + 1)
        labels[count++] = wire;
    return count;
}

static inline int lower(int octet) {
    return 'A' <= octet && octet <= 'Z' ? octet + ('a' - 'A') : octet;
}

/* How two labels compare: by octets, letters as small ones, and a front of a label before the label. */
static inline int label_order(const uint8_t *one, const uint8_t *other) {
    size_t shorter = one[0] < other[0] ? one[0] : other[0];
    for (size_t i = 1; i <= shorter; i++)
        if (lower(one[i]) != lower(other[i]))
            return lower(one[i]) < lower(other[i]) ? -1 : 1;
    return one[0] < other[0] ? -1 : one[0] > other[0];
}

/* How two names compare: by their labels, the last one first. */
static inline int plain_order(const uint8_t *one, const uint8_t *other) {
    const uint8_t *ones[NAME_SIZE], *others[NAME_SIZE];
    size_t count = labels_of(one, ones), other_count = labels_of(other, others);
    while (count && other_count) {
        int order = label_order(ones[--count], others[--other_count]);
        if (order)
            return order;
    }
    return count ? 1 : other_count ? -1 : 0;
}

#endif
