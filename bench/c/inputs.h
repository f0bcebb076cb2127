/* Files that are read whole: lists of texts, and streams of messages. */
#ifndef INPUTS_H
#define INPUTS_H

#include <stdint.h>
#include <stdio.h>
#include <stdlib.h>
#include <string.h>

struct text {
    const uint8_t *octets;
    size_t len;
};

struct texts {
    struct text *all;
    size_t count;
    size_t octets; /* of all of them */
};

_Noreturn static inline void fail(const char *what) {
    fprintf(stderr, "%s\n", what);
    exit(1);
}

static inline void check(int holds, const char *what) {
    if (!holds)
        fail(what);
}

/* Room that stays until the program ends. */
static inline void *room_for(size_t count, size_t size) {
    void *room = calloc(count + 1, size);
    check(room != NULL, "there is no memory");
    return room;
}

static inline uint8_t *read_file(const char *path, size_t *len) {
    FILE *file = fopen(path, "rb");
    check(file != NULL, path);
    check(fseek(file, 0, SEEK_END) == 0, path);
    *len = (size_t)ftell(file);
    rewind(file);
    uint8_t *octets = room_for(*len, 1);
    check(fread(octets, 1, *len, file) == *len, path);
    fclose(file);
    return octets;
}

/* The texts of a file, each after its length in so many octets, the first the highest. */
static inline struct texts read_texts(const char *path, size_t octets_of_length) {
    size_t len;
    const uint8_t *file = read_file(path, &len);
    struct texts texts = {room_for(len, sizeof(struct text)), 0, 0};
    for (size_t at = 0; at < len;) {
        size_t size = 0;
        check(len - at >= octets_of_length, path);
        for (size_t i = 0; i < octets_of_length; i++)
            size = size << 8 | file[at++];
        check(len - at >= size, path);
        texts.all[texts.count++] = (struct text){file + at, size};
        texts.octets += size;
        at += size;
    }
    return texts;
}

#endif
