/* What the tests share: checks that end a program, a digest of what was answered, numbers that look random, and blocks
 * of memory of an exact size.
 *
 * A block is what malloc gives, so that valgrind and AddressSanitizer see a step outside of it. The library is compiled
 * by another compiler than the tests, so AddressSanitizer knows only what it does by memcpy and its like. Compiled with
 * GUARDED, a block ends where a page begins that can't be touched, so that any step beyond its end ends the program. */
#ifndef CHECK_H
#define CHECK_H

#include <stddef.h>
#include <stdint.h>
#include <stdio.h>
#include <stdlib.h>
#include <string.h>

#ifdef GUARDED
#include <sys/mman.h>
#endif

#define CHECK(condition) check((condition) ? 1 : 0, #condition, __FILE__, __LINE__)

static uint64_t check_count;

/* Counts a check; one that fails ends the program. */
static inline void check(int holds, const char *what, const char *file, int line) {
    check_count++;
    if (!holds) {
        fprintf(stderr, "%s:%d: %s (after %llu checks)\n", file, line, what, (unsigned long long)check_count - 1);
        exit(1);
    }
}

/* The digest FNV-1a of 64 bits. */
#define DIGEST_START UINT64_C(0xcbf29ce484222325)

static inline uint64_t digest_on(uint64_t digest, const void *octets, size_t len) {
    const uint8_t *at = (const uint8_t *)octets;
    for (size_t i = 0; i < len; i++)
        digest = (digest ^ at[i]) * UINT64_C(0x100000001b3);
    return digest;
}

/* The digest of all that the calls of this program answered. */
static uint64_t answers = DIGEST_START;

/* Takes an answer into the digest: a number, and what was written. */
static inline void note(uint64_t number, const void *octets, size_t len) {
    answers = digest_on(answers, &number, sizeof number);
    if (len)
        answers = digest_on(answers, octets, len);
}

/* The last line of a test. */
static inline int finish(const char *name) {
    printf("%s: %llu checks, digest of the answers %016llx\n", name, (unsigned long long)check_count,
           (unsigned long long)answers);
    return check_count ? 0 : 1;
}

/* Numbers that look random, the same in each run (xorshift64*, by Marsaglia and Vigna). */
static uint64_t seed = UINT64_C(0x9e3779b97f4a7c15);

static inline uint64_t number(void) {
    seed ^= seed >> 12;
    seed ^= seed << 25;
    seed ^= seed >> 27;
    return seed * UINT64_C(0x2545f4914f6cdd1d);
}

/* A number below a limit that isn't 0. */
static inline size_t below(size_t limit) {
    return (size_t)((number() >> 11) % limit);
}

#ifdef GUARDED
/* Places for blocks, each as large as the largest block and followed by a page that can't be touched. */
#define PLACES 16
#define PLACE_SIZE ((size_t)1 << 20)
#define GUARD_SIZE ((size_t)1 << 16)

static uint8_t *places;
static uint8_t is_taken[PLACES];

static inline void make_places(void) {
    size_t each = PLACE_SIZE + GUARD_SIZE;
    void *made = mmap(NULL, PLACES * each, PROT_READ | PROT_WRITE, MAP_PRIVATE | MAP_ANONYMOUS, -1, 0);
    if (made == MAP_FAILED)
        abort();
    places = (uint8_t *)made;
    for (size_t i = 0; i < PLACES; i++)
        if (mprotect(places + i * each + PLACE_SIZE, GUARD_SIZE, PROT_NONE))
            abort();
}

static inline uint8_t *block_of(size_t size) {
    if (!places)
        make_places();
    for (size_t i = 0; i < PLACES && size <= PLACE_SIZE; i++)
        if (!is_taken[i]) {
            is_taken[i] = 1;
            return places + i * (PLACE_SIZE + GUARD_SIZE) + PLACE_SIZE - size;
        }
    abort();
}

static inline void release(uint8_t *block) {
    if (block)
        is_taken[(size_t)(block - places) / (PLACE_SIZE + GUARD_SIZE)] = 0;
}
#else
/* A block of exactly that size. */
static inline uint8_t *block_of(size_t size) {
    uint8_t *made = (uint8_t *)malloc(size);
    if (size && !made)
        abort();
    return made;
}

static inline void release(uint8_t *block) {
    free(block);
}
#endif

/* A block with these octets and no more. */
static inline uint8_t *block_with(const void *octets, size_t len) {
    uint8_t *made = block_of(len);
    if (len)
        memcpy(made, octets, len);
    return made;
}

/* What a block is filled with before a call that may write to it. */
#define FILLING 0xA5

static inline uint8_t *filled_block(size_t size) {
    uint8_t *made = block_of(size);
    if (size)
        memset(made, FILLING, size);
    return made;
}

/* Whether each octet from one place to another is as it was filled. */
static inline int is_filling(const uint8_t *octets, size_t from, size_t to) {
    for (size_t i = from; i < to; i++)
        if (octets[i] != FILLING)
            return 0;
    return 1;
}

static inline int is_same(const void *one, const void *other, size_t len) {
    return len == 0 || memcmp(one, other, len) == 0;
}

#endif
