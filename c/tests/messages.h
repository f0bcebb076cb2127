/* The messages of real traffic: `stdin` has each after its length in two octets, `stdout` what another reader made of
 * them. Where BGP_MESSAGES is defined, there is an octet with the session of the message before that length. First it
 * has the text of each and an empty line, `malformed` where there is no message. Then come lines of numbers, one for
 * each message of at most 512 octets. */
#ifndef MESSAGES_H
#define MESSAGES_H

#include "check.h"

struct message {
    const uint8_t *octets;
    size_t len;
    const char *text; /* its text, or NULL where it is malformed */
    size_t text_len;
    const char *line; /* its line of numbers, which a line feed ends, or NULL */
    uint8_t session;  /* the octet before its length, or 0 */
};

#ifdef BGP_MESSAGES
#define SESSION_LEN 1
#else
#define SESSION_LEN 0
#endif

#define MOST_MESSAGES 4096

static struct message messages[MOST_MESSAGES];
static size_t message_count;

/* The longest message that has a line of numbers. */
#define LONGEST_OF_LINES 512

/* The octets of a file, and a 0 after them. They stay until the program ends. */
static inline char *read_file(const char *path, size_t *len) {
    FILE *file = fopen(path, "rb");
    char *octets = (char *)malloc((size_t)1 << 24);
    if (!file || !octets) {
        perror(path);
        exit(1);
    }
    *len = fread(octets, 1, ((size_t)1 << 24) - 1, file);
    octets[*len] = 0;
    fclose(file);
    return octets;
}

static inline void read_messages(const uint8_t *stream, size_t len) {
    for (size_t at = 0; at < len;) {
        CHECK(at + SESSION_LEN + 2 <= len && message_count < MOST_MESSAGES);
        struct message *message = &messages[message_count++];
        message->session = SESSION_LEN ? stream[at] : 0;
        at += SESSION_LEN;
        message->len = (size_t)stream[at] << 8 | stream[at + 1];
        message->octets = stream + at + 2;
        at += 2 + message->len;
        CHECK(at <= len);
    }
}

/* Each text ends with a line feed, and an empty line follows. */
static inline void read_texts(const char *shown) {
    for (size_t i = 0; i < message_count; i++) {
        const char *end = strstr(shown, "\n\n");
        CHECK(end != NULL);
        if (strncmp(shown, "malformed\n", 10) != 0) {
            messages[i].text = shown;
            messages[i].text_len = (size_t)(end + 1 - shown);
        }
        shown = end + 2;
    }
    for (size_t i = 0; i < message_count; i++)
        if (messages[i].len <= LONGEST_OF_LINES) {
            const char *end = strchr(shown, '\n');
            CHECK(end != NULL && strncmp(shown, "cuts ", 5) == 0);
            messages[i].line = shown;
            shown = end + 1;
        }
    CHECK(*shown == 0);
}

/* Reads both files, which the first two arguments name. Returns whether the third is `few`. */
static inline int read_arguments(int argc, char **argv) {
    if (argc < 3) {
        fprintf(stderr, "usage: %s STDIN STDOUT [few]\n", argv[0]);
        exit(2);
    }
    size_t len = 0, text_len = 0;
    const char *stream = read_file(argv[1], &len);
    const char *shown = read_file(argv[2], &text_len);
    CHECK(strlen(shown) == text_len);
    read_messages((const uint8_t *)stream, len);
    CHECK(message_count > 0);
    read_texts(shown);
    return argc > 3 && strcmp(argv[3], "few") == 0;
}

#endif
