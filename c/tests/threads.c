/* Four threads call over the same octets at once, and each gets the answers that one thread alone gets:
 *
 *     threads STDIN STDOUT [few]
 *
 * ThreadSanitizer sees what the tests do; valgrind's helgrind sees what the library does too. */
#define _DEFAULT_SOURCE
#include "messages.h"
#include "octseq.h"
#include <pthread.h>

#define THREADS 4
#define MOST_ROWS 4096
#define MOST_FIELDS 4096

/* What a thread has of its own. */
struct room {
    int step;         /* over how many messages it goes at a time */
    uint64_t digest;  /* of all that it was answered */
    uint32_t refused; /* how many answers were of no status that there may be */
    uint8_t out[1 << 16];
    octseq_dns_row rows[MOST_ROWS];
    octseq_dns_field fields[MOST_FIELDS];
};

static struct room in_threads[THREADS], alone;

static void take(struct room *room, uint32_t status, const void *out, size_t len) {
    if (status != OCTSEQ_OK && status != OCTSEQ_MALFORMED && status != OCTSEQ_FAULT && status != OCTSEQ_IMMOVABLE)
        room->refused++;
    room->digest = digest_on(room->digest, &status, sizeof status);
    room->digest = digest_on(room->digest, out, len);
}

static void read_texts_of(struct room *room, const struct message *message) {
    octseq_lossy_state state = {{0, 0, 0}, 0};
    size_t half = message->len / 2, written = 0, end = 0, valid_up_to = 0, error_len = 0;
    take(room, octseq_utf8_fault(message->octets, message->len, &valid_up_to, &error_len), &valid_up_to,
         sizeof valid_up_to);
    take(room, octseq_lossy(message->octets, message->len, room->out, sizeof room->out, &written), room->out, written);
    take(room, octseq_lossy_piece(&state, message->octets, half, room->out, sizeof room->out, &written), room->out,
         written);
    take(room,
         octseq_lossy_piece(&state, message->octets + half, message->len - half, room->out, sizeof room->out, &written),
         room->out, written);
    take(room, octseq_lossy_end(&state, room->out, sizeof room->out, &end), room->out, end);
}

static void read_message(struct room *room, const struct message *message) {
    size_t written = 0, count = 0, count_of_fields = 0, offset = 0;
    take(room, octseq_dns_message_fault(message->octets, message->len, &offset), &offset, sizeof offset);
    take(room, octseq_dns_message_text(message->octets, message->len, room->out, sizeof room->out, &written),
         room->out, written);
    take(room, octseq_dns_rewrite(message->octets, message->len, room->out, sizeof room->out, &written), room->out,
         written);
    uint32_t status = octseq_dns_rows(message->octets, message->len, room->rows, MOST_ROWS, &count);
    take(room, status, room->rows, 0);
    for (size_t i = 0; status == OCTSEQ_OK && i < count; i++) {
        const octseq_dns_row *row = &room->rows[i];
        take(room, octseq_dns_name_text(message->octets, message->len, row->name_at, room->out, sizeof room->out,
                                        &written), room->out, written);
        take(room, octseq_dns_data_text(message->octets, message->len, row->data_at, row->data_len, row->rtype,
                                        row->rclass, room->out, sizeof room->out, &written), room->out, written);
        take(room, octseq_dns_data_fields(message->octets, message->len, row->data_at, row->data_len, row->rtype,
                                          row->rclass, room->fields, MOST_FIELDS, &count_of_fields), room->fields,
             count_of_fields * sizeof *room->fields);
    }
}

static void *read_all(void *given) {
    struct room *room = (struct room *)given;
    room->digest = DIGEST_START;
    for (size_t i = 0; i < message_count; i += (size_t)room->step) {
        read_texts_of(room, &messages[i]);
        read_message(room, &messages[i]);
    }
    return NULL;
}

int main(int argc, char **argv) {
    int few = read_arguments(argc, argv);
    pthread_t threads[THREADS];
    alone.step = few ? 8 : 1;
    for (size_t i = 0; i < THREADS; i++) {
        in_threads[i].step = alone.step;
        CHECK(pthread_create(&threads[i], NULL, read_all, &in_threads[i]) == 0);
    }
    for (size_t i = 0; i < THREADS; i++)
        CHECK(pthread_join(threads[i], NULL) == 0);
    read_all(&alone);
    CHECK(alone.refused == 0 && alone.digest != DIGEST_START);
    for (size_t i = 0; i < THREADS; i++) {
        CHECK(in_threads[i].refused == 0);
        CHECK(in_threads[i].digest == alone.digest);
    }
    note(alone.digest, NULL, 0);
    return finish("threads");
}
