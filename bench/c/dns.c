/* Times the calls of DNS messages beside those of ldns, on the first messages of a stream, each after its length in two
 * octets:
 *
 *     dns ROUNDS STREAM COUNT
 *
 * It prints a table in Markdown. A message on which a work of octseq and that of ldns don't do the same is left out of
 * that row. */
#include "timing.h"
#include "works.h"
#include <sys/resource.h>
#include <sys/wait.h>
#include <unistd.h>

/* Whether what both sides made of a message is the same. */
typedef int is_alike(const struct sample *sample, const struct made *ours, const struct made *theirs);

struct comparison {
    const char *our_name;
    of_message *ours;
    const char *their_name; /* NULL: ldns has no such thing */
    of_message *theirs;
    is_alike *is_alike; /* NULL: that both answer the same number is enough */
    int is_number_free; /* the numbers that both answer may differ */
};

/* ---- the same work ---- */

static int is_same(const struct sample *sample, const struct made *ours, const struct made *theirs) {
    (void)sample;
    return ours->len == theirs->len && memcmp(ours->octets, theirs->octets, ours->len) == 0;
}

/* Whether two messages have the same header and entries. Their names and data have the same length as a whole, since
 * both are as long. */
static int is_same_message(const struct sample *sample, const struct made *ours, const struct made *theirs) {
    static octseq_dns_row their_rows[MOST_ROWS];
    size_t count, their_count;
    (void)sample;
    if (ours->len != theirs->len || memcmp(ours->octets, theirs->octets, 12) != 0)
        return 0;
    if (octseq_dns_rows(ours->octets, ours->len, out_rows, MOST_ROWS, &count) != OCTSEQ_OK ||
        octseq_dns_rows(theirs->octets, theirs->len, their_rows, MOST_ROWS, &their_count) != OCTSEQ_OK ||
        count != their_count)
        return 0;
    for (size_t i = 0; i < count; i++) {
        const octseq_dns_row *one = &out_rows[i], *other = &their_rows[i];
        if (one->rtype != other->rtype || one->rclass != other->rclass || one->ttl != other->ttl ||
            one->section != other->section || one->data_len != other->data_len)
            return 0;
    }
    return 1;
}

/* How many lines of a text have a record. ldns begins all other lines with a semicolon, and has empty ones. */
static size_t records_of_text(const struct made *text) {
    size_t count = 0;
    for (size_t i = 0; i < text->len; i++) {
        int is_first = i == 0 || text->octets[i - 1] == '\n';
        count += is_first && text->octets[i] != '\n' && text->octets[i] != ';';
    }
    return count;
}

/* Whether both texts show as many records. Ours has a line for each entry, after that of the header. */
static int is_same_count(const struct sample *sample, const struct made *ours, const struct made *theirs) {
    return records_of_text(ours) == 1 + sample->count && records_of_text(theirs) == sample->record_count;
}

static const struct comparison comparisons[] = {
    {"`octseq_dns_message_header`", our_header, NULL, NULL, NULL, 0},
    {"`octseq_dns_rows`", our_rows, "`ldns_wire2pkt`", their_packet, NULL, 0},
    {"`octseq_dns_name_text` of all names, of rows that were read before", our_names,
     "`ldns_rdf2str` of all names, of a packet that was read before", their_names, is_same, 0},
    {"`octseq_dns_message_text`", our_text, "`ldns_wire2pkt`, `ldns_pkt2str`", their_text, is_same_count, 1},
    {"the same", our_text, "`ldns_pkt2str`, of a packet that was read before", their_text_alone, is_same_count, 1},
    {"`octseq_dns_rewrite`", our_rewrite, "`ldns_wire2pkt`, `ldns_pkt2wire`", their_rewrite, is_same_message, 0},
    {"the same", our_rewrite, "`ldns_pkt2wire`, of a packet that was read before", their_wire_alone, is_same_message,
     0},
    {"`octseq_dns_query`", our_query, "`ldns_dname_new_frm_str`, `ldns_pkt_query_new`, `ldns_pkt2wire`", their_query,
     is_same, 0},
    {"`octseq_dns_answer`", our_answer,
     "`ldns_wire2pkt` of the query, `ldns_pkt_push_rr_list` of records that were read before, `ldns_pkt2wire`",
     their_answer, is_same_message, 0},
};

#define COMPARISONS (sizeof comparisons / sizeof *comparisons)

/* Whether a work returns, which ldns doesn't for each message. It is tried in a process of its own. */
static int returns(of_message *it, const struct sample *sample) {
    fflush(stdout);
    pid_t child = fork();
    check(child >= 0, "no process can be started");
    if (child == 0) {
        setrlimit(RLIMIT_CORE, &(struct rlimit){0, 0});
        it(sample, NULL);
        _exit(0);
    }
    int status;
    check(waitpid(child, &status, 0) == child, "a process is lost");
    return WIFEXITED(status) && WEXITSTATUS(status) == 0;
}

/* Whether both sides do the same. `crashes` counts what doesn't return. */
static int is_same_work(const struct comparison *comparison, const struct sample *sample, size_t *crashes) {
    static struct made ours, theirs;
    ours.len = theirs.len = 0;
    uint64_t our_number = comparison->ours(sample, &ours);
    if (our_number == REFUSED || !comparison->theirs)
        return our_number != REFUSED;
    if (!returns(comparison->theirs, sample)) {
        ++*crashes;
        return 0;
    }
    uint64_t their_number = comparison->theirs(sample, &theirs);
    if (their_number == REFUSED || (our_number != their_number && !comparison->is_number_free))
        return 0;
    return !comparison->is_alike || comparison->is_alike(sample, &ours, &theirs);
}

/* ---- rounds ---- */

/* A work on each of these messages. */
struct batch {
    of_message *work;
    const struct sample **samples;
    size_t count;
};

static uint64_t run_batch(const void *context) {
    const struct batch *batch = context;
    uint64_t sum = 0;
    for (size_t i = 0; i < batch->count; i++)
        sum += batch->work(batch->samples[i], NULL);
    return sum;
}

static void print_times(const struct comparison *comparison, const struct timed *timed, size_t count) {
    double ours = timed[0].seconds / (double)count * 1e6;
    printf("| %s | ", comparison->our_name);
    if (comparison->theirs) {
        double theirs = timed[1].seconds / (double)count * 1e6;
        printf("%s | %.3f | %.3f | %.3f |", comparison->their_name, ours, theirs, ours / theirs);
    } else {
        printf(" | %.3f |  |  |", ours);
    }
}

/* Answers on how many messages ldns crashes. */
static size_t print_comparison(const struct comparison *comparison, const struct samples *samples, int rounds) {
    const struct sample **kept = room_for(samples->count, sizeof *kept);
    size_t count = 0, crashes = 0;
    for (size_t i = 0; i < samples->count; i++)
        if (is_same_work(comparison, &samples->all[i], &crashes))
            kept[count++] = &samples->all[i];
    check(count > 0, comparison->our_name);
    struct batch ours = {comparison->ours, kept, count}, theirs = {comparison->theirs, kept, count};
    struct timed timed[MOST_WORKS] = {{run_batch, &ours, 0}, {run_batch, &theirs, 0}};
    time_in_turn(timed, comparison->theirs ? 2 : 1, rounds);
    print_times(comparison, timed, count);
    printf(" %zu | %zu |\n", count, samples->count - count);
    fflush(stdout);
    free(kept);
    return crashes;
}

static void print_comparisons(const struct samples *samples, int rounds) {
    size_t crashes[COMPARISONS];
    printf("| octseq | ldns | octseq | ldns | over ldns | messages | left out |\n|---|---|---|---|---|---|---|\n");
    for (size_t i = 0; i < COMPARISONS; i++)
        crashes[i] = print_comparison(&comparisons[i], samples, rounds);
    printf("\n");
    for (size_t i = 0; i < COMPARISONS; i++)
        if (crashes[i] > 0)
            printf("Of those left out ldns crashes on %zu: %s.\n\n", crashes[i], comparisons[i].their_name);
}

int main(int count, char **arguments) {
    if (count == 2 && strcmp(arguments[1], "--version") == 0) {
        printf("octseq %s, ldns %s\n", OCTSEQ_VERSION, ldns_version());
        return 0;
    }
    check(count == 4, "dns ROUNDS STREAM COUNT");
    int rounds = rounds_of(arguments[1]);
    struct samples samples = read_samples(arguments[2], strtoul(arguments[3], NULL, 10));
    printf("Microseconds a message, by the C library and by ldns, and time over that of ldns. ldns makes a packet of\n"
           "things that it requests memory for, octseq writes to room that is there. Of %zu messages of real traffic\n"
           "%zu are messages by RFC 1035, %zu octets. Of those, the last column says how many are left out:\n\n",
           samples.count + samples.malformed, samples.count, samples.octets);
    print_comparisons(&samples, rounds);
    return 0;
}
