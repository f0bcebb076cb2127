/* Times the calls of UTF-8 on the texts of a folder, which texts.py makes:
 *
 *     utf8 ROUNDS FOLDER
 *
 * It prints two tables in Markdown. Before a text is timed, each call is held to what another reader said of it. */
#include "inputs.h"
#include "octseq.h"
#include "timing.h"

struct kind {
    const char *file;
    const char *name;
    int is_damaged;
};

static const struct kind kinds[] = {
    {"ascii", "ASCII", 0},     {"latin", "Latin with accents", 0}, {"cyrillic", "Cyrillic", 0},
    {"chinese", "Chinese", 0}, {"emoji", "words and emoji", 0},    {"damaged", "damaged, of all of these", 1},
};

#define KINDS (sizeof kinds / sizeof *kinds)

/* Texts, and what another reader shows them as. */
struct input {
    struct texts texts;
    struct texts shown;
};

static uint8_t *out;
static size_t room;

/* ---- works ---- */

static uint64_t ask_is_utf8(const void *context) {
    const struct texts *texts = context;
    uint64_t sum = 0;
    for (size_t i = 0; i < texts->count; i++)
        sum += octseq_is_utf8(texts->all[i].octets, texts->all[i].len);
    return sum;
}

static uint64_t ask_fault(const void *context) {
    const struct texts *texts = context;
    uint64_t sum = 0;
    for (size_t i = 0; i < texts->count; i++) {
        size_t valid_up_to, error_len;
        sum += octseq_utf8_fault(texts->all[i].octets, texts->all[i].len, &valid_up_to, &error_len);
        sum += valid_up_to;
    }
    return sum;
}

/* How many faults a text has. The search goes on after each of them. */
static uint64_t faults_of(struct text text) {
    uint64_t count = 0;
    while (text.len > 0) {
        size_t valid_up_to, error_len;
        if (octseq_utf8_fault(text.octets, text.len, &valid_up_to, &error_len) == OCTSEQ_OK)
            break;
        size_t passed = error_len ? valid_up_to + error_len : text.len;
        text.octets += passed;
        text.len -= passed;
        count++;
    }
    return count;
}

static uint64_t ask_all_faults(const void *context) {
    const struct texts *texts = context;
    uint64_t sum = 0;
    for (size_t i = 0; i < texts->count; i++)
        sum += faults_of(texts->all[i]);
    return sum;
}

static uint64_t ask_lossy(const void *context) {
    const struct texts *texts = context;
    uint64_t sum = 0;
    for (size_t i = 0; i < texts->count; i++) {
        size_t written;
        sum += octseq_lossy(texts->all[i].octets, texts->all[i].len, out, room, &written);
        sum += written;
    }
    return sum;
}

/* ---- checks ---- */

static int is_same(struct text one, struct text other) {
    return one.len == other.len && memcmp(one.octets, other.octets, one.len) == 0;
}

/* How many U+FFFD a text has. The texts that are damaged have none before that. */
static uint64_t replacements_of(struct text text) {
    uint64_t count = 0;
    for (size_t i = 0; i + 3 <= text.len; i++)
        count += memcmp(text.octets + i, "\xEF\xBF\xBD", 3) == 0;
    return count;
}

static void check_text(struct text text, struct text shown) {
    int is_whole = is_same(text, shown);
    size_t written, valid_up_to, error_len;
    check(octseq_is_utf8(text.octets, text.len) == (uint32_t)is_whole, "octseq_is_utf8 answers otherwise");
    uint32_t status = octseq_utf8_fault(text.octets, text.len, &valid_up_to, &error_len);
    check(status == (is_whole ? OCTSEQ_OK : OCTSEQ_FAULT), "octseq_utf8_fault answers otherwise");
    check(valid_up_to <= text.len && (!is_whole || valid_up_to == text.len), "octseq_utf8_fault: another place");
    check(faults_of(text) == replacements_of(shown), "octseq_utf8_fault: another number of faults");
    check(octseq_lossy(text.octets, text.len, out, room, &written) == OCTSEQ_OK, "octseq_lossy refuses");
    check(is_same((struct text){out, written}, shown), "octseq_lossy: another text");
}

static struct input read_input(const char *folder, const char *kind, const char *size) {
    char path[4096];
    struct input input;
    snprintf(path, sizeof path, "%s/%s-%s", folder, kind, size);
    input.texts = read_texts(path, 4);
    snprintf(path, sizeof path, "%s/%s-%s-shown", folder, kind, size);
    input.shown = read_texts(path, 4);
    check(input.texts.count == input.shown.count, "a text isn't shown");
    for (size_t i = 0; i < input.texts.count; i++) {
        check(input.shown.all[i].len <= room && 3 * input.texts.all[i].len <= room, "a text is too long");
        check_text(input.texts.all[i], input.shown.all[i]);
    }
    return input;
}

/* ---- tables ---- */

/* Octets a nanosecond, which are GB a second. */
static double speed(work *it, const struct texts *texts, int rounds) {
    return (double)texts->octets / seconds_of(it, texts, rounds) * 1e-9;
}

static void print_speeds(const struct kind *kind, const char *size, const struct texts *texts, int rounds) {
    printf("| %s | %s |", kind->name, size);
    if (kind->is_damaged)
        printf("  | %.2f |", speed(ask_all_faults, texts, rounds));
    else
        printf(" %.2f | %.2f |", speed(ask_is_utf8, texts, rounds), speed(ask_fault, texts, rounds));
    printf(" %.2f |\n", speed(ask_lossy, texts, rounds));
    fflush(stdout);
}

static void print_large(const char *folder, int rounds) {
    printf("GB a second, by the C library:\n\n");
    printf("| text | of | `octseq_is_utf8` | `octseq_utf8_fault` | `octseq_lossy` |\n|---|---|---|---|---|\n");
    for (size_t i = 0; i < KINDS; i++) {
        struct input pieces = read_input(folder, kinds[i].file, "4k"), whole = read_input(folder, kinds[i].file, "1m");
        print_speeds(&kinds[i], "4 KiB", &pieces.texts, rounds);
        print_speeds(&kinds[i], "1 MiB", &whole.texts, rounds);
    }
    printf("\n");
}

/* Nanoseconds a call. */
static double cost(work *it, const struct texts *texts, int rounds) {
    return seconds_of(it, texts, rounds) / (double)texts->count * 1e9;
}

static void print_small(const char *folder, int rounds) {
    printf("Nanoseconds a call of the C library with 5 octets, the loop around it included:\n\n");
    printf("| text | `octseq_is_utf8` | `octseq_utf8_fault` | `octseq_lossy` |\n|---|---|---|---|\n");
    for (size_t i = 0; i < KINDS; i++) {
        struct input input = read_input(folder, kinds[i].file, "5");
        const struct texts *texts = &input.texts;
        printf("| %s | %.1f | %.1f |", kinds[i].name, cost(ask_is_utf8, texts, rounds), cost(ask_fault, texts, rounds));
        printf(" %.1f |\n", cost(ask_lossy, texts, rounds));
        fflush(stdout);
    }
    printf("\n");
}

int main(int count, char **arguments) {
    check(count == 3, "utf8 ROUNDS FOLDER");
    int rounds = rounds_of(arguments[1]);
    room = (size_t)4 << 20;
    out = room_for(room, 1);
    memset(out, 1, room);
    print_large(arguments[2], rounds);
    print_small(arguments[2], rounds);
    return 0;
}
