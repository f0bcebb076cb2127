/* The calls of UTF-8 against a plain decoder, which is written here by Table 3-7 of the Unicode Standard and by its
 * practice of maximal subparts (3.9, "U+FFFD Substitution of Maximal Subparts"):
 *
 *     utf8 [few]
 *
 * With `few` it takes fewer strings, as under valgrind. */
#define _DEFAULT_SOURCE
#include "check.h"
#include "octseq.h"

/* ---- the plain decoder ---- */

/* A row of Table 3-7: first octets, the second octets that may follow them, and how long the character is. */
struct row {
    uint8_t first_low, first_high, second_low, second_high, len;
};

static const struct row ROWS[] = {
    {0x00, 0x7F, 0x00, 0x00, 1}, {0xC2, 0xDF, 0x80, 0xBF, 2}, {0xE0, 0xE0, 0xA0, 0xBF, 3},
    {0xE1, 0xEC, 0x80, 0xBF, 3}, {0xED, 0xED, 0x80, 0x9F, 3}, {0xEE, 0xEF, 0x80, 0xBF, 3},
    {0xF0, 0xF0, 0x90, 0xBF, 4}, {0xF1, 0xF3, 0x80, 0xBF, 4}, {0xF4, 0xF4, 0x80, 0x8F, 4},
};

enum kind { WHOLE, BROKEN, CUT };

/* What is at the front of some octets: a whole character, a maximal subpart, or one that the octets end within. */
struct part {
    enum kind kind;
    size_t len;
};

static const struct row *row_of(uint8_t first) {
    for (size_t i = 0; i < sizeof ROWS / sizeof ROWS[0]; i++)
        if (ROWS[i].first_low <= first && first <= ROWS[i].first_high)
            return &ROWS[i];
    return NULL;
}

static struct part front_of(const uint8_t *octets, size_t len) {
    const struct row *row = row_of(octets[0]);
    struct part part = {BROKEN, 1};
    if (!row)
        return part;
    while (part.len < row->len && part.len < len) {
        uint8_t low = part.len == 1 ? row->second_low : 0x80, high = part.len == 1 ? row->second_high : 0xBF;
        if (octets[part.len] < low || octets[part.len] > high)
            return part;
        part.len++;
    }
    part.kind = part.len == row->len ? WHOLE : CUT;
    return part;
}

/* What the calls have to answer for a string. */
struct wanted {
    int is_well_formed;
    size_t valid_up_to, error_len; /* of the first fault */
    size_t held;                   /* how many octets at the end are of a character that isn't whole */
    size_t len;                    /* of the text */
};

/* Reads a string, and writes its text to where there is room for three octets for each. */
static struct wanted decoded(const uint8_t *octets, size_t len, uint8_t *text) {
    struct wanted wanted = {1, len, 0, 0, 0};
    for (size_t at = 0; at < len;) {
        struct part part = front_of(octets + at, len - at);
        if (part.kind == WHOLE) {
            memcpy(text + wanted.len, octets + at, part.len);
            wanted.len += part.len;
        } else {
            memcpy(text + wanted.len, "\xEF\xBF\xBD", 3);
            wanted.len += 3;
            if (wanted.is_well_formed) {
                wanted.is_well_formed = 0;
                wanted.valid_up_to = at;
                wanted.error_len = part.kind == CUT ? 0 : part.len;
            }
            wanted.held = part.kind == CUT ? part.len : 0;
        }
        at += part.len;
    }
    return wanted;
}

/* ---- strings ---- */

/* The longest string of a test in pieces or of rooms, and its text. */
#define MOST 64

/* Octets at the ends of all ranges of Table 3-7, and one or two within them. */
static const uint8_t ENDS[] = {0x00, 0x41, 0x7F, 0x80, 0x8F, 0x90, 0x9F, 0xA0, 0xBF, 0xC0, 0xC1, 0xC2, 0xDF,
                               0xE0, 0xE1, 0xEC, 0xED, 0xEE, 0xEF, 0xF0, 0xF1, 0xF3, 0xF4, 0xF5, 0xFF};
#define END_COUNT (sizeof ENDS)

/* What the standard shows for its own examples, in Tables 3-8 to 3-11. */
#define R "\xEF\xBF\xBD"
static const struct {
    const char *octets, *text;
} SHOWN[] = {
    {"\xC0\xAF\xE0\x80\xBF\xF0\x81\x82\x41", R R R R R R R R "\x41"},
    {"\xED\xA0\x80\xED\xBF\xBF\xED\xAF\x41", R R R R R R R R "\x41"},
    {"\xF4\x91\x92\x93\xFF\x41\x80\xBF\x42", R R R R R "\x41" R R "\x42"},
    {"\xE1\x80\xE2\xF0\x91\x92\xF1\xBF\x41", R R R R "\x41"},
};

/* Fills octets so that characters, their fronts and what is neither come in turn. */
static void fill(uint8_t *octets, size_t len) {
    for (size_t at = 0; at < len;) {
        const struct row *row = &ROWS[below(sizeof ROWS / sizeof ROWS[0])];
        uint8_t made[4] = {0, 0, 0, 0};
        made[0] = (uint8_t)(row->first_low + below((size_t)(row->first_high - row->first_low) + 1));
        made[1] = (uint8_t)(row->second_low + below((size_t)(row->second_high - row->second_low) + 1));
        made[2] = (uint8_t)(0x80 + below(0x40));
        made[3] = (uint8_t)(0x80 + below(0x40));
        size_t count = row->len;
        if (below(8) == 0)
            count = 1 + below(count);
        if (below(16) == 0)
            made[below(4)] = ENDS[below(END_COUNT)];
        for (size_t i = 0; i < count && at < len; i++)
            octets[at++] = made[i];
    }
}

/* ---- one string ---- */

/* Asks the calls that answer numbers alone. */
static void check_fault(const uint8_t *octets, size_t len, const struct wanted *wanted) {
    size_t valid_up_to = 99, error_len = 99;
    uint32_t is_utf8 = octseq_is_utf8(octets, len);
    uint32_t status = octseq_utf8_fault(octets, len, &valid_up_to, &error_len);
    CHECK(is_utf8 == (wanted->is_well_formed ? 1u : 0u));
    CHECK(status == (wanted->is_well_formed ? OCTSEQ_OK : OCTSEQ_FAULT));
    CHECK(valid_up_to == wanted->valid_up_to);
    CHECK(error_len == wanted->error_len);
    note(status, &valid_up_to, sizeof valid_up_to);
}

/* Asks for the text of a string with some room. */
static void check_lossy(const uint8_t *octets, size_t len, size_t room, const uint8_t *text, size_t text_len) {
    uint8_t *out = filled_block(room);
    size_t written = 99, from = room < text_len ? 0 : text_len;
    uint32_t status = octseq_lossy(octets, len, out, room, &written);
    CHECK(status == (room < text_len ? OCTSEQ_NO_ROOM : OCTSEQ_OK));
    CHECK(written == text_len);
    CHECK(is_same(out, text, from));
    CHECK(is_filling(out, from, room));
    note(status, &written, sizeof written);
    release(out);
}

/* Asks all that is asked of a string that is in a block of its size. */
static void check_string(const uint8_t *octets, size_t len) {
    uint8_t text[3 * MOST];
    struct wanted wanted = decoded(octets, len, text);
    check_fault(octets, len, &wanted);
    check_lossy(octets, len, wanted.len, text, wanted.len);
}

/* ---- many strings ---- */

static void check_shown(void) {
    for (size_t i = 0; i < sizeof SHOWN / sizeof SHOWN[0]; i++) {
        size_t len = strlen(SHOWN[i].octets);
        uint8_t *octets = block_with(SHOWN[i].octets, len);
        check_lossy(octets, len, 40, (const uint8_t *)SHOWN[i].text, strlen(SHOWN[i].text));
        check_string(octets, len);
        release(octets);
    }
}

/* All strings of up to three octets; the last one goes fastest. */
static void check_all_short(void) {
    check_string(NULL, 0);
    for (size_t len = 1; len <= 3; len++) {
        uint8_t *octets = block_of(len);
        for (uint32_t count = 0; count < (uint32_t)1 << (8 * len); count++) {
            for (size_t i = 0; i < len; i++)
                octets[i] = (uint8_t)(count >> (8 * (len - 1 - i)));
            check_string(octets, len);
        }
        release(octets);
    }
}

/* Calls for all strings of that many octets of ENDS. */
static void over_ends(size_t len, void (*each)(const uint8_t *octets, size_t len)) {
    uint8_t *octets = block_of(len);
    size_t count = 1;
    for (size_t i = 0; i < len; i++)
        count *= END_COUNT;
    for (size_t it = 0; it < count; it++) {
        size_t rest = it;
        for (size_t i = 0; i < len; i++, rest /= END_COUNT)
            octets[i] = ENDS[rest % END_COUNT];
        each(octets, len);
    }
    release(octets);
}

static void check_long(size_t count, size_t most) {
    uint8_t *text = (uint8_t *)malloc(3 * most + 1);
    CHECK(text != NULL);
    for (size_t i = 0; i < count; i++) {
        size_t len = below(most + 1);
        uint8_t *octets = block_of(len);
        fill(octets, len);
        struct wanted wanted = decoded(octets, len, text);
        check_fault(octets, len, &wanted);
        check_lossy(octets, len, wanted.len, text, wanted.len);
        release(octets);
    }
    free(text);
}

/* Each room from none to more than enough. */
static void check_rooms(size_t count) {
    uint8_t text[3 * MOST];
    for (size_t i = 0; i < count; i++) {
        size_t len = below(MOST + 1);
        uint8_t *octets = block_of(len);
        fill(octets, len);
        struct wanted wanted = decoded(octets, len, text);
        for (size_t room = 0; room <= wanted.len + 5; room++)
            check_lossy(octets, len, room, text, wanted.len);
        release(octets);
    }
}

/* No octets, and no room, at no address. */
static void check_nothing(void) {
    size_t one = 99, other = 99;
    CHECK(octseq_is_utf8(NULL, 0) == 1);
    CHECK(octseq_utf8_fault(NULL, 0, &one, &other) == OCTSEQ_OK);
    CHECK(one == 0 && other == 0);
    one = 99;
    CHECK(octseq_lossy(NULL, 0, NULL, 0, &one) == OCTSEQ_OK);
    CHECK(one == 0);
    CHECK(octseq_lossy((const uint8_t *)"a\xFF", 2, NULL, 0, &one) == OCTSEQ_NO_ROOM);
    CHECK(one == 4);
}

/* ---- pieces ---- */

/* A reading in pieces: its state, and the text so far. */
struct reading {
    octseq_lossy_state state;
    uint8_t text[3 * MOST + 3];
    size_t len;
};

/* Asks for the text of a piece, or of the end where the piece is NULL. */
static uint32_t ask(octseq_lossy_state *state, const uint8_t *piece, size_t len, uint8_t *out, size_t room,
                    size_t *written) {
    if (!piece)
        return octseq_lossy_end(state, out, room, written);
    return octseq_lossy_piece(state, piece, len, out, room, written);
}

/* Asks with no room, with one octet less than it takes, and with what it takes. */
static void take(struct reading *reading, const uint8_t *piece, size_t len) {
    octseq_lossy_state before = reading->state;
    size_t size = 99, again = 99;
    uint32_t status = ask(&reading->state, piece, len, NULL, 0, &size);
    note(status, &size, sizeof size);
    CHECK(status == (size ? OCTSEQ_NO_ROOM : OCTSEQ_OK));
    if (!size)
        return;
    CHECK(is_same(&reading->state, &before, sizeof before));
    uint8_t *out = filled_block(size - 1);
    CHECK(ask(&reading->state, piece, len, out, size - 1, &again) == OCTSEQ_NO_ROOM);
    CHECK(again == size && is_filling(out, 0, size - 1));
    CHECK(is_same(&reading->state, &before, sizeof before));
    release(out);
    out = filled_block(size + 2);
    CHECK(ask(&reading->state, piece, len, out, size + 2, &again) == OCTSEQ_OK);
    CHECK(again == size && is_filling(out, size, size + 2));
    CHECK(reading->len + size <= sizeof reading->text);
    memcpy(reading->text + reading->len, out, size);
    reading->len += size;
    note(size, out, size);
    release(out);
}

/* Takes a piece that goes from one offset of a string to another, and looks at what the state keeps. */
static void take_piece(struct reading *reading, const uint8_t *octets, size_t from, size_t to) {
    static const uint8_t NONE[1] = {0};
    uint8_t text[3 * MOST];
    uint8_t *piece = block_with(octets + from, to - from);
    take(reading, piece ? piece : NONE, to - from);
    release(piece);
    struct wanted wanted = decoded(octets, to, text);
    CHECK(reading->state.len == wanted.held);
    CHECK(is_same(reading->state.octets, octets + to - wanted.held, wanted.held));
}

/* Reads a string in pieces: one ends after the octet i where the bit i is set. */
static void check_cuts(const uint8_t *octets, size_t len, uint64_t cuts) {
    static const octseq_lossy_state START = {{0, 0, 0}, 0};
    struct reading reading;
    uint8_t text[3 * MOST];
    size_t from = 0;
    memset(&reading, 0, sizeof reading);
    for (size_t to = 1; to <= len; to++)
        if (to == len || (cuts >> (to - 1) & 1)) {
            take_piece(&reading, octets, from, to);
            from = to;
        }
    take(&reading, NULL, 0);
    CHECK(is_same(&reading.state, &START, sizeof START));
    struct wanted wanted = decoded(octets, len, text);
    CHECK(reading.len == wanted.len && is_same(reading.text, text, wanted.len));
    check_lossy(octets, len, wanted.len, reading.text, reading.len);
}

static void check_all_cuts(const uint8_t *octets, size_t len) {
    for (uint64_t cuts = 0; cuts < (uint64_t)1 << (len ? len - 1 : 0); cuts++)
        check_cuts(octets, len, cuts);
}

static void check_random_cuts(size_t count) {
    for (size_t i = 0; i < count; i++) {
        size_t len = below(MOST + 1);
        uint8_t *octets = block_of(len);
        fill(octets, len);
        check_cuts(octets, len, number());
        if (len <= 8)
            check_all_cuts(octets, len);
        release(octets);
    }
}

/* A piece with no octets changes nothing, whatever the state. */
static void check_empty_pieces(void) {
    static const octseq_lossy_state STATES[] = {
        {{0, 0, 0}, 0}, {{0xC3, 0, 0}, 1}, {{0xE2, 0x82, 0}, 2}, {{0xF0, 0x9F, 0x98}, 3}};
    for (size_t i = 0; i < sizeof STATES / sizeof STATES[0]; i++) {
        octseq_lossy_state state = STATES[i];
        size_t written = 99;
        CHECK(octseq_lossy_piece(&state, NULL, 0, NULL, 0, &written) == OCTSEQ_OK);
        CHECK(written == 0);
        CHECK(state.len == STATES[i].len && is_same(state.octets, STATES[i].octets, state.len));
    }
}

/* Whether a state has a front of a character, which isn't whole. */
static int is_open(const octseq_lossy_state *state) {
    if (state->len > 3)
        return 0;
    if (state->len == 0)
        return 1;
    struct part part = front_of(state->octets, state->len);
    return part.kind == CUT && part.len == state->len;
}

/* Calls with a state, which is as it was unless the call reads it. */
static void check_state(const octseq_lossy_state *given) {
    octseq_lossy_state state = *given;
    uint8_t *out = filled_block(8);
    size_t written = 99;
    uint32_t status = octseq_lossy_end(&state, out, 8, &written);
    note(status, out, 8);
    if (is_open(given)) {
        CHECK(status == OCTSEQ_OK);
        CHECK(written == (given->len ? 3u : 0u));
        CHECK(is_same(out, "\xEF\xBF\xBD", written) && is_filling(out, written, 8));
    } else {
        CHECK(status == OCTSEQ_BAD_STATE);
        CHECK(written == 0 && is_filling(out, 0, 8) && is_same(&state, given, sizeof state));
        written = 99;
        CHECK(octseq_lossy_piece(&state, (const uint8_t *)"a", 1, out, 8, &written) == OCTSEQ_BAD_STATE);
        CHECK(written == 0 && is_filling(out, 0, 8) && is_same(&state, given, sizeof state));
        CHECK(octseq_lossy_piece(&state, NULL, 0, NULL, 0, &written) == OCTSEQ_BAD_STATE);
        CHECK(written == 0 && is_same(&state, given, sizeof state));
    }
    release(out);
}

/* States of each length, with zeros after the octets that count. */
static void check_states(size_t step) {
    for (uint32_t count = 0; count < 0x1000000; count += (uint32_t)(1 + below(step))) {
        octseq_lossy_state state = {{(uint8_t)(count >> 16), (uint8_t)(count >> 8), (uint8_t)count}, 3};
        check_state(&state);
    }
    for (uint32_t count = 0; count < 0x10000; count++) {
        octseq_lossy_state two = {{(uint8_t)(count >> 8), (uint8_t)count, 0}, 2};
        octseq_lossy_state one = {{(uint8_t)(count >> 8), 0, 0}, 1};
        octseq_lossy_state none = {{0, 0, 0}, (uint8_t)(count & 0xFF)};
        check_state(&two);
        check_state(&one);
        check_state(&none);
    }
    for (unsigned len = 4; len < 256; len++) {
        octseq_lossy_state state = {{0xF0, 0x9F, 0x98}, (uint8_t)len};
        check_state(&state);
    }
}

int main(int argc, char **argv) {
    int few = argc > 1 && strcmp(argv[1], "few") == 0;
    check_nothing();
    check_shown();
    check_empty_pieces();
    if (few)
        over_ends(3, check_string);
    else
        check_all_short();
    over_ends(few ? 2 : 4, check_string);
    check_long(few ? 200 : 20000, 4096);
    check_rooms(few ? 40 : 4000);
    over_ends(2, check_all_cuts);
    over_ends(few ? 1 : 3, check_all_cuts);
    if (!few)
        over_ends(4, check_all_cuts);
    check_random_cuts(few ? 300 : 30000);
    check_states(few ? 4096 : 16);
    return finish("utf8");
}
