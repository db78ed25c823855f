/* The header used from C: reductions, nearest vectors, memberships, a catalogue, drafts, both forms and the moves between them, what
 * separates two entries, refusals with their texts, lent numbers that are too few, and the version. */
#include <stdio.h>
#include <string.h>

#include "raghymtos.h"

static int wrong = 0;

static void expect(bool holds, const char *what) {
    if (!holds) {
        printf("not so: %s\n", what);
        wrong = 1;
    }
}

static void reduction(void) {
    const int64_t numbers[] = {5, 8, 8, 13};
    int64_t out[RAGHYMTOS_REDUCTION_COUNT];
    expect(raghymtos_reduce(numbers, 4, 2, 2, out, RAGHYMTOS_REDUCTION_COUNT), "71 lent numbers are enough");
    expect(out[RAGHYMTOS_REFUSAL_AT] == RAGHYMTOS_ACCEPTED && out[RAGHYMTOS_PLACE_AT] == 0, "(5,8),(8,13) is accepted");
    expect(out[RAGHYMTOS_PASSES_AT] == 4, "it takes 4 passes");
    expect(out[RAGHYMTOS_SQUARES_AT] == 1 && out[RAGHYMTOS_SQUARES_AT + 1] == 1, "both reduced vectors have length 1");
    expect(out[RAGHYMTOS_VECTORS_AT + 1] == -1 && out[RAGHYMTOS_VECTORS_AT + RAGHYMTOS_VECTOR_COUNT] == -1, "they are (0,-1),(-1,0)");
    expect(out[RAGHYMTOS_U_AT + RAGHYMTOS_ROW_COUNT] == -13 && out[RAGHYMTOS_U_AT + RAGHYMTOS_ROW_COUNT + 1] == 8, "the second row of U is (-13,8)");
    expect(out[RAGHYMTOS_V_AT] == -8 && out[RAGHYMTOS_V_AT + 1] == -5, "the first row of V is (-8,-5)");
    expect(!raghymtos_reduce(numbers, 4, 2, 2, out, RAGHYMTOS_REDUCTION_COUNT - 1), "70 lent numbers are too few");
}

static void nearest(void) {
    const int64_t numbers[] = {20, 0, 10, 20};
    const int64_t target[] = {14, 9};
    int64_t out[RAGHYMTOS_NEAREST_COUNT];
    expect(raghymtos_nearest(numbers, 4, 2, 2, target, 2, out, RAGHYMTOS_NEAREST_COUNT), "19 lent numbers are enough");
    expect(out[RAGHYMTOS_SQUARE_AT] == 117, "the squared distance from (14,9) is 117");
    expect(out[RAGHYMTOS_COEFFICIENTS_AT] == 1 && out[RAGHYMTOS_COEFFICIENTS_AT + 1] == 0, "its coefficients are 1 and 0");
    /* the exact ones are 4.75 and 4.5 tenths */
    expect(out[RAGHYMTOS_TENTHS_AT] / 2 == 2 && out[RAGHYMTOS_TENTHS_AT + 1] / 2 == 2, "the solution is 4 or 5 tenths, twice");
    expect(out[RAGHYMTOS_TENTHS_AT + 2] == 0 && out[RAGHYMTOS_TENTHS_AT + 3] == 0, "zeros follow it");
    expect(out[RAGHYMTOS_VECTOR_AT] == 20 && out[RAGHYMTOS_VECTOR_AT + 1] == 0, "the nearest vector is (20,0)");
    raghymtos_nearest(numbers, 4, 2, 2, target, 1, out, RAGHYMTOS_NEAREST_COUNT);
    expect(out[RAGHYMTOS_REFUSAL_AT] == RAGHYMTOS_TARGET_NOT_M, "a target of one number is refused");
    expect(out[RAGHYMTOS_TENTHS_AT] == 0 && out[RAGHYMTOS_TENTHS_AT + 1] == 0, "with zeros for a solution");
    expect(!raghymtos_nearest(numbers, 4, 2, 2, target, 2, out, RAGHYMTOS_NEAREST_COUNT - 1), "18 lent numbers are too few");
}

/* the lattice A4 in five coordinates, and five times the lattice with a target that ten of its vectors are nearest to */
static void five_coordinates(void) {
    const int64_t numbers[] = {1, -1, 0, 0, 0, 0, 1, -1, 0, 0, 0, 0, 1, -1, 0, 0, 0, 0, 1, -1};
    const int64_t target[] = {3, 3, -2, -2, -2};
    static const int64_t near[RAGHYMTOS_NEAREST_COUNT] = {0, 0, 30, -1, 0, 0, 1, -6, 4, 4, 4, 0, 5, 0, 0, -5, 0, 0, 0};
    int64_t times[20], wanted[RAGHYMTOS_REDUCTION_COUNT] = {0, 0, 3, 2, 2, 2, 2}, out[RAGHYMTOS_REDUCTION_COUNT];
    for (int i = 0; i < 20; i++)
        times[i] = 5 * numbers[i];
    for (int i = 0; i < 4; i++) {
        wanted[RAGHYMTOS_VECTORS_AT + i * RAGHYMTOS_VECTOR_COUNT] = 1;
        wanted[RAGHYMTOS_VECTORS_AT + i * RAGHYMTOS_VECTOR_COUNT + i + 1] = -1;
        for (int j = 0; j <= i; j++)
            wanted[RAGHYMTOS_U_AT + i * RAGHYMTOS_ROW_COUNT + j] = 1;
        wanted[RAGHYMTOS_V_AT + i * RAGHYMTOS_ROW_COUNT + i] = 1;
        if (i > 0)
            wanted[RAGHYMTOS_V_AT + i * RAGHYMTOS_ROW_COUNT + i - 1] = -1;
    }
    raghymtos_reduce(numbers, 20, 4, 5, out, RAGHYMTOS_REDUCTION_COUNT);
    expect(memcmp(out, wanted, sizeof wanted) == 0, "the reduction of four vectors of five coordinates");
    raghymtos_nearest(times, 20, 4, 5, target, 5, out, RAGHYMTOS_REDUCTION_COUNT);
    expect(memcmp(out, near, sizeof near) == 0, "the least of ten vectors that are equally near");
    raghymtos_member(numbers, 20, 4, 5, target, 5, out, RAGHYMTOS_REDUCTION_COUNT);
    expect(out[RAGHYMTOS_REFUSAL_AT] == 0 && out[RAGHYMTOS_MEMBER_AT] == 1, "its coordinates sum to 0");
}

/* eight coordinates are the most */
static void eight_coordinates(void) {
    const int64_t numbers[] = {0, 0, 0, 0, 0, 0, 1, 2, 0, 0, 0, 0, 0, 0, 1, 3, 0, 0};
    int64_t out[RAGHYMTOS_REDUCTION_COUNT];
    raghymtos_reduce(numbers, 16, 2, RAGHYMTOS_MOST_COORDINATES, out, RAGHYMTOS_REDUCTION_COUNT);
    const int64_t *v = out + RAGHYMTOS_VECTORS_AT;
    expect(out[RAGHYMTOS_REFUSAL_AT] == RAGHYMTOS_ACCEPTED && out[RAGHYMTOS_SQUARES_AT + 1] == 1, "(1,2),(1,3) are reduced");
    expect(v[6] + v[7] + v[RAGHYMTOS_VECTOR_COUNT + 6] + v[RAGHYMTOS_VECTOR_COUNT + 7] != 0 && v[5] == 0, "in the last coordinates");
    raghymtos_reduce(numbers, 18, 2, RAGHYMTOS_MOST_COORDINATES + 1, out, RAGHYMTOS_REDUCTION_COUNT);
    expect(out[RAGHYMTOS_REFUSAL_AT] == RAGHYMTOS_BAD_M, "nine coordinates are refused");
}

static void member(void) {
    const int64_t numbers[] = {20, 0, 10, 20};
    const int64_t targets[] = {50, 20, 50, 21};
    int64_t out[RAGHYMTOS_MEMBER_COUNT];
    expect(raghymtos_member(numbers, 4, 2, 2, targets, 2, out, RAGHYMTOS_MEMBER_COUNT), "3 lent numbers are enough");
    expect(out[RAGHYMTOS_REFUSAL_AT] == 0 && out[RAGHYMTOS_MEMBER_AT] == 1, "(50,20) is in the lattice");
    raghymtos_member(numbers, 4, 2, 2, targets + 2, 2, out, RAGHYMTOS_MEMBER_COUNT);
    expect(out[RAGHYMTOS_REFUSAL_AT] == 0 && out[RAGHYMTOS_MEMBER_AT] == 0, "(50,21) is not");
    raghymtos_member(numbers, 4, 2, 2, targets, 3, out, RAGHYMTOS_MEMBER_COUNT);
    expect(out[RAGHYMTOS_REFUSAL_AT] == RAGHYMTOS_TARGET_NOT_M, "a target of three numbers is refused");
    expect(!raghymtos_member(numbers, 4, 2, 2, targets, 2, out, RAGHYMTOS_MEMBER_COUNT - 1), "2 lent numbers are too few");
}

/* entry 7: (1,0),(4,1); entry 9: (2,0),(0,3), see 12; entry 12: (0,1),(1,0), see 9 */
static const uint32_t words[] = {
    0x10000722, 0x20004E21, 0x20004E20, 0x20004E24, 0x20004E21, 0x10000922, 0x20004E22, 0x20004E20, 0x20004E20,
    0x20004E23, 0x3000000C, 0x10000C22, 0x20004E20, 0x20004E21, 0x20004E21, 0x20004E20, 0x30000009, 0x40000003};

/* words as bytes, the lowest first */
static void put(const uint32_t *from, size_t count, uint8_t *bytes) {
    for (size_t i = 0; i < 4 * count; i++)
        bytes[i] = (uint8_t)(from[i / 4] >> 8 * (i % 4));
}

static void fill(uint8_t bytes[sizeof words]) {
    put(words, sizeof words / 4, bytes);
}

static void listing(void) {
    static const char text[] = "3 2\n7 7 0 1\nv 1 0\nv 0 1\n9 9 7 1\nv 2 0\nv 0 3\n12 7 9 1\n";
    const size_t n = sizeof text - 1;
    uint8_t bytes[sizeof words], out[RAGHYMTOS_MOST_LISTING_BYTES];
    int64_t answer[RAGHYMTOS_CATALOGUE_COUNT];
    fill(bytes);
    memset(out, 0x55, sizeof out);
    raghymtos_list(bytes, 72, out, n - 1, answer, 3);
    expect(answer[RAGHYMTOS_REFUSAL_AT] == RAGHYMTOS_OUTPUT_SHORT && out[0] == 0x55, "a byte too few for the listing");
    raghymtos_list(bytes, 71, out, sizeof out, answer, 3);
    expect(answer[RAGHYMTOS_REFUSAL_AT] == RAGHYMTOS_NOT_WORDS && out[0] == 0x55, "no listing of 71 bytes");
    raghymtos_list(bytes, 72, out, n, answer, 3);
    expect(answer[RAGHYMTOS_WRITTEN_AT] == (int64_t)n && memcmp(out, text, n) == 0 && out[n] == 0x55, "the listing");
}

static void catalogue(void) {
    uint8_t bytes[sizeof words], out[RAGHYMTOS_MOST_CATALOGUE_BYTES];
    int64_t answer[RAGHYMTOS_CATALOGUE_COUNT];
    fill(bytes);
    memset(out, 0x55, sizeof out);
    expect(raghymtos_write_out(bytes, 72, out, 72, answer, 3), "3 lent numbers are enough");
    expect(answer[RAGHYMTOS_REFUSAL_AT] == RAGHYMTOS_ACCEPTED && answer[RAGHYMTOS_WRITTEN_AT] == 72, "72 bytes are written");
    expect(memcmp(out, bytes, 72) == 0 && out[72] == 0x55, "they are those that were read");
    expect(raghymtos_fold(bytes, 72, out, sizeof out, answer, 3) && answer[RAGHYMTOS_WRITTEN_AT] == 52, "the fold has two entries");
    expect(out[20] == 9 && out[23] == 0x30, "entry 7 carries the see word of entry 12, to entry 9");
    expect(out[44] == 7 && out[47] == 0x30, "the see word of entry 9 leads to entry 7");
    raghymtos_fold(bytes, 72, out, 51, answer, 3);
    expect(answer[RAGHYMTOS_REFUSAL_AT] == RAGHYMTOS_OUTPUT_SHORT, "51 lent bytes are too few");
    raghymtos_write_out(bytes, 68, out, sizeof out, answer, 3);
    expect(answer[RAGHYMTOS_REFUSAL_AT] == RAGHYMTOS_UNEXPECTED && answer[RAGHYMTOS_PLACE_AT] == 17, "the end word is due");
    expect(raghymtos_lookup(bytes, 72, 12, answer, 3) && answer[RAGHYMTOS_STANDING_AT] == 7, "entry 7 stands for entry 12");
    raghymtos_lookup(bytes, 72, 8, answer, 3);
    expect(answer[RAGHYMTOS_REFUSAL_AT] == RAGHYMTOS_NO_ENTRY, "no entry has the number 8");
    expect(!raghymtos_lookup(bytes, 72, 12, answer, 2), "2 lent numbers are too few");
}

/* entry 1: (2), a draft, see 3; 2: (-2), see 4; 3: (3), a draft; 4: (5) */
static const uint32_t drafts[] = {
    0x10000111, 0x20004E22, 0x50000001, 0x30000003, 0x10000211, 0x20004E1E, 0x30000004,
    0x10000311, 0x20004E23, 0x50000001, 0x10000411, 0x20004E25, 0x40000004};

/* whether the answer is this refusal at this place */
static bool is_refused(const int64_t *answer, int64_t refusal, size_t place) {
    return answer[RAGHYMTOS_REFUSAL_AT] == refusal && answer[RAGHYMTOS_PLACE_AT] == (int64_t)place && answer[RAGHYMTOS_WRITTEN_AT] == 0;
}

/* whether words, at most 32, with the one at this index exchanged, are refused with this number there */
static bool exchanged(const uint32_t *from, size_t count, size_t i, uint32_t word, int64_t refusal) {
    uint32_t changed[32];
    uint8_t bytes[sizeof changed], out[sizeof changed];
    int64_t answer[RAGHYMTOS_CATALOGUE_COUNT];
    memcpy(changed, from, 4 * count);
    changed[i] = word;
    put(changed, count, bytes);
    raghymtos_write_out(bytes, 4 * count, out, sizeof out, answer, 3);
    return is_refused(answer, refusal, i);
}

static bool refused_at(size_t i, uint32_t word, int64_t refusal) {
    return exchanged(drafts, sizeof drafts / 4, i, word, refusal);
}

static void draft_entries(void) {
    static const char text[] = "4 3\n1 2 3 0\n2 2 4 0\nv -2\n3 3 0 0\nv 3\n4 4 0 0\nv 5\n";
    const size_t n = sizeof text - 1;
    uint8_t bytes[sizeof drafts], out[RAGHYMTOS_MOST_LISTING_BYTES];
    int64_t answer[RAGHYMTOS_CATALOGUE_COUNT];
    put(drafts, sizeof drafts / 4, bytes);
    raghymtos_write_out(bytes, sizeof bytes, out, sizeof out, answer, 3);
    expect(answer[RAGHYMTOS_WRITTEN_AT] == sizeof bytes && memcmp(out, bytes, sizeof bytes) == 0, "drafts are written with their marks");
    raghymtos_lookup(bytes, sizeof bytes, 1, answer, 3);
    expect(answer[RAGHYMTOS_REFUSAL_AT] == 0 && answer[RAGHYMTOS_STANDING_AT] == 2, "entry 2 stands for the draft before it");
    raghymtos_lookup(bytes, sizeof bytes, 3, answer, 3);
    expect(answer[RAGHYMTOS_STANDING_AT] == 3, "a draft without another entry of its lattice stands");
    raghymtos_fold(bytes, sizeof bytes, out, sizeof out, answer, 3);
    expect(answer[RAGHYMTOS_WRITTEN_AT] == 36 && memcmp(out, bytes + 16, 32) == 0, "the fold has the last three entries as they are");
    raghymtos_list(bytes, sizeof bytes, out, sizeof out, answer, 3);
    expect(answer[RAGHYMTOS_WRITTEN_AT] == (int64_t)n && memcmp(out, text, n) == 0, "the listing of drafts");
    expect(refused_at(2, 0x50000000, RAGHYMTOS_DRAFT_LOAD) && refused_at(9, 0x50000002, RAGHYMTOS_DRAFT_LOAD), "other loads than 1");
    expect(refused_at(3, 0x50000001, RAGHYMTOS_UNEXPECTED) && refused_at(3, 0x50000002, RAGHYMTOS_UNEXPECTED), "a second mark");
    expect(refused_at(0, 0x50000001, RAGHYMTOS_UNEXPECTED) && refused_at(1, 0x50000002, RAGHYMTOS_UNEXPECTED), "marks before coordinates");
}

/* the same four entries in the new form */
static const uint32_t new_drafts[] = {
    0x60000001, 0x70000011, 0x20004E22, 0x50000001, 0x30000003, 0x60000002, 0x70000011, 0x20004E1E, 0x30000004,
    0x60000003, 0x70000011, 0x20004E23, 0x50000001, 0x60000004, 0x70000011, 0x20004E25, 0x40000004};

/* entry 1048575: (2); 1048576: (3); 268435455: (-2) */
static const uint32_t long_numbers[] = {
    0x600FFFFF, 0x70000011, 0x20004E22, 0x60100000, 0x70000011, 0x20004E23, 0x6FFFFFFF, 0x70000011, 0x20004E1E, 0x40000003};

static bool refused_in_new(size_t i, uint32_t word, int64_t refusal) {
    return exchanged(new_drafts, sizeof new_drafts / 4, i, word, refusal);
}

static void moves(void) {
    uint8_t old[sizeof drafts], new[sizeof new_drafts], out[RAGHYMTOS_MOST_CATALOGUE_BYTES], folded[sizeof drafts];
    int64_t answer[RAGHYMTOS_CATALOGUE_COUNT];
    put(drafts, sizeof drafts / 4, old);
    put(new_drafts, sizeof new_drafts / 4, new);
    memset(out, 0x55, sizeof out);
    expect(raghymtos_new_form(old, sizeof old, out, sizeof new, answer, 3), "3 lent numbers are enough for a move");
    expect(answer[RAGHYMTOS_REFUSAL_AT] == 0 && answer[RAGHYMTOS_WRITTEN_AT] == sizeof new, "the new form has a word more for each entry");
    expect(memcmp(out, new, sizeof new) == 0 && out[sizeof new] == 0x55, "the heads are two words, all else is the same");
    memset(out, 0x55, sizeof out);
    raghymtos_old_form(new, sizeof new, out, sizeof old, answer, 3);
    expect(answer[RAGHYMTOS_WRITTEN_AT] == sizeof old && memcmp(out, old, sizeof old) == 0 && out[sizeof old] == 0x55, "and back");
    memset(out, 0x55, sizeof out);
    raghymtos_new_form(old, sizeof old, out, sizeof new - 1, answer, 3);
    expect(is_refused(answer, RAGHYMTOS_OUTPUT_SHORT, 0) && out[0] == 0x55, "a byte too few for the new form");
    raghymtos_old_form(new, sizeof new, out, sizeof old - 1, answer, 3);
    expect(is_refused(answer, RAGHYMTOS_OUTPUT_SHORT, 0) && out[0] == 0x55, "a byte too few for the old form");
    raghymtos_new_form(new, sizeof new - 4, out, sizeof out, answer, 3);
    expect(is_refused(answer, RAGHYMTOS_UNEXPECTED, 0) && out[0] == 0x55, "the new form is in the new form");
    raghymtos_old_form(old, sizeof old - 4, out, sizeof out, answer, 3);
    expect(is_refused(answer, RAGHYMTOS_UNEXPECTED, 0) && out[0] == 0x55, "the old form is in the old form");
    raghymtos_old_form(old, sizeof old - 1, out, sizeof out, answer, 3);
    expect(is_refused(answer, RAGHYMTOS_NOT_WORDS, 0), "but the number of bytes comes first");
    raghymtos_old_form(new, sizeof new - 4, out, sizeof out, answer, 3);
    expect(is_refused(answer, RAGHYMTOS_UNEXPECTED, sizeof new / 4 - 1), "a move reads its input: the end word is due");
    expect(!raghymtos_new_form(old, sizeof old, out, sizeof out, answer, 2) && out[0] == 0x55, "2 lent numbers are too few for a move");
    expect(!raghymtos_old_form(new, sizeof new, out, sizeof out, answer, 2) && out[0] == 0x55, "in either direction");
    raghymtos_fold(old, sizeof old, folded, sizeof folded, answer, 3);
    raghymtos_new_form(folded, (size_t)answer[RAGHYMTOS_WRITTEN_AT], new, sizeof new, answer, 3);
    const int64_t n = answer[RAGHYMTOS_WRITTEN_AT];
    put(new_drafts, sizeof new_drafts / 4, out);
    uint8_t fold_of_new[sizeof new_drafts];
    raghymtos_fold(out, sizeof new, fold_of_new, sizeof fold_of_new, answer, 3);
    expect(n == 48 && answer[RAGHYMTOS_WRITTEN_AT] == n && memcmp(fold_of_new, new, 48) == 0, "the moved fold is the fold of the moved file");
    const uint8_t empty[] = {0, 0, 0, 0x40};
    raghymtos_new_form(empty, 4, out, 4, answer, 3);
    expect(answer[RAGHYMTOS_WRITTEN_AT] == 4 && memcmp(out, empty, 4) == 0, "no entries are in both forms");
    raghymtos_old_form(empty, 4, out, 4, answer, 3);
    expect(answer[RAGHYMTOS_WRITTEN_AT] == 4 && memcmp(out, empty, 4) == 0, "so both moves leave them");
}

static void new_heads(void) {
    uint8_t bytes[sizeof long_numbers], out[RAGHYMTOS_MOST_CATALOGUE_BYTES];
    int64_t answer[RAGHYMTOS_CATALOGUE_COUNT];
    put(long_numbers, sizeof long_numbers / 4, bytes);
    raghymtos_lookup(bytes, sizeof bytes, RAGHYMTOS_MOST_NUMBER, answer, 3);
    expect(answer[RAGHYMTOS_STANDING_AT] == RAGHYMTOS_MOST_OLD_NUMBER, "the first stands for the entry with the greatest number");
    raghymtos_lookup(bytes, sizeof bytes, RAGHYMTOS_MOST_OLD_NUMBER + 1, answer, 3);
    expect(answer[RAGHYMTOS_STANDING_AT] == RAGHYMTOS_MOST_OLD_NUMBER + 1, "a number that the old form has no place for");
    memset(out, 0x55, sizeof out);
    raghymtos_old_form(bytes, sizeof bytes, out, 0, answer, 3);
    expect(is_refused(answer, RAGHYMTOS_NUMBER_LONG, 3) && out[0] == 0x55, "is refused before an output that is too short");
    expect(refused_in_new(0, 0x60000000, RAGHYMTOS_BAD_NUMBER) && refused_in_new(5, 0x60000001, RAGHYMTOS_BAD_NUMBER), "0 and used numbers");
    expect(refused_in_new(1, 0x70000111, RAGHYMTOS_SIZE_BITS) && refused_in_new(6, 0x78000000, RAGHYMTOS_SIZE_BITS), "bits above d and m");
    expect(refused_in_new(6, 0x70000051, RAGHYMTOS_BAD_D) && refused_in_new(6, 0x70000019, RAGHYMTOS_BAD_M), "d and m at the size");
    expect(refused_in_new(1, 0x20004E22, RAGHYMTOS_UNEXPECTED) && refused_in_new(2, 0x70000011, RAGHYMTOS_UNEXPECTED), "one size each");
    expect(refused_in_new(5, 0x10000211, RAGHYMTOS_UNEXPECTED) && refused_at(4, 0x60000002, RAGHYMTOS_UNEXPECTED), "a head of the other form");
}

/* entry 1: (4,0),(0,4); 2: (3,3),(0,4); 3: (4,0),(0,8); 4: (4,0); 5: (4) */
static const uint32_t five[] = {
    0x10000122, 0x20004E24, 0x20004E20, 0x20004E20, 0x20004E24, 0x10000222, 0x20004E23, 0x20004E23, 0x20004E20,
    0x20004E24, 0x10000322, 0x20004E24, 0x20004E20, 0x20004E20, 0x20004E28, 0x10000412, 0x20004E24, 0x20004E20,
    0x10000511, 0x20004E24, 0x40000005};

/* whether the answer about two entries of the five holds these numbers, and no other was written */
static bool separates(uint32_t first, uint32_t second, int64_t refusal, int64_t what, int64_t position, int64_t distance) {
    uint8_t bytes[sizeof five];
    int64_t answer[RAGHYMTOS_SEPARATION_COUNT + 1];
    put(five, sizeof five / 4, bytes);
    memset(answer, 0x55, sizeof answer);
    const int64_t mark = answer[0];
    if (raghymtos_separate(bytes, sizeof five, first, second, answer, RAGHYMTOS_SEPARATION_COUNT - 1) || answer[0] != mark)
        return false;
    return raghymtos_separate(bytes, sizeof five, first, second, answer, RAGHYMTOS_SEPARATION_COUNT + 1) &&
           answer[RAGHYMTOS_REFUSAL_AT] == refusal && answer[RAGHYMTOS_PLACE_AT] == 0 && answer[RAGHYMTOS_CASE_AT] == what &&
           answer[RAGHYMTOS_POSITION_AT] == position && answer[RAGHYMTOS_DISTANCE_AT] == distance &&
           answer[RAGHYMTOS_SEPARATION_COUNT] == mark;
}

static void separation(void) {
    uint8_t bytes[sizeof words];
    int64_t answer[RAGHYMTOS_SEPARATION_COUNT];
    fill(bytes);
    expect(raghymtos_separate(bytes, 72, 7, 12, answer, RAGHYMTOS_SEPARATION_COUNT), "5 lent numbers are enough");
    expect(answer[RAGHYMTOS_REFUSAL_AT] == 0 && answer[RAGHYMTOS_CASE_AT] == RAGHYMTOS_SAME, "7 and 12 have one lattice");
    raghymtos_separate(bytes, 4, 8, 8, answer, RAGHYMTOS_SEPARATION_COUNT);
    expect(answer[RAGHYMTOS_REFUSAL_AT] == RAGHYMTOS_UNEXPECTED && answer[RAGHYMTOS_PLACE_AT] == 1, "a coordinate is due");
    expect(separates(1, 1, 0, RAGHYMTOS_SAME, 0, 0), "an entry has its own lattice");
    expect(separates(1, 5, 0, RAGHYMTOS_DIFFERENT_M, 0, 0), "entry 5 has another m than 1, and another d");
    expect(separates(4, 1, 0, RAGHYMTOS_DIFFERENT_D, 0, 0), "entry 4 has another d than 1");
    expect(separates(2, 1, 0, RAGHYMTOS_FIRST_OUTSIDE, 1, 2), "(3,3) is outside, nearest to (4,4)");
    expect(separates(1, 3, 0, RAGHYMTOS_FIRST_OUTSIDE, 2, 16), "(0,4) is outside, at position 2");
    expect(separates(3, 1, 0, RAGHYMTOS_SECOND_OUTSIDE, 2, 16), "the same with the two exchanged");
    expect(separates(1, 6, RAGHYMTOS_NO_ENTRY, 0, 0, 0), "no second entry has the number 6");
    expect(separates(6, 1, RAGHYMTOS_NO_ENTRY, 0, 0, 0), "no first entry has the number 6");
}

/* every refusal has a text of its own, and a number that is none has one too */
static void texts(void) {
    for (int64_t i = RAGHYMTOS_ACCEPTED; i <= RAGHYMTOS_SIZE_BITS + 1; i++)
        for (int64_t j = RAGHYMTOS_ACCEPTED; j < i; j++)
            expect(strcmp(raghymtos_refusal_text(i), raghymtos_refusal_text(j)) != 0, raghymtos_refusal_text(i));
    expect(strcmp(raghymtos_refusal_text(RAGHYMTOS_DEPENDENT), "the vectors are dependent") == 0, "5 says dependent");
    expect(strcmp(raghymtos_refusal_text(-1), raghymtos_refusal_text(RAGHYMTOS_SIZE_BITS + 1)) == 0, "-1 is no refusal");
}

static void version(void) {
    char parts[32];
    snprintf(parts, sizeof parts, "%d.%d.%d", RAGHYMTOS_VERSION_MAJOR, RAGHYMTOS_VERSION_MINOR, RAGHYMTOS_VERSION_PATCH);
    expect(strcmp(parts, RAGHYMTOS_VERSION) == 0, "the version is that of its parts");
}

int main(void) {
    texts();
    version();
    reduction();
    nearest();
    five_coordinates();
    eight_coordinates();
    member();
    catalogue();
    listing();
    draft_entries();
    moves();
    new_heads();
    separation();
    return wrong;
}
