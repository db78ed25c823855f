/* Lattices of at most four vectors with at most eight coordinates: reduction, the vector nearest to
 * a target, whether a target is in the lattice, and catalogues of bases. docs/RULES.md has the rules.
 *
 * Link with target/lib/libraghymtos.a, which rust/archive makes (x86-64 Linux).
 *
 * The functions are pure: they keep nothing, allocate nothing and may be called from any thread.
 * Those on catalogues need 1 MB of its stack. They are proved for every input that this header
 * allows; the header itself is taken on trust. */
#ifndef RAGHYMTOS_H
#define RAGHYMTOS_H

#include <stdbool.h>
#include <stddef.h>
#include <stdint.h>

#ifdef __cplusplus
extern "C" {
#endif

#define RAGHYMTOS_VERSION_MAJOR 0
#define RAGHYMTOS_VERSION_MINOR 8
#define RAGHYMTOS_VERSION_PATCH 0
#define RAGHYMTOS_VERSION "0.8.0"

/* A name that ends in _AT is an index into an answer, one that ends in _COUNT a number of numbers,
 * one that begins with MOST a limit. */

/* The limits. */
#define RAGHYMTOS_MOST_VECTORS 4               /* d */
#define RAGHYMTOS_MOST_COORDINATES 8           /* m */
#define RAGHYMTOS_MOST_SIZE 20000              /* a coordinate, without its sign */
#define RAGHYMTOS_MOST_SQUARE 400000000        /* a squared length */
#define RAGHYMTOS_MOST_ENTRIES 256             /* entries of a catalogue */
#define RAGHYMTOS_MOST_NUMBER 268435455        /* an entry's number; the least is 1 */
#define RAGHYMTOS_MOST_OLD_NUMBER 1048575      /* the same in the old form */
#define RAGHYMTOS_MOST_CATALOGUE_BYTES 36868   /* an output that is never too short for one */
#define RAGHYMTOS_MOST_LISTING_BYTES 71000     /* an output that is never too short for a listing */

/* Where all answers begin. */
#define RAGHYMTOS_REFUSAL_AT 0 /* 0, or the number of the refusal: then all else but the place is 0 */
#define RAGHYMTOS_PLACE_AT 1   /* the index of a catalogue's word, 0 where no word is concerned */

/* A reduction's answer. Vectors have room for eight numbers each, and the tables U and V are rows of
 * four, one after another; unused places hold 0. */
#define RAGHYMTOS_REDUCTION_COUNT 71
#define RAGHYMTOS_VECTOR_COUNT 8  /* numbers from one vector to the next */
#define RAGHYMTOS_ROW_COUNT 4     /* numbers from one row of U or V to the next */
#define RAGHYMTOS_PASSES_AT 2     /* how often a nearest vector was looked for */
#define RAGHYMTOS_SQUARES_AT 3    /* 4 numbers: the squared lengths of the reduced vectors */
#define RAGHYMTOS_VECTORS_AT 7    /* 32 numbers: the reduced vectors, shortest first */
#define RAGHYMTOS_U_AT 39         /* 16 numbers, row i: the coefficients of output i on the inputs */
#define RAGHYMTOS_V_AT 55         /* 16 numbers, row i: the coefficients of input i on the outputs */

/* The answer with a nearest vector. Unused places hold 0. */
#define RAGHYMTOS_NEAREST_COUNT 19
#define RAGHYMTOS_SQUARE_AT 2       /* the squared distance: 0 exactly for a target in the lattice */
#define RAGHYMTOS_COEFFICIENTS_AT 3 /* 4 numbers: its coefficients on the reduced vectors */
#define RAGHYMTOS_TENTHS_AT 7       /* 4 numbers: the solution of the target's system, in tenths */
#define RAGHYMTOS_VECTOR_AT 11      /* 8 numbers: the nearest vector */

/* The answer of a membership. */
#define RAGHYMTOS_MEMBER_COUNT 3
#define RAGHYMTOS_MEMBER_AT 2 /* 1 for a target in the lattice, 0 for another */

/* The answer about a catalogue. */
#define RAGHYMTOS_CATALOGUE_COUNT 3
#define RAGHYMTOS_WRITTEN_AT 2  /* of a writing: the bytes written */
#define RAGHYMTOS_STANDING_AT 2 /* of a lookup: the standing number */

/* The answer of a separation. */
#define RAGHYMTOS_SEPARATION_COUNT 5
#define RAGHYMTOS_CASE_AT 2     /* what separates the entries: one of those below, or 0 with a refusal */
#define RAGHYMTOS_POSITION_AT 3 /* in the last two cases: which vector, from 1; otherwise 0 */
#define RAGHYMTOS_DISTANCE_AT 4 /* its squared distance to the lattice that it is outside; otherwise 0 */

/* What separates two entries. One of these is always true, and the first that is true is given. */
enum raghymtos_separation {
    RAGHYMTOS_SAME = 1,          /* nothing: the same m and the same lattice */
    RAGHYMTOS_DIFFERENT_M = 2,
    RAGHYMTOS_DIFFERENT_D = 3,
    RAGHYMTOS_FIRST_OUTSIDE = 4, /* a vector of the first entry is outside the second's lattice */
    RAGHYMTOS_SECOND_OUTSIDE = 5 /* a vector of the second entry is outside the first's lattice */
};

/* The refusals. The first that applies is given. A reduction gives 1 to 5, a nearest vector and
 * a membership 1 to 7, a catalogue 1, 2, 4, 5, 8 to 15, 18 and 20; a writing gives 16 besides, a lookup
 * and a separation 17, the move to the old form 19. Later versions may have more: whatever is not 0 is a
 * refusal. In the new form a head is two words, its number and its size: 5, 11, 15 and 19 stand at the
 * number, 1, 2 and 20 at the size. */
enum raghymtos_refusal {
    RAGHYMTOS_ACCEPTED = 0,
    RAGHYMTOS_BAD_D = 1,         /* place: the head, or its size */
    RAGHYMTOS_BAD_M = 2,         /* place: the head, or its size */
    RAGHYMTOS_NOT_D_TIMES_M = 3,
    RAGHYMTOS_TOO_LONG = 4,      /* place: the coordinate */
    RAGHYMTOS_DEPENDENT = 5,     /* place: the head */
    RAGHYMTOS_TARGET_NOT_M = 6,
    RAGHYMTOS_TARGET_LONG = 7,
    RAGHYMTOS_NOT_WORDS = 8,
    RAGHYMTOS_TOO_LARGE = 9,
    RAGHYMTOS_UNEXPECTED = 10,   /* place: the word, or the number of words where one is missing */
    RAGHYMTOS_BAD_NUMBER = 11,   /* place: the head */
    RAGHYMTOS_LOST = 12,         /* place: the see word */
    RAGHYMTOS_BAD_ENTRIES = 13,  /* place: the end word */
    RAGHYMTOS_BEHIND = 14,       /* place: the first word behind the end word */
    RAGHYMTOS_TOO_MANY = 15,     /* place: the head of the 257th entry */
    RAGHYMTOS_OUTPUT_SHORT = 16,
    RAGHYMTOS_NO_ENTRY = 17,
    RAGHYMTOS_DRAFT_LOAD = 18,   /* place: the mark */
    RAGHYMTOS_NUMBER_LONG = 19,  /* place: the head */
    RAGHYMTOS_SIZE_BITS = 20     /* place: the head's size */
};

/* What a refusal says, without its place; never null. */
static inline const char *raghymtos_refusal_text(int64_t refusal) {
    switch (refusal) {
    case RAGHYMTOS_ACCEPTED: return "accepted";
    case RAGHYMTOS_BAD_D: return "d is not 1 to 4";
    case RAGHYMTOS_BAD_M: return "m is not 1 to 8";
    case RAGHYMTOS_NOT_D_TIMES_M: return "there are not d times m numbers";
    case RAGHYMTOS_TOO_LONG: return "a coordinate beyond 20000 or a squared length over 400000000";
    case RAGHYMTOS_DEPENDENT: return "the vectors are dependent";
    case RAGHYMTOS_TARGET_NOT_M: return "the target has not m numbers";
    case RAGHYMTOS_TARGET_LONG: return "a coordinate of the target beyond 20000 or its squared length over 400000000";
    case RAGHYMTOS_NOT_WORDS: return "the number of bytes is not a multiple of 4";
    case RAGHYMTOS_TOO_LARGE: return "more than 35844 bytes, or 36868 in the new form";
    case RAGHYMTOS_UNEXPECTED: return "a word that cannot stand here, or none where one must come";
    case RAGHYMTOS_BAD_NUMBER: return "the entry's number is 0 or used before";
    case RAGHYMTOS_LOST: return "the see word names no entry";
    case RAGHYMTOS_BAD_ENTRIES: return "the end word counts another number of entries";
    case RAGHYMTOS_BEHIND: return "a word behind the end word";
    case RAGHYMTOS_TOO_MANY: return "more than 256 entries";
    case RAGHYMTOS_OUTPUT_SHORT: return "the output is shorter than what is to be written";
    case RAGHYMTOS_NO_ENTRY: return "no entry has the number";
    case RAGHYMTOS_DRAFT_LOAD: return "a draft mark whose load is not 1";
    case RAGHYMTOS_NUMBER_LONG: return "a number over 1048575 has no place in the old form";
    case RAGHYMTOS_SIZE_BITS: return "a size word with bits above d and m";
    default: return "a refusal that this header does not know";
    }
}

/* Reduces d vectors of m coordinates each.
 *
 * numbers, count  the coordinates, vector by vector: any 64-bit numbers, any count
 * d, m            how many vectors, and how many coordinates each has
 * out, room       where the answer goes, and how many numbers are lent there
 *
 * Gives true and writes the first 71 numbers of out; those behind them keep their values. If room
 * is less than 71, gives false and writes nothing. No pointer may be null, also for a count of 0,
 * both must be aligned for int64_t, and the two runs of numbers must not overlap. */
bool raghymtos_reduce(const int64_t *numbers, size_t count, size_t d, size_t m,
                      int64_t *out, size_t room);

/* Finds the vector nearest to a target in the lattice of d vectors of m coordinates each. The
 * vectors are reduced first; of equally near vectors the one with the least coefficients on the
 * reduced vectors is given, the first coefficient compared first.
 *
 * With it comes the solution of the target's linear system: the d numbers y for which the sum of
 * the reduced vectors, each taken y times, has with every reduced vector the inner product that the
 * target has. They are the target's own coefficients on the reduced vectors, or, for a target beside
 * their span, those of its projection, and need not be whole. They stand in whole tenths, 0.5 as 5;
 * each is less than a tenth from the exact number. Where that leaves two, which of them is given is
 * free, and a later version may give the other. Behind the d numbers, and in a refusal, stand zeros.
 *
 * numbers, count         the coordinates, vector by vector: any 64-bit numbers, any count
 * d, m                   how many vectors, and how many coordinates each has
 * target, target_count   the target's coordinates: any 64-bit numbers, any count; it need not lie
 *                        in the span of the vectors
 * out, room              where the answer goes, and how many numbers are lent there
 *
 * Gives true and writes the first 19 numbers of out; those behind them keep their values. If room
 * is less than 19, gives false and writes nothing. No pointer may be null, also for a count of 0,
 * all must be aligned for int64_t, and out must overlap neither numbers nor target. */
bool raghymtos_nearest(const int64_t *numbers, size_t count, size_t d, size_t m,
                       const int64_t *target, size_t target_count, int64_t *out, size_t room);

/* Says whether a target is in the lattice of d vectors of m coordinates each: exactly when it is a
 * combination of the vectors with whole coefficients. All but the answer is as for raghymtos_nearest,
 * with 3 in the place of 19. */
bool raghymtos_member(const int64_t *numbers, size_t count, size_t d, size_t m,
                      const int64_t *target, size_t target_count, int64_t *out, size_t room);

/* A catalogue has one of two forms. In the old form an entry's head is one word, with a number of at most
 * 1048575, in the new form two, the first with a number of at most 268435455; a catalogue without entries
 * belongs to both. All functions but the two moves take either form, and a catalogue that they write has
 * the form that they read. */

/* Reads a catalogue and writes its entries to out, unfolded, drafts with their marks.
 *
 * bytes, count          the catalogue: 32-bit words, lowest byte first; any bytes, any count
 * out, room             where the catalogue goes, and how many bytes are lent there
 * answer, answer_room   where refusal, place and the number of bytes written go, and how many
 *                       numbers are lent there
 *
 * Gives true and writes the first 3 numbers of answer. Without a refusal the bytes written are the
 * first of out, and those behind them keep their values; on refusal all do. If answer_room is less
 * than 3, gives false and writes nothing, neither to out. No pointer may be null, also for a count
 * of 0, answer must be aligned for int64_t, and the three runs must not overlap. */
bool raghymtos_write_out(const uint8_t *bytes, size_t count, uint8_t *out, size_t room,
                         int64_t *answer, size_t answer_room);

/* Writes the folded catalogue to out: of entries with the same m and the same lattice the first that
 * is no draft stands, or the first of all where every one is a draft. It has its number, its reduced
 * vectors, its mark if it is a draft, and a see word that leads to another standing entry: its own,
 * or else the first of theirs in the order of the file. Otherwise as raghymtos_write_out. */
bool raghymtos_fold(const uint8_t *bytes, size_t count, uint8_t *out, size_t room,
                    int64_t *answer, size_t answer_room);

/* Writes the catalogue, which is in the old form, to out in the new form: nothing but the heads changes.
 * One in the new form is refused with 10 at its first word, after 8 and 9 and before anything else. One
 * without entries is written as it is. Otherwise as raghymtos_write_out. */
bool raghymtos_new_form(const uint8_t *bytes, size_t count, uint8_t *out, size_t room,
                        int64_t *answer, size_t answer_room);

/* Writes the catalogue, which is in the new form, to out in the old form: nothing but the heads changes.
 * One in the old form is refused with 10 at its first word, after 8 and 9 and before anything else. One
 * that would be accepted is refused with 19 where a number is over 1048575, at the first such head, before
 * 16. One without entries is written as it is. Otherwise as raghymtos_write_out. */
bool raghymtos_old_form(const uint8_t *bytes, size_t count, uint8_t *out, size_t room,
                        int64_t *answer, size_t answer_room);

/* Writes the listing of the catalogue to out, as text without a final zero: a line with the number of
 * entries and of standing entries; a line for each entry with its number, its standing number, the
 * number that its see word leads to, or 0, and its passes; under a standing entry a line "v" with the
 * coordinates for each reduced vector. Otherwise as raghymtos_write_out. */
bool raghymtos_list(const uint8_t *bytes, size_t count, uint8_t *out, size_t room,
                    int64_t *answer, size_t answer_room);

/* Finds the number of the standing entry of the entry with this number: the first entry with the
 * same m and the same lattice that is no draft, or the first of all where every one is a draft.
 *
 * bytes, count          the catalogue, as for raghymtos_write_out
 * number                any number
 * answer, answer_room   where refusal, place and the standing number go, and how many numbers are
 *                       lent there
 *
 * Gives true and writes the first 3 numbers of answer; those behind them keep their values. If
 * answer_room is less than 3, gives false and writes nothing. The pointers are as for
 * raghymtos_write_out. */
bool raghymtos_lookup(const uint8_t *bytes, size_t count, uint32_t number,
                      int64_t *answer, size_t answer_room);

/* Says what separates the entries with these two numbers. The position is the lowest, among the
 * vectors as entered, of a vector outside the other entry's lattice; the distance is that to the
 * nearest vector of that lattice. The same number twice is the same lattice.
 *
 * bytes, count          the catalogue, as for raghymtos_write_out
 * first, second         any numbers; refused as for raghymtos_lookup where no entry has one of them
 * answer, answer_room   where refusal, place, case, position and squared distance go, and how many
 *                       numbers are lent there
 *
 * Gives true and writes the first 5 numbers of answer; those behind them keep their values. If
 * answer_room is less than 5, gives false and writes nothing. The pointers are as for
 * raghymtos_write_out. */
bool raghymtos_separate(const uint8_t *bytes, size_t count, uint32_t first, uint32_t second,
                        int64_t *answer, size_t answer_room);

#ifdef __cplusplus
}
#endif

#endif
