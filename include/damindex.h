/* The damage subdivision index for programs in C, and in every language that calls C: six functions of the library damindex.
 *
 * What they take is a case file of a cargo ship (a hull of kind 01, rows of kinds 02, 03 and 05) or of a passenger ship (a hull of kind 06, rows of kind 07); the
 * file itself says which, and what comes back has the same shape for both. A passenger ship's hull says in a byte after its persons, byte 13, which rule the ship is
 * under: 0 the earlier one, 1 that of 2020, MSC.421(98). Its zone count is byte 14, and its bulkheads stand from byte 15 on.
 *
 *     ./library                                               proves the library and makes its package in target/library (x86-64 Linux)
 *     cc program.c $(pkg-config --cflags --libs damindex)     links with the shared object
 *     cc program.c -I target/library/include target/library/lib/libdamindex.a     or with the archive
 *
 * Slices. Whatever is lent goes as two arguments: a pointer to the first element, and how many elements there are. The length is all that
 * the library knows of the room behind the pointer, and it neither reads nor writes outside of it.
 *
 * What all functions promise, of any bytes whatever (proved of the library's own text): they return; they read `input` and never write it;
 * they write what is said below and leave every other element as it was; the same input with the same lengths gives the same answer.
 *
 * Run, not proved, because no contract speaks of it: 64 kilobytes of stack are enough, in whatever thread, and a call takes 47,500 bytes of them
 * at most; the first call also has what the system's loader takes to find memcpy and memset, which alone are called of the C library; nothing is
 * taken from the heap and nothing is kept between calls; loading the shared object runs nothing.
 *
 * What the caller keeps, because no proof reaches into C:
 *   - no pointer is NULL, also where the length is 0; numbers of 64 bits are aligned as C aligns them;
 *   - each length is at most the number of elements that are there;
 *   - what is written (`out`, `sheet`, `figures`, `rows`, `numbers`) overlaps nothing else that is lent in the same call;
 *   - nobody else writes what is lent until the call returns, and nobody reads what is written until then.
 *
 * Threads. Calls may run at the same time, in as many threads as there are, with no lock: what a call writes is its own until it returns, and
 * what it reads (`input`) may be lent to several calls at once.
 */
#ifndef DAMINDEX_H
#define DAMINDEX_H

#include <stddef.h>
#include <stdint.h>

#ifdef __cplusplus
extern "C" {
#endif

/* The version of this header. The library tells its own by damindex_version. Major: something that a program relies on has changed. Minor:
 * something was added. Patch: neither. A program runs with a library of its own major version that is not older. */
#define DAMINDEX_VERSION_MAJOR 7
#define DAMINDEX_VERSION_MINOR 0
#define DAMINDEX_VERSION_PATCH 0
#define DAMINDEX_VERSION (10000 * DAMINDEX_VERSION_MAJOR + 100 * DAMINDEX_VERSION_MINOR + DAMINDEX_VERSION_PATCH)
#define DAMINDEX_VERSION_STRING "7.0.0"

/* Sizes that serve every input (proved). A longer input than the longest is refused for its length, whatever it holds: to read one byte more
 * than that is enough to tell. A passenger ship's file has 428 rows at most, with four zones in 65,534 bytes, and 427 from five zones on. */
enum {
    DAMINDEX_LONGEST_INPUT = 65536,  /* bytes */
    DAMINDEX_LONGEST_REPORT = 12569, /* bytes: 500 rows */
    DAMINDEX_LONGEST_SHEET = 1000,   /* numbers: two a row */
    DAMINDEX_FIGURES = 12,           /* numbers */
    DAMINDEX_ROW_NUMBERS = 20,       /* numbers of a row */
    DAMINDEX_LONGEST_ROWS = 10000,   /* numbers: twenty a row */
    DAMINDEX_REQUIRED_NUMBERS = 4,   /* numbers: two fractions */
    DAMINDEX_LONGEST_GROUPS = 420    /* numbers: two a group of zones, and twenty zones have 210 groups */
};

/* Where each of the twelve figures stands. Ends are in billionths: the exact index is not below the lower and not above the upper end. */
enum {
    DAMINDEX_NUMBER = 0, /* the refusal's number, 0 where the file is accepted */
    DAMINDEX_LINE,       /* the refusal's line, 0 where it has none */
    DAMINDEX_VERDICT,    /* 0 at a refusal */
    DAMINDEX_ROWS,       /* how many rows the file has, 0 at a refusal */
    DAMINDEX_A_LOWER,    /* the attained index; this and what follows is 0 at a refusal */
    DAMINDEX_A_UPPER,
    DAMINDEX_AS_LOWER, /* the partial index at the deepest draught */
    DAMINDEX_AS_UPPER,
    DAMINDEX_AP_LOWER, /* at the partial draught */
    DAMINDEX_AP_UPPER,
    DAMINDEX_AL_LOWER, /* at the light draught */
    DAMINDEX_AL_UPPER
};

/* Where each of a row's twenty numbers stands: its share first, then six numbers at each draught. */
enum {
    DAMINDEX_ROW_SHARE_LOWER = 0, /* the row's share of all damages, in billionths: the same ends as on the sheet */
    DAMINDEX_ROW_SHARE_UPPER = 1,
    DAMINDEX_ROW_DEEPEST = 2, /* where the six of the deepest draught begin */
    DAMINDEX_ROW_PARTIAL = 8, /* those of the partial draught */
    DAMINDEX_ROW_LIGHT = 14   /* and of the light draught */
};

/* Where each of the six numbers of a draught stands, counted from where they begin. */
enum {
    DAMINDEX_V = 0,          /* v, how much of the damages in height is the row's own: exact, in 916,500ths (DAMINDEX_WHOLE_V) */
    DAMINDEX_BOTTOM,         /* the survival, in ten-thousandths: it is not below the bottom */
    DAMINDEX_TOP,            /* and not above the top */
    DAMINDEX_MARKS,          /* what holds the survival down: the marks below, added up */
    DAMINDEX_ADDS_LOWER,     /* what the row adds to the partial index, share times v times survival, in billionths */
    DAMINDEX_ADDS_UPPER,
    DAMINDEX_DRAUGHT_NUMBERS /* six numbers a draught */
};

/* What v and a survival are counted in: so many are one. */
enum { DAMINDEX_WHOLE_V = 916500, DAMINDEX_WHOLE_SURVIVAL = 10000 };

/* Where each of the four numbers of the required index stands. */
enum {
    DAMINDEX_R_NUMERATOR = 0, /* R, which A must reach */
    DAMINDEX_R_DENOMINATOR,
    DAMINDEX_MARK_NUMERATOR, /* what each partial index must reach: half of R, of a passenger ship 0.9 of R */
    DAMINDEX_MARK_DENOMINATOR
};

/* Verdicts. A mark here is R or its part, which an index is held against; those of a survival are below. */
enum {
    DAMINDEX_MEETS = 1,    /* every lower end reaches its mark: A the required index R, each partial index half of R, of a passenger ship 0.9 of R; a passenger
                              ship's R is that of its own rule */
    DAMINDEX_FAILS = 2,    /* some upper end is below its mark */
    DAMINDEX_UNSETTLED = 3 /* neither: some mark lies between the ends */
};

/* The marks of a survival, added up: what holds it down. A survival that was found from lever, range, heel and opening is 1 just where it has no
 * mark; a given survival never has a mark, whatever it is. Each mark is told of its own number, whatever the others are. Where a row has two
 * results at a draught (kind 05: that of the whole damage, and one of damage of lesser extent), the one that is survived worse counts, survival
 * and marks alike; where both are survived alike, the marks are those of the first.
 *
 * A passenger ship's survival (kind 07) is the lesser of s-intermediate and of s-final times s-mom, and its marks are those of the final stage. It is 1 just where
 * it has no mark and both s-intermediate and s-mom are 1: a survival below 1 with no mark is held down by the intermediate stage or by the heeling moment. */
enum {
    DAMINDEX_LOW_LEVER = 1,       /* the lever is below its cap: 120 mm, of a passenger ship 200 mm with the ro-ro mark */
    DAMINDEX_LOW_RANGE = 2,       /* the range is below its cap: 16 degrees, of a passenger ship 20 degrees with the ro-ro mark */
    DAMINDEX_HIGH_HEEL = 4,       /* the heel is above its limit: 25 degrees, of a passenger ship 7 degrees */
    DAMINDEX_IMMERSED_OPENING = 8 /* the critical opening is below the final waterline: the survival is 0 */
};

/* Refusals. A file is judged line by line, and the first line that breaks a rule gives number and line; line 1 is judged by 2, 3, 4, 13 and 5, in this order. */
enum {
    DAMINDEX_TOO_LONG = 1,         /* more than 65,536 bytes; line 0 */
    DAMINDEX_NOT_HEXADECIMAL = 2,  /* an empty line, an odd number of digits, a byte that is no digit, or no closing line feed */
    DAMINDEX_WRONG_FRAME = 3,      /* a frame of another kind or length than may stand there: a cargo ship's rows have 31 bytes (kind 02), 13 (03) or 55 (05), a
                                      passenger ship's 76 (07), and neither may have a row of the other's; a hull has 10 bytes at least (01) or 15 (06) */
    DAMINDEX_HULL_LIMITS = 4,      /* length, breadth, a draught or the persons outside their limits, which go by the kind of the hull, or a rule that is
                                      neither 0 nor 1; line 1 */
    DAMINDEX_ZONES = 5,            /* the zone count, the hull frame's length or the bulkheads; line 1 */
    DAMINDEX_ROW_COUNT = 6,        /* a 501st row, or an end frame that counts other rows than there were */
    DAMINDEX_ROW_LIMITS = 7,       /* a number of a row outside its limits: of the first or the second set of results, or of what a passenger ship's row has besides */
    DAMINDEX_ROW_ORDER = 8,        /* a row that does not come after the row before it */
    DAMINDEX_NOT_CLOSED = 9,       /* a layer or group that ends before its top or before half the breadth */
    DAMINDEX_END_FRAME = 10,       /* a line after the end frame; or no end frame, at the line after the last */
    DAMINDEX_SHEET_TOO_SHORT = 11, /* fewer than two numbers a row on the sheet, in a file that is accepted otherwise; line 0 */
    DAMINDEX_BAND_NOT_TAKEN = 13   /* a passenger ship under the rule of 2020 with 1,351 to 6,000 persons, where R has a logarithm and no verdict is given; line 1.
                                      No refusal has the number 12 */
};

/* The version of the library that the program runs with: 10000 times major, and 100 times minor, and patch. */
uint32_t damindex_version(void);

/* The printed answer, as the program damindex writes it.
 *
 * Takes a case file in `input`, and a buffer `out`. Writes the answer's text to the front of `out`, with no closing zero: the verdict and the
 * indices in a line and a line for each row with its share and marks, or the one line of a refusal. Returns how many bytes that is, at least 9
 * and at most DAMINDEX_LONGEST_REPORT. Where `out` is shorter than the text it returns 0 and writes nothing. */
size_t damindex_report(const uint8_t *input, size_t input_length, uint8_t *out, size_t out_length);

/* The figures of the answer, and each row's share.
 *
 * Takes a case file in `input`, a `sheet` for the shares and room for twelve `figures`. Writes the figures in the order above to the front of
 * `figures`, and, where the file is accepted, each row's share to the front of `sheet`: lower end, then upper end, in the order of the rows.
 * Returns DAMINDEX_FIGURES.
 *
 * Where `figures` has fewer than twelve numbers it returns 0 and writes nothing at all, on the sheet neither. Where the file is refused the
 * sheet stays as it was, also for refusal 11, which a sheet of DAMINDEX_LONGEST_SHEET numbers never gets. */
size_t damindex_figures(const uint8_t *input, size_t input_length, uint64_t *sheet, size_t sheet_length, uint64_t *figures,
                        size_t figures_length);

/* Each row's share, and at the three draughts its v, its survival with the marks, and what it adds to the index.
 *
 * Takes a case file in `input`, and room for twenty numbers a row in `rows`. Where the file is accepted it writes them to the front of `rows`, in
 * the order of the rows and of the places above. The exact survival is not below the bottom and not above the top, and a given survival is both. A
 * row of kind 05 has twenty numbers too, at each draught those of the result that counts; which of its two that is, is not told. A bottom of 10000
 * says that the survival is 1; a top of 10000 does not say so of a passenger ship's, which may lie between 0.9999 and 1. What a row adds lies
 * between its ends, and the ends of all rows add up to those of the partial index, lower ones to the lower, upper ones to the upper, with no rest
 * (proved): a sum over some of the rows encloses what these add. Returns how many numbers that is: DAMINDEX_ROW_NUMBERS times the rows, at most
 * DAMINDEX_LONGEST_ROWS, and 0 for a file with no rows.
 *
 * Where the file is refused, or `rows` is too short for all of its numbers, it returns 0 and writes nothing. No sheet is lent, so that refusal 11
 * does not occur here, nor in what follows. Which refusal it is, damindex_figures tells. */
size_t damindex_rows(const uint8_t *input, size_t input_length, uint64_t *rows, size_t rows_length);

/* The required index R and the mark of a partial index, exactly: the fractions that the verdict goes by.
 *
 * Takes a case file in `input`, and room for four `numbers`. Where the file is accepted it writes them to the front of `numbers`, in the order of
 * the places above. The fractions are not reduced: the numbers are those of the forms that the guide has, and the mark's denominator is twice R's, of a
 * passenger ship ten times. Returns DAMINDEX_REQUIRED_NUMBERS.
 *
 * Where the file is refused, or `numbers` has fewer than four, it returns 0 and writes nothing. */
size_t damindex_required(const uint8_t *input, size_t input_length, uint64_t *numbers, size_t numbers_length);

/* The share of every group of zones, listed in the file or not, down to half the breadth.
 *
 * Takes a case file in `input`, and room for two numbers a group in `numbers`. Where the file is accepted it writes them to the front of `numbers`:
 * lower and upper end of the group's share of all damages, in billionths, groups ordered by their first zone and then by how many they have, which
 * is the order of the rows: 1, 1-2, 1-3 and so on to the last zone, then 2, 2-3 and so on, the last zone alone at the end. So it does of every group of
 * zones that lie side by side, also of those that no damage can reach, whose lower end is 0. What the groups that are not listed could add to each
 * partial index is together at most the sum of their upper ends (proved). Returns how many numbers that is: m zones have m (m + 1), at most
 * DAMINDEX_LONGEST_GROUPS.
 *
 * Where the file is refused, or `numbers` is too short for all of them, it returns 0 and writes nothing. */
size_t damindex_groups(const uint8_t *input, size_t input_length, uint64_t *numbers, size_t numbers_length);

#ifdef __cplusplus
}
#endif

#endif
