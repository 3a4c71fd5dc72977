/* A program that calls the library: reads a case file from standard input and tells its answer in words.
 *
 *     ./library
 *     cc -I target/library/include -o host examples/host.c target/library/lib/libdamindex.a
 *     ./host < FILE
 *
 * The guide says how it is linked with the shared object in place of the archive.
 *
 * Exit status: 0 meets, 2 fails, 3 unsettled, 4 refused; 1 where the input could not be read or the library is another one. */
#include "damindex.h"
#include <inttypes.h>
#include <stdio.h>

static const char *const verdicts[] = {
    [DAMINDEX_MEETS] = "meets the required index",
    [DAMINDEX_FAILS] = "fails the required index",
    [DAMINDEX_UNSETTLED] = "unsettled: a mark lies between the ends",
};

static const char *const refusals[] = {
    [DAMINDEX_TOO_LONG] = "the input is too long",
    [DAMINDEX_NOT_HEXADECIMAL] = "not a line of hexadecimal digits",
    [DAMINDEX_WRONG_FRAME] = "no frame that may stand here",
    [DAMINDEX_HULL_LIMITS] = "length, breadth, a draught, the persons or the rule are outside their limits",
    [DAMINDEX_ZONES] = "zone count or bulkheads are wrong",
    [DAMINDEX_ROW_COUNT] = "too many rows, or they are counted wrongly",
    [DAMINDEX_ROW_LIMITS] = "a number of the row is outside its limits",
    [DAMINDEX_ROW_ORDER] = "the row is out of order",
    [DAMINDEX_NOT_CLOSED] = "the layer or group before is not closed",
    [DAMINDEX_END_FRAME] = "the end frame is missing, or not the last line",
    [DAMINDEX_SHEET_TOO_SHORT] = "the sheet is too short",
    [DAMINDEX_BAND_NOT_TAKEN] = "under its rule a ship of so many persons is not judged yet",
};

static const struct {
    uint64_t mark;
    const char *name;
} marks[] = {
    {DAMINDEX_LOW_LEVER, "lever"},
    {DAMINDEX_LOW_RANGE, "range"},
    {DAMINDEX_HIGH_HEEL, "heel"},
    {DAMINDEX_IMMERSED_OPENING, "an immersed opening"},
};

/* In the order in which a row's numbers have them. */
static const struct {
    size_t at;
    const char *name;
} draughts[] = {
    {DAMINDEX_ROW_DEEPEST, "deepest"},
    {DAMINDEX_ROW_PARTIAL, "partial"},
    {DAMINDEX_ROW_LIGHT, "light"},
};

enum { MOST_ZONES = 20 };

/* How a program ends by verdict. */
static const int statuses[] = {[DAMINDEX_MEETS] = 0, [DAMINDEX_FAILS] = 2, [DAMINDEX_UNSETTLED] = 3};

/* What a refusal's number means. A later library that fits may have numbers that this program does not know. */
static const char *refusal_of(uint64_t number) {
    const char *words = number < sizeof refusals / sizeof *refusals ? refusals[number] : NULL;
    return words ? words : "a number that this program does not know";
}

static void tell_index(const char *name, const uint64_t ends[2]) {
    printf("%-2s %10" PRIu64 " to %10" PRIu64 " billionths\n", name, ends[0], ends[1]);
}

/* The fractions that the verdict goes by, exactly. */
static void tell_required(const uint64_t numbers[DAMINDEX_REQUIRED_NUMBERS]) {
    printf("required: A %" PRIu64 "/%" PRIu64, numbers[DAMINDEX_R_NUMERATOR], numbers[DAMINDEX_R_DENOMINATOR]);
    printf(", each partial index %" PRIu64 "/%" PRIu64 "\n", numbers[DAMINDEX_MARK_NUMERATOR], numbers[DAMINDEX_MARK_DENOMINATOR]);
}

/* Whether a file is a passenger ship's: its hull is of kind 06. */
static int is_of_passengers(const uint8_t *input, size_t length) {
    return length >= 2 && input[0] == '0' && input[1] == '6';
}

/* What holds a survival down. Of a given survival, and of one that is one already, there is nothing to tell. A passenger ship's marks are those of the final
 * stage; what is below one without a mark is so by the intermediate stage or the heeling moment, and which of the two it is the answer does not say. */
static void tell_marks(uint64_t bottom, uint64_t added_up, int of_passengers) {
    const char *before = of_passengers ? ", marks of the final stage: " : ", held down by ";
    if (of_passengers && added_up == 0 && bottom < 10000) printf(", held down by the intermediate stage or the heeling moment");
    for (size_t i = 0; i < sizeof marks / sizeof *marks; i++) {
        if (!(added_up & marks[i].mark)) continue;
        printf("%s%s", before, marks[i].name);
        before = " and ";
    }
}

/* A row's share, and what it has at each draught: v, survival, what it adds to the index, and what holds the survival down. */
static void tell_row(uint64_t row, const uint64_t numbers[DAMINDEX_ROW_NUMBERS], int of_passengers) {
    printf("row %3" PRIu64 ": share %10" PRIu64 " to %10" PRIu64 " billionths\n", row, numbers[DAMINDEX_ROW_SHARE_LOWER], numbers[DAMINDEX_ROW_SHARE_UPPER]);
    for (size_t i = 0; i < sizeof draughts / sizeof *draughts; i++) {
        const uint64_t *six = numbers + draughts[i].at;
        printf("row %3" PRIu64 ": %-7s v %6" PRIu64 " of %d", row, draughts[i].name, six[DAMINDEX_V], DAMINDEX_WHOLE_V);
        printf(", survival %5" PRIu64 " to %5" PRIu64 " ten-thousandths", six[DAMINDEX_BOTTOM], six[DAMINDEX_TOP]);
        printf(", adds %10" PRIu64 " to %10" PRIu64 " billionths", six[DAMINDEX_ADDS_LOWER], six[DAMINDEX_ADDS_UPPER]);
        tell_marks(six[DAMINDEX_BOTTOM], six[DAMINDEX_MARKS], of_passengers);
        printf("\n");
    }
}

/* A byte of an accepted file from its two digits. */
static int byte_of(const uint8_t digits[2]) {
    int byte = 0;
    for (size_t i = 0; i < 2; i++) byte = 16 * byte + (digits[i] <= '9' ? digits[i] - '0' : digits[i] - 'a' + 10);
    return byte;
}

/* Which groups an accepted file lists, by first zone and number of zones: bytes 1 and 2 of each line between the first and the last. */
static void find_listed(const uint8_t *input, size_t length, int listed[MOST_ZONES + 1][MOST_ZONES + 1]) {
    for (size_t at = 1; at < length; at++)
        if (input[at - 1] == '\n' && !(input[at] == '0' && input[at + 1] == 'f')) listed[byte_of(input + at + 2)][byte_of(input + at + 4)] = 1;
}

/* Each group that the file does not list and that some damage reaches, with its share, and what all that are not listed could add at most. */
static void tell_not_listed(const uint8_t *input, size_t length, const uint64_t *ends, size_t count) {
    static int listed[MOST_ZONES + 1][MOST_ZONES + 1];
    size_t zones = 0, groups = 0;
    uint64_t most = 0;
    find_listed(input, length, listed);
    while (zones * (zones + 1) < count) zones++;
    for (size_t first = 1; first <= zones; first++)
        for (size_t many = 1; first + many <= zones + 1; many++, ends += 2) {
            if (listed[first][many]) continue;
            groups++;
            most += ends[1];
            if (ends[0] == 0) continue;
            printf("zones %2zu to %2zu: not listed, share %10" PRIu64 " to %10" PRIu64 " billionths\n", first, first + many - 1, ends[0], ends[1]);
        }
    printf("groups not listed: %zu, which could add at most %10" PRIu64 " billionths\n", groups, most);
}

/* Whether the library that runs is one that this program was compiled for: of the same major version, and not older. */
static int library_fits(void) {
    uint32_t version = damindex_version();
    return version / 10000 == DAMINDEX_VERSION_MAJOR && version >= DAMINDEX_VERSION;
}

int main(void) {
    static uint8_t input[DAMINDEX_LONGEST_INPUT + 1];
    static uint64_t sheet[DAMINDEX_LONGEST_SHEET], rows[DAMINDEX_LONGEST_ROWS], groups[DAMINDEX_LONGEST_GROUPS];
    uint64_t figures[DAMINDEX_FIGURES], required[DAMINDEX_REQUIRED_NUMBERS];

    if (!library_fits()) {
        fprintf(stderr, "compiled for damindex %s, and the library's number is %" PRIu32 "\n", DAMINDEX_VERSION_STRING, damindex_version());
        return 1;
    }
    size_t length = fread(input, 1, sizeof input, stdin);
    if (ferror(stdin)) return 1;
    damindex_figures(input, length, sheet, DAMINDEX_LONGEST_SHEET, figures, DAMINDEX_FIGURES);

    uint64_t number = figures[DAMINDEX_NUMBER];
    if (number != 0) {
        printf("refused, number %" PRIu64 " at line %" PRIu64 ": %s\n", number, figures[DAMINDEX_LINE], refusal_of(number));
        return 4;
    }
    printf("%s\n", verdicts[figures[DAMINDEX_VERDICT]]);
    tell_index("A", figures + DAMINDEX_A_LOWER);
    tell_index("As", figures + DAMINDEX_AS_LOWER);
    tell_index("Ap", figures + DAMINDEX_AP_LOWER);
    tell_index("Al", figures + DAMINDEX_AL_LOWER);
    damindex_required(input, length, required, DAMINDEX_REQUIRED_NUMBERS);
    tell_required(required);
    damindex_rows(input, length, rows, DAMINDEX_LONGEST_ROWS);
    for (uint64_t row = 0; row < figures[DAMINDEX_ROWS]; row++) tell_row(row + 1, rows + DAMINDEX_ROW_NUMBERS * row, is_of_passengers(input, length));
    size_t count = damindex_groups(input, length, groups, DAMINDEX_LONGEST_GROUPS);
    tell_not_listed(input, length, groups, count);
    return statuses[figures[DAMINDEX_VERDICT]];
}
