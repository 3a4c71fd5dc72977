/* Answers questions about single figures of the proved crates, many in one process.
 *
 * A question is a letter and what `asking.h` says of its numbers and files; an opening comes in two's complement:
 *   s kind lever range heel opening given   -> bottom top marks
 *   p lever range heel opening displacement moment, an intermediate stage's lever range heel, ro-ro mark -> bottom top marks
 *   v below height draught                  -> v
 *   j file                                  -> number line rows
 *   q hull (27 numbers) a n b' b            -> rows lower upper */
#include "asking.h"
#include <string.h>

uint64_t probe_bottom(uint64_t kind, uint64_t lever, uint64_t range, uint64_t heel, int64_t opening, uint64_t given);
uint64_t probe_top(uint64_t kind, uint64_t lever, uint64_t range, uint64_t heel, int64_t opening, uint64_t given);
uint64_t probe_marks(uint64_t kind, uint64_t lever, uint64_t range, uint64_t heel, int64_t opening, uint64_t given);
uint64_t probe_passenger_bottom(uint64_t lever, uint64_t range, uint64_t heel, int64_t opening, uint64_t displacement, uint64_t moment,
                                uint64_t midlever, uint64_t midrange, uint64_t midheel, uint64_t roro);
uint64_t probe_passenger_top(uint64_t lever, uint64_t range, uint64_t heel, int64_t opening, uint64_t displacement, uint64_t moment,
                             uint64_t midlever, uint64_t midrange, uint64_t midheel, uint64_t roro);
uint64_t probe_passenger_marks(uint64_t lever, uint64_t range, uint64_t heel, int64_t opening, uint64_t displacement, uint64_t moment,
                               uint64_t midlever, uint64_t midrange, uint64_t midheel, uint64_t roro);
uint64_t probe_height(uint64_t below, uint64_t height, uint64_t draught);
uint64_t probe_number(const uint8_t *input, size_t length);
uint64_t probe_line(const uint8_t *input, size_t length);
uint64_t probe_rows(const uint8_t *input, size_t length);
size_t probe_shares(const uint64_t *hull, size_t numbers, const uint64_t *rows, size_t fields, uint64_t *out, size_t room);

/* A number with a sign, from the same eight bytes. */
static int64_t ask_signed(void) {
    uint64_t n = ask();
    int64_t with_sign;
    memcpy(&with_sign, &n, sizeof with_sign);
    return with_sign;
}

static void survival(void) {
    uint64_t kind = ask(), lever = ask(), range = ask(), heel = ask();
    int64_t opening = ask_signed();
    uint64_t given = ask();
    tell(probe_bottom(kind, lever, range, heel, opening, given));
    tell(probe_top(kind, lever, range, heel, opening, given));
    tell(probe_marks(kind, lever, range, heel, opening, given));
}

static void passenger_survival(void) {
    uint64_t lever = ask(), range = ask(), heel = ask();
    int64_t opening = ask_signed();
    uint64_t displacement = ask(), moment = ask(), midlever = ask(), midrange = ask(), midheel = ask(), roro = ask();
    tell(probe_passenger_bottom(lever, range, heel, opening, displacement, moment, midlever, midrange, midheel, roro));
    tell(probe_passenger_top(lever, range, heel, opening, displacement, moment, midlever, midrange, midheel, roro));
    tell(probe_passenger_marks(lever, range, heel, opening, displacement, moment, midlever, midrange, midheel, roro));
}

static void height(void) {
    uint64_t below = ask(), above = ask(), draught = ask();
    tell(probe_height(below, above, draught));
}

static void judgement(void) {
    size_t length;
    uint8_t *input = ask_file(&length);
    tell(probe_number(input, length));
    tell(probe_line(input, length));
    tell(probe_rows(input, length));
    free(input);
}

static void share(void) {
    uint64_t hull[27], row[4], out[2] = {0, 0};
    for (int i = 0; i < 27; i++) hull[i] = ask();
    for (int i = 0; i < 4; i++) row[i] = ask();
    tell(probe_shares(hull, 27, row, 4, out, 2));
    tell(out[0]);
    tell(out[1]);
}

int main(void) {
    for (int question; (question = getchar()) != EOF;) {
        if (question == 's') survival();
        else if (question == 'p') passenger_survival();
        else if (question == 'v') height();
        else if (question == 'j') judgement();
        else if (question == 'q') share();
        else return 2;
    }
    return 0;
}
