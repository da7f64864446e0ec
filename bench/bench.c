/* Compares the library with plain C, call by call, and then times both. It fails on unequal
   answers, tables or images, never on a time. */
#define _POSIX_C_SOURCE 199309L /* clock_gettime */
#include "compare.h"
#include "sides.h"

#include <inttypes.h>
#include <stdio.h>
#include <stdlib.h>
#include <string.h>
#include <time.h>

/* Many short batches: the least time is then one that no other program disturbed. */
enum { ROUNDS = 200, BATCH = 20, FEW = 2 };

/* ---- registers to time on */

struct filling {
    int64_t edition;
    int64_t points, records; /* records of each point */
    bool spans;              /* as many as a point has room for */
};

static void must_enter(int64_t refusal, const char *what) {
    if (refusal == 0)
        return;
    fprintf(stderr, "%s of a register to time on is refused: %" PRId64 "\n", what, refusal);
    exit(1);
}

static void turn_off_and_on(uint8_t *reg, int64_t mirn, int64_t day) {
    uint8_t answer[PETLUMAS_STATUS_ANSWER_BYTES];
    must_enter(petlumas_status(reg, BYTES, answer, sizeof answer, mirn, day, 0), "off");
    must_enter(petlumas_status(reg, BYTES, answer, sizeof answer, mirn, day + 1, 1), "on");
}

/* A point with all its records and registrations, in eight stretches: the first record of one ends
   a User's days, and a day off follows the last if there are spans. */
static void fill_point(uint8_t *reg, int64_t mirn, const struct filling *filling) {
    uint8_t answer[PETLUMAS_ENERGY_ANSWER_BYTES];
    uint8_t none[1] = {0};
    int64_t kind = mirn % 8 == 0;
    int64_t days = kind == 1 ? 1 : 39936 / filling->records;
    int64_t stretch = filling->records / SPANS;
    int64_t day = mirn % 7;
    must_enter(petlumas_open(reg, BYTES, answer, sizeof answer, mirn, kind, 1 + mirn % 16, day, -1,
                             mirn % 2, 1 + mirn % 4),
               "opening");
    for (int64_t k = 0; k < filling->records; k++) {
        int64_t end = day + days - 1;
        int64_t row = k / stretch + 1;
        if (k % stretch == 0 && row < REGISTRATIONS)
            must_enter(petlumas_request(reg, BYTES, answer, sizeof answer, none, 0, mirn,
                                        1 + (mirn + row) % 16, end < 14 ? 14 : end, 0),
                       "request");
        must_enter(petlumas_energy(reg, BYTES, answer, sizeof answer, mirn, day, end,
                                   1000 * mirn + 37 * k - 5000, 0, 1),
                   "record");
        day = end + 1;
        if (k % stretch == stretch - 1 && filling->spans)
            turn_off_and_on(reg, mirn, day++);
    }
}

/* Each notice of the batch replaces the last record of a full point, the points in turn; where
   there are no points it gets 4. */
static void make_batch(struct both *both, const struct edition *edition) {
    for (size_t k = 0; k < NOTICES; k++) {
        size_t point = k % (size_t)edition->points;
        const int64_t *last = both->table + point_place(edition, point + 1) - RECORD_NUMBERS;
        const int64_t notice[NOTICE_NUMBERS] = {(int64_t)point + 1, last[0], last[1], 77, 0, 1};
        for (size_t i = 0; i < NOTICE_NUMBERS; i++)
            put_number(both->notice_bytes, NOTICE_NUMBERS * k + i, notice[i]);
    }
    decode(both->notice_bytes, both->notices, NOTICE_NUMBERS * NOTICES);
}

static const int64_t saved_state[ARGS_MOST] = {1};

/* The same table and images for both sides. Every eighth point is daily, the others have records
   over nearly all days. */
static void make_register(struct both *both, const struct filling *filling) {
    uint8_t answer[PETLUMAS_FRESH_ANSWER_BYTES];
    must_enter(petlumas_fresh(both->bytes, BYTES, answer, sizeof answer, -1, -1, filling->edition),
               "start");
    for (int64_t mirn = 1; mirn <= filling->points; mirn++)
        fill_point(both->bytes, mirn, filling);
    decode(both->bytes, both->table, REGISTER_NUMBERS);
    make_batch(both, &editions[filling->edition]);
    must_enter(library_save(both->bytes, answer, both->library_image, saved_state), "image");
    must_enter(c_save(both->table, both->c_image, saved_state), "image in C");
}

/* ---- times */

/* A call to time. Both sides are compiled apart, so no call can be left out. */
typedef void timed(struct both *both, const int64_t *args);

static void time_library_energy(struct both *both, const int64_t *args) {
    uint8_t answer[PETLUMAS_ENERGY_ANSWER_BYTES];
    library_energy(both->bytes, answer, args);
}

static void time_c_energy(struct both *both, const int64_t *args) {
    c_energy(both->table, args);
}

static void time_library_trial(struct both *both, const int64_t *args) {
    uint8_t answer[PETLUMAS_TRIAL_ANSWER_BYTES];
    library_trial(both->bytes, answer, both->notice_bytes, both->answer_bytes, args);
}

static void time_c_trial(struct both *both, const int64_t *args) {
    c_trial(both->table, both->notices, both->answers, args);
}

/* What the trial tells, entered into a copy. */
static void time_library_entered(struct both *both, const int64_t *args) {
    uint8_t answer[PETLUMAS_ENERGY_ANSWER_BYTES];
    memcpy(both->other_bytes, both->bytes, BYTES);
    for (int64_t k = 0; k < args[0]; k++)
        library_energy(both->other_bytes, answer, both->notices + NOTICE_NUMBERS * k);
}

/* As many calls that get 2. */
static void time_library_refused(struct both *both, const int64_t *args) {
    const int64_t no_notice[NOTICE_NUMBERS] = {0};
    uint8_t answer[PETLUMAS_ENERGY_ANSWER_BYTES];
    for (int64_t k = 0; k < args[0]; k++)
        library_energy(both->other_bytes, answer, no_notice);
}

static void time_library_account(struct both *both, const int64_t *args) {
    uint8_t answer[PETLUMAS_ACCOUNT_ANSWER_BYTES];
    library_account(both->bytes, answer, args);
}

static void time_c_account(struct both *both, const int64_t *args) {
    c_account(both->table, args);
}

static void time_c_account_by_days(struct both *both, const int64_t *args) {
    c_account_by_days(both->table, args);
}

static void time_library_allocate(struct both *both, const int64_t *args) {
    uint8_t answer[PETLUMAS_ALLOCATE_ANSWER_BYTES];
    uint8_t shares[PETLUMAS_ALLOCATE_TABLE_BYTES];
    library_allocate(both->bytes, answer, shares, args);
}

static void time_c_allocate(struct both *both, const int64_t *args) {
    int64_t shares[SHARES];
    c_allocate(both->table, shares, args);
}

static void time_library_save(struct both *both, const int64_t *args) {
    uint8_t answer[PETLUMAS_SAVE_ANSWER_BYTES];
    library_save(both->bytes, answer, both->library_image, args);
}

static void time_c_save(struct both *both, const int64_t *args) {
    c_save(both->table, both->c_image, args);
}

static void time_library_restore(struct both *both, const int64_t *args) {
    uint8_t answer[PETLUMAS_RESTORE_ANSWER_BYTES];
    library_restore(both->bytes, answer, both->library_image, args);
}

static void time_c_restore(struct both *both, const int64_t *args) {
    c_restore(both->table, both->c_image, args);
}

static void time_library_convert(struct both *both, const int64_t *args) {
    uint8_t answer[PETLUMAS_CONVERT_ANSWER_BYTES];
    (void)args;
    library_convert(both->bytes, answer, both->other_bytes);
}

static void time_c_convert(struct both *both, const int64_t *args) {
    (void)args;
    c_convert(both->table, both->other_table);
}

/* Processor time, so that other programs count for little. */
static double now(void) {
    struct timespec t;
    if (clock_gettime(CLOCK_PROCESS_CPUTIME_ID, &t) != 0) {
        perror("bench");
        exit(2);
    }
    return (double)t.tv_sec * 1e6 + (double)t.tv_nsec / 1e3;
}

/* Microseconds a call over one batch. */
static double time_batch(timed *call, struct both *both, const int64_t *args, int calls) {
    double start = now();
    for (int k = 0; k < calls; k++)
        call(both, args);
    return (now() - start) / calls;
}

struct pair {
    double first, second;
};

/* The least time of each of two calls, batch by batch in turn. */
static struct pair time_pair(timed *first, const int64_t *first_args, timed *second,
                             const int64_t *second_args, struct both *both, int calls) {
    struct pair least = {1e18, 1e18};
    for (int round = 0; round < ROUNDS; round++) {
        double a = time_batch(first, both, first_args, calls);
        double b = time_batch(second, both, second_args, calls);
        least.first = a < least.first ? a : least.first;
        least.second = b < least.second ? b : least.second;
    }
    return least;
}

static void print_row(const char *what, struct pair time) {
    printf("  %-50s %9.2f %9.2f %7.2f\n", what, time.first, time.second, time.first / time.second);
}

static void print_head(const char *what) {
    printf("\n%-52s %9s %9s %7s\n", what, "library", "plain C", "ratio");
}

static const int64_t all_notices[ARGS_MOST] = {NOTICES};

static void time_against_c(struct both *both) {
    const struct edition *edition = &editions[both->table[EDITION]];
    const int64_t account[ARGS_MOST] = {1, 0, 39999};
    const int64_t allocate[ARGS_MOST] = {20000, 19600, 19999, 1000000000, 0, 0};
    /* A replacement of the last record of the last point but one, where there is one. */
    const int64_t *record =
        both->table + point_place(edition, (size_t)edition->points - 1) - RECORD_NUMBERS;
    const int64_t notice[ARGS_MOST] = {edition->points - 1, record[0], record[1], 77, 0, 1};
    print_row("energy", time_pair(time_library_energy, notice, time_c_energy, notice, both, BATCH));
    print_row("trial of 100 notices",
              time_pair(time_library_trial, all_notices, time_c_trial, all_notices, both, BATCH));
    print_row("account over days 0 to 39,999",
              time_pair(time_library_account, account, time_c_account, account, both, BATCH));
    print_row("allocate over 400 days",
              time_pair(time_library_allocate, allocate, time_c_allocate, allocate, both, BATCH));
    print_row("save",
              time_pair(time_library_save, saved_state, time_c_save, saved_state, both, BATCH));
    print_row("restore", time_pair(time_library_restore, saved_state, time_c_restore, saved_state,
                                   both, BATCH));
}

/* A call that gets 2 ends after its soundness test, so it shows what the rest of a call takes. A
   trial is to take no longer than three calls and the rests of a hundred. */
static void time_trial(struct both *both) {
    struct pair trial =
        time_pair(time_library_trial, all_notices, time_library_entered, all_notices, both, FEW);
    struct pair calls =
        time_pair(time_library_entered, all_notices, time_library_refused, all_notices, both, FEW);
    double bound = 3 * calls.first / NOTICES + calls.first - calls.second;
    printf("  library's trial of 100 notices %.2f, 100 energy calls of these %.2f, %.0f times\n",
           trial.first, trial.second, trial.second / trial.first);
    printf("  library's energy of these %.2f a call, refused with 2 %.2f\n", calls.first / NOTICES,
           calls.second / NOTICES);
    printf("  library's trial %.2f, three of these calls and the rests of all %.2f, ratio %.2f\n",
           trial.first, bound, trial.first / bound);
}

static void time_days(struct both *both) {
    const int64_t all_days[ARGS_MOST] = {1, 0, 39999};
    const int64_t one_day[ARGS_MOST] = {1, 20000, 20000};
    const int64_t window[ARGS_MOST] = {1, 19600, 19999};
    const int64_t allocate[ARGS_MOST] = {20000, 19600, 19999, 1000000000, 0, 0};
    struct pair walk =
        time_pair(time_library_account, all_days, time_c_account_by_days, all_days, both, FEW);
    struct pair span =
        time_pair(time_library_account, all_days, time_library_account, one_day, both, BATCH);
    struct pair three =
        time_pair(time_library_allocate, allocate, time_library_account, window, both, BATCH);
    printf("  library's account of all days %.2f, a C loop over the days %.2f, %.0f times\n",
           walk.first, walk.second, walk.second / walk.first);
    printf("  library's account of all days %.2f, of one day %.2f, ratio %.2f\n", span.first,
           span.second, span.first / span.second);
    printf("  library's allocate over 400 days %.2f, three accounts of these %.2f, ratio %.2f\n",
           three.first, 3 * three.second, three.first / (3 * three.second));
}

static void time_edition(struct both *both, const char *name, int64_t edition) {
    const struct edition *room = &editions[edition];
    struct filling filling = {edition, room->points, room->records, false};
    char what[80];
    for (int k = 0; k < 2; k++) {
        filling.spans = k == 1;
        make_register(both, &filling);
        snprintf(what, sizeof what, "%s: full, %" PRId64 " points of %" PRId64 " records%s", name,
                 room->points, room->records, filling.spans ? ", 8 spans" : "");
        print_head(what);
        time_against_c(both);
        time_trial(both);
        time_days(both);
    }
    make_register(both, &(struct filling){edition, 0, 0, false});
    snprintf(what, sizeof what, "%s: empty", name);
    print_head(what);
    time_against_c(both);
}

static void time_conversion(const char *what, struct both *both, const struct filling *filling) {
    const int64_t none[ARGS_MOST] = {0};
    uint8_t answer[PETLUMAS_CONVERT_ANSWER_BYTES];
    make_register(both, filling);
    must_enter(library_convert(both->bytes, answer, both->other_bytes), "conversion");
    print_row(what, time_pair(time_library_convert, none, time_c_convert, none, both, BATCH));
}

/* As many points and records as both editions hold, and none. */
static void time_conversions(struct both *both) {
    int64_t points = editions[LONG].points;
    int64_t records = editions[STANDARD].records;
    print_head("convert");
    time_conversion("16 points of 48 records, to long", both,
                    &(struct filling){STANDARD, points, records, false});
    time_conversion("16 points of 48 records, to standard", both,
                    &(struct filling){LONG, points, records, false});
    time_conversion("16 points of 48 records, 8 spans, to long", both,
                    &(struct filling){STANDARD, points, records, true});
    time_conversion("16 points of 48 records, 8 spans, to standard", both,
                    &(struct filling){LONG, points, records, true});
    time_conversion("empty, to long", both, &(struct filling){STANDARD, 0, 0, false});
    time_conversion("empty, to standard", both, &(struct filling){LONG, 0, 0, false});
}

int main(int argc, char **argv) {
    static struct both both; /* large for a stack */
    uint64_t seed = argc > 1 ? strtoull(argv[1], NULL, 10) : 20790707;
    printf("seed %" PRIu64 "\n", seed);
    compare(seed, 80, 100);
    puts("\nmicroseconds a call, the least of many short batches");
    time_edition(&both, "standard", STANDARD);
    time_edition(&both, "long", LONG);
    time_conversions(&both);
    return 0;
}
