/* Boundary cases of the two editions: their room, their reserves, conversions there and back, and
   images of one restored over the other. */
#include "checks.h"
#include "conversions.h"
#include "functions.h"
#include "places.h"
#include "words.h"

#include <string.h>

enum { BYTES = PETLUMAS_REGISTER_BYTES, PAST_BYTES = 8, FILL = 0xaa };

static bool is_filled(const uint8_t *from, const uint8_t *to) {
    while (from < to)
        if (*from++ != FILL)
            return false;
    return true;
}

/* ---- calls with an answer of their own */

static int64_t fresh(uint8_t *reg, int64_t edition) {
    uint8_t answer[PETLUMAS_FRESH_ANSWER_BYTES];
    return petlumas_fresh(reg, BYTES, answer, sizeof answer, -1, 5, edition);
}

static int64_t open_point(uint8_t *reg, int64_t mirn, int64_t operator_) {
    uint8_t answer[PETLUMAS_OPEN_ANSWER_BYTES];
    return petlumas_open(reg, BYTES, answer, sizeof answer, mirn, 1, 1, 0, -1, mirn % 2, operator_);
}

/* A daily record. */
static int64_t enter(uint8_t *reg, int64_t mirn, int64_t day) {
    uint8_t answer[PETLUMAS_ENERGY_ANSWER_BYTES];
    return petlumas_energy(reg, BYTES, answer, sizeof answer, mirn, day, day, day - 50, 0, 1);
}

/* ---- registers */

/* So many points, by turns of the operators 1 to 4. */
static void open_points(uint8_t *reg, int64_t edition, int64_t points) {
    expect(fresh(reg, edition), 0, "fresh");
    for (int64_t mirn = 1; mirn <= points; mirn++)
        expect(open_point(reg, mirn, 1 + mirn % OPERATORS), 0, "opening");
}

/* One point with so many records. */
static void enter_records(uint8_t *reg, int64_t edition, int64_t records) {
    open_points(reg, edition, 1);
    for (int64_t day = 0; day < records; day++)
        expect(enter(reg, 1, day), 0, "record");
}

/* ---- conversions */

/* Into bytes of one kind; every byte that is lent is looked at. What is made is copied to other, if
   that is one. */
static int64_t convert(const uint8_t *reg, uint8_t *other, size_t length) {
    static uint8_t before[BYTES], lent[BYTES + PAST_BYTES], expected[BYTES];
    uint8_t answer[PETLUMAS_CONVERT_ANSWER_BYTES];
    memcpy(before, reg, BYTES);
    memset(lent, FILL, sizeof lent);
    int64_t result = petlumas_convert(reg, BYTES, answer, sizeof answer, lent, length);
    expect(get_number(answer, 0), result, "a conversion's answer");
    expect(memcmp(reg, before, BYTES), 0, "the converted register changed");
    expect(is_filled(lent + (result == 0 ? BYTES : 0), lent + sizeof lent), true, "other bytes");
    if (result != 1)
        expect(result, judge_room(reg), "a conversion beside its judge");
    if (result != 0)
        return result;
    write_converted(expected, reg);
    expect(memcmp(lent, expected, BYTES), 0, "not the register in the other edition");
    if (other != NULL)
        memcpy(other, lent, BYTES);
    return 0;
}

/* What conversions there and back must leave: every operator named. */
static void name_operators(uint8_t *reg) {
    const struct edition *edition = &editions[get_number(reg, EDITION)];
    for (size_t i = 0; i < (size_t)get_number(reg, POINT_COUNT); i++)
        if (get_number(reg, point_place(edition, i) + OPERATOR) == 0)
            put_number(reg, point_place(edition, i) + OPERATOR, 1);
}

static void convert_there_and_back(uint8_t *reg) {
    static uint8_t there[BYTES], back[BYTES];
    expect(convert(reg, there, BYTES), 0, "conversion there");
    expect(get_number(there, EDITION), LONG - get_number(reg, EDITION), "edition there");
    expect(convert(there, back, BYTES + PAST_BYTES), 0, "conversion back");
    name_operators(reg);
    expect(memcmp(back, reg, BYTES), 0, "there and back");
}

/* ---- cases of an edition */

static void test_fresh(int64_t edition) {
    static const int64_t none[] = {-1, EDITIONS, INT64_MIN, INT64_MAX, INT64_C(1) << 32};
    static uint8_t reg[BYTES], expected[BYTES];
    memset(reg, FILL, BYTES);
    for (size_t k = 0; k < sizeof none / sizeof *none; k++)
        expect(fresh(reg, none[k]), 2, "fresh of no edition");
    expect(is_filled(reg, reg + BYTES), true, "a refused fresh wrote");
    expect(fresh(reg, edition), 0, "fresh");
    put_number(expected, NONDAILY, -1);
    put_number(expected, DAILY, 5);
    put_number(expected, EDITION, edition);
    expect(memcmp(reg, expected, BYTES), 0, "not a fresh register");
    convert_there_and_back(reg);
}

/* What no header has; points of one edition are unsound in the other. */
static void test_header(int64_t edition) {
    static uint8_t reg[BYTES], other[BYTES];
    open_points(reg, edition, 3);
    for (size_t place = EDITION; place < HEADER_NUMBERS; place++) {
        int64_t found = get_number(reg, place);
        for (int64_t n = -1; n <= EDITIONS; n++) {
            put_number(reg, place, n);
            expect(is_sound(reg, BYTES), n == found, "soundness by the header");
            expect(convert(reg, other, BYTES), n == found ? 0 : 1, "conversion by the header");
        }
        put_number(reg, place, found);
    }
}

static void test_points(int64_t edition) {
    static uint8_t reg[BYTES];
    open_points(reg, edition, editions[edition].points);
    expect(open_point(reg, 99, 1), 16, "a point more than there is room for");
    expect(is_sound(reg, BYTES), true, "all points");
}

static void test_records(int64_t edition) {
    static uint8_t reg[BYTES];
    int64_t records = editions[edition].records;
    enter_records(reg, edition, records);
    expect(enter(reg, 1, records), 16, "a record more than there is room for");
    expect(enter(reg, 1, records - 1), 0, "a replacement at a full point");
    expect(is_sound(reg, BYTES), true, "all records");
}

/* Operator 4 opens what it can, then the others their reserves. */
static void test_reserves(int64_t edition) {
    static uint8_t reg[BYTES];
    const struct edition *e = &editions[edition];
    int64_t mirn = 1;
    expect(fresh(reg, edition), 0, "fresh");
    while (mirn <= e->points - (OPERATORS - 1) * e->reserve)
        expect(open_point(reg, mirn++, 4), 0, "an opening before the others' reserves");
    expect(open_point(reg, mirn, 4), 19, "an opening of others' reserves");
    for (int64_t operator_ = 1; operator_ < 4; operator_++)
        for (int64_t k = 0; k < e->reserve; k++)
            expect(open_point(reg, mirn++, operator_), 0, "an opening of the own reserve");
    expect(open_point(reg, mirn, 1), 16, "a point past all reserves");
}

/* ---- cases of a conversion */

static void test_room_for_points(void) {
    static uint8_t reg[BYTES];
    for (int64_t points = 0; points <= editions[STANDARD].points; points++) {
        open_points(reg, STANDARD, points);
        if (points <= editions[LONG].points)
            convert_there_and_back(reg);
        else
            expect(convert(reg, NULL, BYTES), 22, "too many points");
    }
    open_points(reg, LONG, editions[LONG].points);
    convert_there_and_back(reg);
}

static void test_room_for_records(void) {
    static uint8_t reg[BYTES], other[BYTES];
    int64_t records = editions[STANDARD].records;
    enter_records(reg, LONG, records);
    convert_there_and_back(reg);
    for (int64_t day = records; day < editions[LONG].records; day++) {
        expect(enter(reg, 1, day), 0, "record");
        expect(convert(reg, NULL, BYTES), 22, "too many records");
    }
    enter_records(reg, STANDARD, records);
    convert_there_and_back(reg);
    expect(enter(reg, 1, records), 16, "49th record in the standard edition");
    expect(convert(reg, other, BYTES), 0, "conversion of a full point");
    expect(enter(other, 1, records), 0, "49th record in the long edition");
}

/* Of 16 points 10 may be one operator's: the reserves of the others are 6. In an older register all
   are operator 1's. */
static void test_room_for_reserves(bool older) {
    static uint8_t reg[BYTES];
    const struct edition *from = &editions[STANDARD];
    expect(fresh(reg, STANDARD), 0, "fresh");
    for (int64_t mirn = 1; mirn <= 14; mirn++) {
        int64_t operator_ = mirn <= 11 ? 1 : 2;
        expect(open_point(reg, mirn, operator_), 0, "opening");
        if (older && operator_ == 1)
            put_number(reg, point_place(from, (size_t)mirn - 1) + OPERATOR, 0);
        if (mirn > 10)
            expect(convert(reg, NULL, BYTES), 22, "too few points left for the reserves");
        else
            expect(convert(reg, NULL, BYTES), 0, "points left for the reserves");
    }
}

static void test_older(int64_t edition) {
    static uint8_t reg[BYTES];
    const struct edition *e = &editions[edition];
    open_points(reg, edition, 10);
    for (size_t i = 0; i < 10; i++)
        put_number(reg, point_place(e, i) + OPERATOR, 0);
    convert_there_and_back(reg);
}

/* With a short buffer the other register is as it was, which convert looks at. */
static void test_lengths(int64_t edition) {
    static uint8_t reg[BYTES], other[BYTES];
    uint8_t answer[PETLUMAS_CONVERT_ANSWER_BYTES];
    size_t few = sizeof answer - 1;
    memset(other, FILL, BYTES);
    memset(answer, FILL, sizeof answer);
    open_points(reg, edition, 3);
    expect(convert(reg, NULL, BYTES - 1), 1, "an other register too short");
    expect(convert(reg, NULL, 0), 1, "an empty other register");
    expect(petlumas_convert(reg, BYTES, answer, few, other, BYTES), 2, "a short answer");
    expect(petlumas_convert(reg, BYTES, answer, few, other, BYTES - 1), 1, "both short");
    expect(petlumas_convert(reg, BYTES - 1, answer, few, other, BYTES), 1, "register and answer");
    put_number(reg, HEADER_SPARE, 1);
    expect(petlumas_convert(reg, BYTES, answer, few, other, BYTES), 1, "unsound, short answer");
    enter_records(reg, LONG, 49);
    expect(petlumas_convert(reg, BYTES, answer, few, other, BYTES), 2, "no room, short answer");
    expect(is_filled(other, other + BYTES), true, "a short answer, and the other was written");
    expect(is_filled(answer, answer + sizeof answer), true, "a short answer was written");
    expect(petlumas_convert(reg, BYTES - 1, answer, sizeof answer, other, BYTES), 1, "short");
    expect(is_filled(other, other + BYTES), true, "the other of a short register was written");
}

/* ---- both editions */

/* An image of either, over a register of the other. */
static void test_images(int64_t edition) {
    static uint8_t reg[BYTES], other[BYTES], image[PETLUMAS_IMAGE_BYTES];
    uint8_t answer[PETLUMAS_RESTORE_ANSWER_BYTES];
    open_points(reg, edition, editions[edition].points);
    enter_records(other, LONG - edition, 30);
    expect(petlumas_save(reg, BYTES, answer, sizeof answer, image, sizeof image, 3), 0, "save");
    expect(petlumas_restore(other, BYTES, answer, sizeof answer, image, sizeof image, 3), 0,
           "restore over the other edition");
    expect(memcmp(other, reg, BYTES), 0, "not the image's register");
    expect(open_point(other, 99, 1), 16, "a point more, after a restore");
    expect(enter(other, 1, 0), 0, "a record, after a restore");
}

/* The accounts of all Users over some days, and an allocation. */
enum { ASKED_BYTES = 1 << 10 };

static void ask(struct chance *c, const uint8_t *reg, uint8_t *answers) {
    int64_t args[ARGS_MOST];
    memset(answers, 0, ASKED_BYTES);
    choose_allocate(c, args);
    petlumas_allocate(reg, BYTES, answers, PETLUMAS_ALLOCATE_ANSWER_BYTES, answers + 144,
                      PETLUMAS_ALLOCATE_TABLE_BYTES, args[0], args[1], args[2], args[3], args[4],
                      args[5]);
    choose_account(c, args);
    for (int64_t user = 1; user <= 16; user++)
        petlumas_account(reg, BYTES, answers + 400 + 16 * user, PETLUMAS_ACCOUNT_ANSWER_BYTES, user,
                         args[1], args[2]);
}

/* The same answers from both; so many conversions of registers by chance. */
static void test_answers(int64_t edition, int conversions) {
    static struct chance chance = {.random = 20790707}, same;
    static uint8_t other[BYTES];
    uint8_t asked[ASKED_BYTES], answered[ASKED_BYTES];
    while (conversions > 0) {
        start_register(&chance, edition);
        if (judge_room(chance.reg) != 0)
            continue;
        conversions--;
        expect(convert(chance.reg, other, BYTES), 0, "conversion of a register by chance");
        for (int k = 0; k < 20; k++) {
            same = chance;
            ask(&same, other, answered);
            ask(&chance, chance.reg, asked);
            expect(memcmp(asked, answered, ASKED_BYTES), 0, "another answer after a conversion");
        }
    }
}

int main(void) {
    for (int64_t edition = STANDARD; edition < EDITIONS; edition++) {
        test_fresh(edition);
        test_header(edition);
        test_points(edition);
        test_records(edition);
        test_reserves(edition);
        test_older(edition);
        test_lengths(edition);
        test_images(edition);
        test_answers(edition, 30);
    }
    test_room_for_points();
    test_room_for_records();
    test_room_for_reserves(false);
    test_room_for_reserves(true);
    print_checks("editions");
    return 0;
}
