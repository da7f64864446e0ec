#include "batches.h"

#include "petlumas.h"
#include "places.h"
#include "words.h"

int64_t judge_batch(int64_t count, size_t notices_length, size_t answers_length) {
    if (count < 0 || count > NOTICES || notices_length / 8 < NOTICE_NUMBERS * (size_t)count ||
        answers_length / 8 < ANSWER_NUMBERS * (size_t)count)
        return 2;
    return 0;
}

static int64_t most_records(const uint8_t *reg) {
    const struct edition *edition = &editions[get_number(reg, EDITION)];
    int64_t most = 0;
    for (size_t i = 0; i < (size_t)get_number(reg, POINT_COUNT); i++) {
        int64_t records = get_number(reg, point_place(edition, i) + RECORD_COUNT);
        if (records > most)
            most = records;
    }
    return most;
}

static void enter(uint8_t *reg, const uint8_t *notice, uint8_t *answer) {
    petlumas_energy(reg, PETLUMAS_REGISTER_BYTES, answer, PETLUMAS_ENERGY_ANSWER_BYTES,
                    get_number(notice, 0), get_number(notice, 1), get_number(notice, 2),
                    get_number(notice, 3), get_number(notice, 4), get_number(notice, 5));
}

struct counted enter_batch(uint8_t *reg, const uint8_t *notices, uint8_t *answers, size_t count) {
    struct counted counted = {most_records(reg), 0};
    for (size_t k = 0; k < count; k++) {
        uint8_t *answer = answers + 8 * ANSWER_NUMBERS * k;
        enter(reg, notices + 8 * NOTICE_NUMBERS * k, answer);
        int64_t records = most_records(reg);
        if (records > counted.most)
            counted.most = records;
        counted.removed += get_number(answer, 2);
    }
    return counted;
}
