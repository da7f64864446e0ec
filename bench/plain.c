/* The notices and queries. */
#include "plain.h"
#include "plain_rows.h"

#include <string.h>

enum {
    AMOUNT_MOST = 1000000000,
    DAYS = LAST_DAY + 2, /* a registration may start on the day after the last */
    PERIOD = 425,
};

static int64_t least(int64_t a, int64_t b) {
    return a < b ? a : b;
}

static int64_t most(int64_t a, int64_t b) {
    return a > b ? a : b;
}

/* n > 0 */
static int64_t ceil_div(int64_t x, int64_t n) {
    return x / n + (x % n > 0);
}

/* ---- energy */

static int64_t *find_point(int64_t *table, int64_t mirn) {
    int64_t *p = table + HEADER_NUMBERS;
    for (int64_t i = 0; i < table[POINT_COUNT]; i++, p += stride(table))
        if (p[MIRN] == mirn)
            return p;
    return NULL;
}

/* The row of the record with this start, or the count of records. */
static int64_t find_record(const int64_t *p, int64_t start) {
    for (int64_t i = 0; i < p[RECORD_COUNT]; i++)
        if (records(p)[4 * i] == start)
            return i;
    return p[RECORD_COUNT];
}

static bool any_off(const int64_t *p, int64_t from, int64_t to) {
    for (const int64_t *s = spans(p); s < spans_end(p); s += 2)
        if (s[0] <= to && (s[1] == -1 || from < s[1]))
            return true;
    return false;
}

/* -1 if the point is off for good from there on. */
static int64_t append_day(const int64_t *p) {
    int64_t day = p[RECORD_COUNT] == 0 ? p[INSTALL] : records_end(p)[-3] + 1;
    for (const int64_t *s = spans(p); s < spans_end(p); s += 2)
        if (s[0] <= day && (s[1] == -1 || day < s[1]))
            return s[1];
    return day;
}

static int64_t refuse_record(const int64_t *table, const int64_t *p, int64_t row, int64_t start,
                             int64_t end, int64_t energy, int64_t confirmed) {
    int64_t range = table[NONDAILY + p[KIND]];
    bool append = row == p[RECORD_COUNT];
    if (p[KIND] == 0 ? start >= end : start != end)
        return 6;
    if (append && start != append_day(p))
        return 7;
    if (any_off(p, start, end))
        return 8;
    if (range >= 0 && confirmed == 0 && !within(energy, -range, range))
        return 9;
    if (append && row == edition_of(table)->records)
        return 16;
    return 0;
}

/* A pending request after an append that ends on this day. In section 1 only an actual reading
   registers. */
static void settle(int64_t *p, int64_t end, int64_t type, struct plain_energy *answer) {
    if (p[PENDING] == 0)
        return;
    if (within(end, p[FIRST], p[LAST])) {
        int64_t *next = p + REGISTRATION_ROWS + REGISTRATION_NUMBERS * p[REGISTRATION_COUNT];
        if (end + 1 <= next[-2] || (p[SECTION] == 1 && type != 0))
            return;
        next[0] = end + 1;
        next[1] = p[PENDING];
        p[REGISTRATION_COUNT]++;
        answer->user = p[PENDING];
    } else if (end > p[LAST]) {
        answer->lapsed = 1;
    } else {
        return;
    }
    p[PENDING] = p[FIRST] = p[LAST] = 0;
}

static struct plain_energy enter(int64_t *p, int64_t row, int64_t start, int64_t end,
                                 int64_t energy, int64_t type) {
    struct plain_energy answer = {0, 1, 0, 0, 0};
    int64_t *r = p + RECORD_ROWS + RECORD_NUMBERS * row;
    if (row == p[RECORD_COUNT]) {
        p[RECORD_COUNT]++;
    } else if (r[1] == end) {
        answer.which = 2;
    } else {
        answer.which = 3;
        answer.removed = p[RECORD_COUNT] - row - 1;
        memset(r + 4, 0, (size_t)answer.removed * 4 * sizeof *r);
        p[RECORD_COUNT] = row + 1;
    }
    r[0] = start;
    r[1] = end;
    r[2] = energy;
    r[3] = type;
    if (answer.which == 1)
        settle(p, end, type, &answer);
    return answer;
}

/* On a sound table; *point is the notice's point, or NULL. */
static struct plain_energy enter_in_sound(int64_t *table, int64_t **point, int64_t mirn,
                                          int64_t start, int64_t end, int64_t energy, int64_t type,
                                          int64_t confirmed) {
    *point = NULL;
    if (!within(mirn, 1, MIRN_MOST) || !is_day(start) || !is_day(end) ||
        !within(energy, -ENERGY_MOST, ENERGY_MOST) || !within(type, 0, 2) ||
        !within(confirmed, 0, 1))
        return (struct plain_energy){2, 0, 0, 0, 0};
    int64_t *p = *point = find_point(table, mirn);
    if (p == NULL)
        return (struct plain_energy){4, 0, 0, 0, 0};
    int64_t row = find_record(p, start);
    int64_t refusal = refuse_record(table, p, row, start, end, energy, confirmed);
    if (refusal != 0)
        return (struct plain_energy){refusal, 0, 0, 0, 0};
    return enter(p, row, start, end, energy, type);
}

struct plain_energy plain_energy(int64_t *table, size_t length, int64_t mirn, int64_t start,
                                 int64_t end, int64_t energy, int64_t type, int64_t confirmed) {
    int64_t *point;
    if (!plain_sound(table, length))
        return (struct plain_energy){1, 0, 0, 0, 0};
    return enter_in_sound(table, &point, mirn, start, end, energy, type, confirmed);
}

/* ---- trial */

static int64_t most_records(const int64_t *table) {
    int64_t records = 0;
    for (const int64_t *p = points(table); p < points_end(table); p += stride(table))
        records = most(records, p[RECORD_COUNT]);
    return records;
}

/* A notice changes the records of no point but its own. */
static void try_notice(int64_t *table, const int64_t *n, int64_t *answer,
                       struct plain_trial *trial) {
    int64_t *point;
    struct plain_energy e = enter_in_sound(table, &point, n[0], n[1], n[2], n[3], n[4], n[5]);
    answer[0] = e.refusal;
    answer[1] = e.which;
    answer[2] = e.removed;
    answer[3] = e.user;
    answer[4] = e.lapsed;
    trial->removed += e.removed;
    if (point != NULL)
        trial->most = most(trial->most, point[RECORD_COUNT]);
}

struct plain_trial plain_trial(const int64_t *table, size_t length, const int64_t *notices,
                               size_t notices_length, int64_t *answers, size_t answers_length,
                               int64_t count) {
    int64_t copy[REGISTER_NUMBERS];
    if (!plain_sound(table, length))
        return (struct plain_trial){1, 0, 0};
    if (!within(count, 0, NOTICES) || notices_length < NOTICE_NUMBERS * (size_t)count ||
        answers_length < ANSWER_NUMBERS * (size_t)count)
        return (struct plain_trial){2, 0, 0};
    struct plain_trial trial = {0, most_records(table), 0};
    memcpy(copy, table, sizeof copy);
    for (int64_t k = 0; k < count; k++)
        try_notice(copy, notices + NOTICE_NUMBERS * k, answers + ANSWER_NUMBERS * k, &trial);
    return trial;
}

/* ---- correct */

/* The FRO of each day. */
static void spread(const int64_t *p, int64_t *fro) {
    memset(fro, 0, DAYS * sizeof *fro);
    for (const int64_t *r = registrations(p); r < registrations_end(p); r += 2)
        for (int64_t d = r[0]; d < DAYS; d++)
            fro[d] = r[1];
}

/* Writes a point's registrations as the days have them; false where they are too many. */
static bool gather(int64_t *p, const int64_t *fro, int64_t rows_most) {
    int64_t rows[2 * REGISTRATIONS] = {0};
    int64_t count = 0;
    for (int64_t d = 0; d < DAYS; d++) {
        if (fro[d] == 0 || (d > 0 && fro[d] == fro[d - 1]))
            continue;
        if (count == rows_most)
            return false;
        rows[2 * count] = d;
        rows[2 * count + 1] = fro[d];
        count++;
    }
    memcpy(p + REGISTRATION_ROWS, rows, sizeof rows);
    p[REGISTRATION_COUNT] = count;
    return true;
}

static struct plain_correction correct_point(int64_t *p, int64_t user, int64_t day) {
    struct plain_correction answer = {21, {0}};
    int64_t fro[DAYS];
    bool stays = p[PENDING] != 0 && p[PENDING] != user;
    spread(p, fro);
    for (int64_t d = day; d < DAYS; d++) {
        if (fro[d] == user)
            continue;
        answer.refusal = 0;
        answer.flags[fro[d] - 1] = 1;
        fro[d] = user;
    }
    if (answer.refusal != 0)
        return answer;
    if (!gather(p, fro, stays ? REGISTRATIONS - 1 : REGISTRATIONS))
        return (struct plain_correction){16, {0}};
    if (!stays)
        p[PENDING] = p[FIRST] = p[LAST] = 0;
    return answer;
}

struct plain_correction plain_correct(int64_t *table, size_t length, int64_t mirn, int64_t user,
                                      int64_t day, int64_t notice) {
    if (!plain_sound(table, length))
        return (struct plain_correction){1, {0}};
    if (!within(mirn, 1, MIRN_MOST) || !within(user, 1, USERS) || !is_day(day) || !is_day(notice))
        return (struct plain_correction){2, {0}};
    int64_t *p = find_point(table, mirn);
    if (p == NULL)
        return (struct plain_correction){4, {0}};
    if (!within(day, most(p[INSTALL], notice - PERIOD), notice))
        return (struct plain_correction){20, {0}};
    return correct_point(p, user, day);
}

/* ---- account */

/* The energy of a record's first k days. */
static int64_t first_days(const int64_t *r, int64_t k) {
    return ceil_div(r[2] * k, r[1] - r[0] + 1);
}

/* The shares of the days from to to; *filled is set where a record has one of them. */
static int64_t shares_between(const int64_t *p, int64_t from, int64_t to, bool *filled) {
    int64_t sum = 0;
    if (from > to)
        return 0;
    for (const int64_t *r = records(p); r < records_end(p) && r[0] <= to; r += 4) {
        if (r[1] < from)
            continue;
        *filled = true;
        int64_t a = most(from, r[0]) - r[0];
        int64_t b = least(to, r[1]) - r[0] + 1;
        sum += first_days(r, b) - first_days(r, a);
    }
    return sum;
}

static int64_t registration_last(const int64_t *p, const int64_t *r) {
    return r + 2 < registrations_end(p) ? r[2] - 1 : LAST_DAY;
}

static int64_t refuse_account(const int64_t *table, size_t length, int64_t user, int64_t from,
                              int64_t to) {
    if (!plain_sound(table, length))
        return 1;
    return within(user, 1, USERS) && is_day(from) && is_day(to) && from <= to ? 0 : 2;
}

struct plain_account plain_account(const int64_t *table, size_t length, int64_t user, int64_t from,
                                   int64_t to) {
    struct plain_account answer = {refuse_account(table, length, user, from, to), 0};
    if (answer.refusal != 0)
        return answer;
    bool filled;
    for (const int64_t *p = points(table); p < points_end(table); p += stride(table))
        for (const int64_t *r = registrations(p); r < registrations_end(p); r += 2)
            if (r[1] == user)
                answer.sum += shares_between(p, most(from, r[0]),
                                             least(to, registration_last(p, r)), &filled);
    return answer;
}

static int64_t point_by_days(const int64_t *p, int64_t user, int64_t from, int64_t to) {
    const int64_t *r = records(p);
    const int64_t *u = registrations(p);
    int64_t sum = 0;
    for (int64_t day = most(from, p[INSTALL]); day <= to; day++) {
        while (r < records_end(p) && r[1] < day)
            r += 4;
        while (day > registration_last(p, u))
            u += 2;
        if (u[1] == user && r < records_end(p) && r[0] <= day)
            sum += first_days(r, day - r[0] + 1) - first_days(r, day - r[0]);
    }
    return sum;
}

struct plain_account plain_account_by_days(const int64_t *table, size_t length, int64_t user,
                                           int64_t from, int64_t to) {
    struct plain_account answer = {refuse_account(table, length, user, from, to), 0};
    if (answer.refusal != 0)
        return answer;
    for (const int64_t *p = points(table); p < points_end(table); p += stride(table))
        answer.sum += point_by_days(p, user, from, to);
    return answer;
}

/* ---- allocate */

static bool is_active(const int64_t *p, int64_t gasday) {
    return p[INSTALL] <= gasday && !any_off(p, gasday, gasday);
}

static bool is_filled(const int64_t *p, int64_t day) {
    bool filled = false;
    shares_between(p, day, day, &filled);
    return filled;
}

static bool all_filled(const int64_t *p, int64_t from, int64_t to) {
    for (int64_t day = from; day <= to; day++)
        if (!is_filled(p, day))
            return false;
    return true;
}

static int64_t share_of(const int64_t *p, int64_t day) {
    bool filled;
    return shares_between(p, day, day, &filled);
}

/* The day's reading of a daily point, or what stands in for it. */
static int64_t reading(const int64_t *p, int64_t gasday) {
    if (is_filled(p, gasday))
        return share_of(p, gasday);
    if (gasday >= 7 && all_filled(p, gasday - 7, gasday - 1))
        return share_of(p, gasday - 7);
    return gasday >= 1 ? share_of(p, gasday - 1) : 0;
}

/* What the split of the load goes by; a base load is for one day, and counts once over no days. */
static int64_t weight(const int64_t *p, int64_t from, int64_t to) {
    bool filled = false;
    int64_t sum = shares_between(p, from, to, &filled);
    return filled ? most(sum, 0) : p[BASE] * most(to - from + 1, 1);
}

static int64_t user_on(const int64_t *p, int64_t day) {
    const int64_t *r = registrations(p);
    while (day > registration_last(p, r))
        r += 2;
    return r[1];
}

static bool allocation_in_range(int64_t gasday, int64_t from, int64_t to, int64_t tdq, int64_t uag,
                                int64_t clp) {
    return is_day(gasday) && is_day(from) && is_day(to) && from <= to + 1 && to < gasday &&
           to - from < 400 && within(tdq, 0, AMOUNT_MOST) &&
           within(uag, -AMOUNT_MOST, AMOUNT_MOST) && within(clp, -AMOUNT_MOST, AMOUNT_MOST);
}

/* Splits nsl among the points by their weights, which add up to total. */
static void split(const int64_t *table, const int64_t *weights, int64_t total, int64_t gasday,
                  struct plain_allocation *answer, int64_t *shares) {
    const int64_t *p = points(table);
    int64_t before = 0;
    memset(shares, 0, SHARES * sizeof *shares);
    for (int64_t i = 0; i < table[POINT_COUNT]; i++, p += stride(table)) {
        if (weights[i] == 0)
            continue;
        shares[i] = answer->nsl * (before + weights[i]) / total - answer->nsl * before / total;
        before += weights[i];
        answer->totals[user_on(p, gasday) - 1] += shares[i];
    }
}

struct plain_allocation plain_allocate(const int64_t *table, size_t length, int64_t *shares,
                                       size_t shares_length, int64_t gasday, int64_t from,
                                       int64_t to, int64_t tdq, int64_t uag, int64_t clp) {
    struct plain_allocation answer = {0};
    int64_t weights[SHARES] = {0};
    int64_t total = 0;
    int64_t daily = 0;
    if (!plain_sound(table, length)) {
        answer.refusal = 1;
        return answer;
    }
    if (!allocation_in_range(gasday, from, to, tdq, uag, clp) || shares_length < SHARES) {
        answer.refusal = 2;
        return answer;
    }
    const int64_t *p = points(table);
    for (int64_t i = 0; i < table[POINT_COUNT]; i++, p += stride(table)) {
        if (!is_active(p, gasday))
            continue;
        if (p[KIND] == 1)
            daily += reading(p, gasday);
        else
            total += weights[i] = weight(p, from, to);
    }
    if (total == 0) {
        answer.refusal = 15;
        return answer;
    }
    answer.nsl = most(tdq - daily - uag - clp, 0);
    split(table, weights, total, gasday, &answer, shares);
    return answer;
}
