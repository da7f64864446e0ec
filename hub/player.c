#include "player.h"

#include "petlumas.h"

#include <inttypes.h>
#include <stdlib.h>
#include <string.h>

/* A call's numbers as the line gives them. */
struct numbers {
    const int64_t *at;
    size_t count;
};

/* Plays a call; false if its numbers are no such call's. */
typedef bool play_call(struct player *player, struct numbers n);

struct call {
    const char *name;
    size_t count; /* of its numbers; ANY if the call looks itself */
    play_call *play;
};

enum { ANY = LINE_NUMBERS + 1 };

void start_player(struct player *player, FILE *out) {
    memset(player->buffer, 0, sizeof player->buffer);
    for (size_t k = 0; k < PAST_NUMBERS; k++)
        put_number(player->buffer, REGISTER_NUMBERS + k, 1000 + (int64_t)k);
    memset(player->images, 0, sizeof player->images);
    player->lent = REGISTER_NUMBERS;
    player->shares = SHARES;
    player->out = out;
}

static size_t lent_bytes(const struct player *player) {
    return 8 * player->lent;
}

static bool is_length(int64_t n, int64_t most) {
    return 0 <= n && n <= most;
}

static bool is_image(int64_t n) {
    return 0 <= n && n < IMAGES;
}

/* ---- buffers of any length, each of its own exact size on the heap, so that a memory checker sees
   every access outside */

struct bytes {
    uint8_t *at;
    size_t length;
};

static struct bytes make_bytes(int64_t length) {
    struct bytes b = {malloc(length == 0 ? 1 : (size_t)length), (size_t)length};
    if (b.at == NULL) {
        perror("hub");
        exit(2);
    }
    memset(b.at, 0xaa, b.length);
    return b;
}

/* So that what a call leaves alone shows. */
static void fill_numbers(uint8_t *bytes, size_t count, int64_t number) {
    for (size_t k = 0; k < count; k++)
        put_number(bytes, k, number);
}

/* ---- rows */

static void print_numbers(FILE *out, const uint8_t *bytes, size_t count) {
    for (size_t k = 0; k < count; k++)
        fprintf(out, "%s%" PRId64, k == 0 ? "" : " ", get_number(bytes, k));
}

static bool print_answer(const struct player *player, const uint8_t *answer, size_t count) {
    print_numbers(player->out, answer, count);
    putc('\n', player->out);
    return true;
}

/* An answer, then all numbers of a table. */
static bool print_answer_and_table(const struct player *player, const uint8_t *answer, size_t count,
                                   const uint8_t *table, size_t numbers) {
    print_numbers(player->out, answer, count);
    if (numbers > 0)
        putc(' ', player->out);
    return print_answer(player, table, numbers);
}

static bool print_done(const struct player *player) {
    fputs("0\n", player->out);
    return true;
}

struct sums {
    uint64_t s1, s2;
};

/* The sum of the numbers and the sum of the running sums, modulo 2^64. */
static struct sums sum_numbers(const uint8_t *bytes, size_t count) {
    struct sums sums = {0, 0};
    for (size_t k = 0; k < count; k++) {
        sums.s1 += (uint64_t)get_number(bytes, k);
        sums.s2 += sums.s1;
    }
    return sums;
}

/* The same of bytes, each a number. */
static struct sums sum_bytes(const uint8_t *bytes, size_t count) {
    struct sums sums = {0, 0};
    for (size_t k = 0; k < count; k++) {
        sums.s1 += bytes[k];
        sums.s2 += sums.s1;
    }
    return sums;
}

/* ---- calls on the lent numbers */

static bool play_fresh(struct player *p, struct numbers n) {
    uint8_t answer[PETLUMAS_FRESH_ANSWER_BYTES];
    petlumas_fresh(p->buffer, lent_bytes(p), answer, sizeof answer, n.at[0], n.at[1], n.at[2]);
    return print_answer(p, answer, sizeof answer / 8);
}

static bool play_open(struct player *p, struct numbers n) {
    uint8_t answer[PETLUMAS_OPEN_ANSWER_BYTES];
    petlumas_open(p->buffer, lent_bytes(p), answer, sizeof answer, n.at[0], n.at[1], n.at[2],
                  n.at[3], n.at[4], n.at[5], n.at[6]);
    return print_answer(p, answer, sizeof answer / 8);
}

static bool play_energy(struct player *p, struct numbers n) {
    uint8_t answer[PETLUMAS_ENERGY_ANSWER_BYTES];
    petlumas_energy(p->buffer, lent_bytes(p), answer, sizeof answer, n.at[0], n.at[1], n.at[2],
                    n.at[3], n.at[4], n.at[5]);
    return print_answer(p, answer, sizeof answer / 8);
}

/* The count of notices, the room for answers, and the table of notices. */
static bool play_trial(struct player *p, struct numbers n) {
    uint8_t answer[PETLUMAS_TRIAL_ANSWER_BYTES];
    if (n.count < 2 || n.count > 2 + BATCH_MOST || !is_length(n.at[1], ANSWERS_MOST))
        return false;
    struct bytes notices = make_bytes(8 * (int64_t)(n.count - 2));
    struct bytes answers = make_bytes(8 * n.at[1]);
    for (size_t k = 0; k < n.count - 2; k++)
        put_number(notices.at, k, n.at[2 + k]);
    fill_numbers(answers.at, answers.length / 8, -7);
    petlumas_trial(p->buffer, lent_bytes(p), answer, sizeof answer, notices.at, notices.length,
                   answers.at, answers.length, n.at[0]);
    print_answer_and_table(p, answer, sizeof answer / 8, answers.at, answers.length / 8);
    free(notices.at);
    free(answers.at);
    return true;
}

static bool play_status(struct player *p, struct numbers n) {
    uint8_t answer[PETLUMAS_STATUS_ANSWER_BYTES];
    petlumas_status(p->buffer, lent_bytes(p), answer, sizeof answer, n.at[0], n.at[1], n.at[2]);
    return print_answer(p, answer, sizeof answer / 8);
}

/* MIRN, User, proposed day, no-change, and a list of holidays with its count in front. */
static bool play_request(struct player *p, struct numbers n) {
    uint8_t holidays[8 * LINE_NUMBERS];
    uint8_t answer[PETLUMAS_REQUEST_ANSWER_BYTES];
    if (n.count < 5 || n.at[4] < 0 || (uint64_t)n.at[4] != n.count - 5)
        return false;
    size_t count = n.count - 5;
    for (size_t k = 0; k < count; k++)
        put_number(holidays, k, n.at[5 + k]);
    petlumas_request(p->buffer, lent_bytes(p), answer, sizeof answer, holidays, 8 * count, n.at[0],
                     n.at[1], n.at[2], n.at[3]);
    return print_answer(p, answer, sizeof answer / 8);
}

static bool play_withdraw(struct player *p, struct numbers n) {
    uint8_t answer[PETLUMAS_WITHDRAW_ANSWER_BYTES];
    petlumas_withdraw(p->buffer, lent_bytes(p), answer, sizeof answer, n.at[0], n.at[1]);
    return print_answer(p, answer, sizeof answer / 8);
}

static bool play_correct(struct player *p, struct numbers n) {
    uint8_t answer[PETLUMAS_CORRECT_ANSWER_BYTES];
    petlumas_correct(p->buffer, lent_bytes(p), answer, sizeof answer, n.at[0], n.at[1], n.at[2],
                     n.at[3]);
    return print_answer(p, answer, sizeof answer / 8);
}

static bool play_account(struct player *p, struct numbers n) {
    uint8_t answer[PETLUMAS_ACCOUNT_ANSWER_BYTES];
    petlumas_account(p->buffer, lent_bytes(p), answer, sizeof answer, n.at[0], n.at[1], n.at[2]);
    return print_answer(p, answer, sizeof answer / 8);
}

static bool play_allocate(struct player *p, struct numbers n) {
    uint8_t answer[PETLUMAS_ALLOCATE_ANSWER_BYTES];
    uint8_t table[8 * SHARES_MOST];
    fill_numbers(table, p->shares, -7);
    petlumas_allocate(p->buffer, lent_bytes(p), answer, sizeof answer, table, 8 * p->shares,
                      n.at[0], n.at[1], n.at[2], n.at[3], n.at[4], n.at[5]);
    return print_answer_and_table(p, answer, sizeof answer / 8, table, p->shares);
}

/* Save's and restore's numbers: the state, the image's buffer, how many of its bytes are lent. */
static bool lends_image(struct numbers n) {
    return is_image(n.at[1]) && is_length(n.at[2], IMAGE_BUFFER_BYTES);
}

static bool play_save(struct player *p, struct numbers n) {
    uint8_t answer[PETLUMAS_SAVE_ANSWER_BYTES];
    if (!lends_image(n))
        return false;
    petlumas_save(p->buffer, lent_bytes(p), answer, sizeof answer, p->images[n.at[1]],
                  (size_t)n.at[2], n.at[0]);
    return print_answer(p, answer, sizeof answer / 8);
}

static bool play_restore(struct player *p, struct numbers n) {
    uint8_t answer[PETLUMAS_RESTORE_ANSWER_BYTES];
    if (!lends_image(n))
        return false;
    petlumas_restore(p->buffer, lent_bytes(p), answer, sizeof answer, p->images[n.at[1]],
                     (size_t)n.at[2], n.at[0]);
    return print_answer(p, answer, sizeof answer / 8);
}

/* The journal goes on in the second table; the numbers past the register stay its own. */
static bool play_convert(struct player *p, struct numbers n) {
    uint8_t answer[PETLUMAS_CONVERT_ANSWER_BYTES];
    if (!is_length(n.at[0], BUFFER_NUMBERS))
        return false;
    struct bytes second = make_bytes(8 * n.at[0]);
    fill_numbers(second.at, second.length / 8, -5);
    if (petlumas_convert(p->buffer, lent_bytes(p), answer, sizeof answer, second.at,
                         second.length) == 0)
        memcpy(p->buffer, second.at, 8 * REGISTER_NUMBERS);
    free(second.at);
    return print_answer(p, answer, sizeof answer / 8);
}

static bool play_date(struct player *p, struct numbers n) {
    uint8_t answer[PETLUMAS_DATE_ANSWER_BYTES];
    petlumas_date(answer, sizeof answer, n.at[0], n.at[1], n.at[2]);
    return print_answer(p, answer, sizeof answer / 8);
}

/* ---- lines that look at the buffers */

/* An account with good numbers is refused only where the register is short or unsound. */
static bool is_sound(const struct player *p) {
    uint8_t answer[PETLUMAS_ACCOUNT_ANSWER_BYTES];
    return petlumas_account(p->buffer, lent_bytes(p), answer, sizeof answer, 1, 0, 0) == 0;
}

/* Of a sound register. */
static const struct edition *edition_of(const struct player *p) {
    return &editions[get_number(p->buffer, EDITION)];
}

/* The place of a point's first number; 0, which is no point's, if there is no such point. */
static size_t find_point(const struct player *p, int64_t mirn) {
    if (!is_sound(p))
        return 0;
    size_t points = (size_t)get_number(p->buffer, POINT_COUNT);
    for (size_t i = 0; i < points; i++) {
        size_t place = point_place(edition_of(p), i);
        if (get_number(p->buffer, place + MIRN) == mirn)
            return place;
    }
    return 0;
}

static bool play_look(struct player *p, struct numbers n) {
    size_t place = find_point(p, n.at[0]);
    size_t count = place == 0 ? 0 : edition_of(p)->point_numbers;
    struct sums sums = sum_numbers(p->buffer + 8 * place, count);
    fprintf(p->out, "%zu %" PRIu64 " %" PRIu64 "\n", count, sums.s1, sums.s2);
    return true;
}

static bool play_poke(struct player *p, struct numbers n) {
    if (n.at[0] < 0 || n.at[0] >= REGISTER_NUMBERS)
        return false;
    put_number(p->buffer, (size_t)n.at[0], n.at[1]);
    return print_done(p);
}

static bool play_tlen(struct player *p, struct numbers n) {
    if (n.at[0] < 0 || n.at[0] > BUFFER_NUMBERS)
        return false;
    p->lent = (size_t)n.at[0];
    return print_done(p);
}

static bool play_alen(struct player *p, struct numbers n) {
    if (n.at[0] < 0 || n.at[0] > SHARES_MOST)
        return false;
    p->shares = (size_t)n.at[0];
    return print_done(p);
}

static bool play_table(struct player *p, struct numbers n) {
    (void)n;
    struct sums sums = sum_numbers(p->buffer, REGISTER_NUMBERS);
    struct sums past = sum_numbers(p->buffer + 8 * REGISTER_NUMBERS, PAST_NUMBERS);
    fprintf(p->out, "0 %" PRIu64 " %" PRIu64 " %" PRIu64 "\n", sums.s1, sums.s2, past.s2);
    return true;
}

static bool play_imgpoke(struct player *p, struct numbers n) {
    if (!is_image(n.at[0]) || n.at[1] < 0 || n.at[1] >= IMAGE_BUFFER_BYTES || n.at[2] < 0 ||
        n.at[2] > 255)
        return false;
    p->images[n.at[0]][n.at[1]] = (uint8_t)n.at[2];
    return print_done(p);
}

static bool play_image(struct player *p, struct numbers n) {
    if (!is_image(n.at[0]))
        return false;
    struct sums sums = sum_bytes(p->images[n.at[0]], IMAGE_BUFFER_BYTES);
    fprintf(p->out, "0 %" PRIu64 " %" PRIu64 "\n", sums.s1, sums.s2);
    return true;
}

/* ---- hub lines: buffers of any length */

static void print_hex(const struct player *p, struct bytes b) {
    fputs(b.length == 0 ? " -" : " ", p->out);
    for (size_t k = 0; k < b.length; k++)
        fprintf(p->out, "%02x", b.at[k]);
}

static struct bytes copy_register(const struct player *p, int64_t length) {
    struct bytes b = make_bytes(length);
    memcpy(b.at, p->buffer, b.length);
    return b;
}

/* Takes the register's bytes back and prints the result and the answer. */
static void end_hub(struct player *p, int64_t result, struct bytes reg, struct bytes answer) {
    memcpy(p->buffer, reg.at, reg.length);
    fprintf(p->out, "%" PRId64, result);
    print_hex(p, answer);
    free(reg.at);
    free(answer.at);
}

static bool hub_energy(struct player *p, struct numbers n) {
    if (!is_length(n.at[0], BUFFER_BYTES) || !is_length(n.at[1], REPLY_BYTES))
        return false;
    struct bytes reg = copy_register(p, n.at[0]);
    struct bytes answer = make_bytes(n.at[1]);
    int64_t result = petlumas_energy(reg.at, reg.length, answer.at, answer.length, n.at[2], n.at[3],
                                     n.at[4], n.at[5], n.at[6], n.at[7]);
    end_hub(p, result, reg, answer);
    putc('\n', p->out);
    return true;
}

static bool hub_account(struct player *p, struct numbers n) {
    if (!is_length(n.at[0], BUFFER_BYTES) || !is_length(n.at[1], REPLY_BYTES))
        return false;
    struct bytes reg = copy_register(p, n.at[0]);
    struct bytes answer = make_bytes(n.at[1]);
    int64_t result =
        petlumas_account(reg.at, reg.length, answer.at, answer.length, n.at[2], n.at[3], n.at[4]);
    end_hub(p, result, reg, answer);
    putc('\n', p->out);
    return true;
}

static bool hub_allocate(struct player *p, struct numbers n) {
    if (!is_length(n.at[0], BUFFER_BYTES) || !is_length(n.at[1], REPLY_BYTES) ||
        !is_length(n.at[2], REPLY_BYTES))
        return false;
    struct bytes reg = copy_register(p, n.at[0]);
    struct bytes answer = make_bytes(n.at[1]);
    struct bytes table = make_bytes(n.at[2]);
    int64_t result =
        petlumas_allocate(reg.at, reg.length, answer.at, answer.length, table.at, table.length,
                          n.at[3], n.at[4], n.at[5], n.at[6], n.at[7], n.at[8]);
    end_hub(p, result, reg, answer);
    print_hex(p, table);
    free(table.at);
    putc('\n', p->out);
    return true;
}

/* ---- lines */

static const struct call calls[] = {
    {"fresh", 3, play_fresh},       {"open", 7, play_open},
    {"energy", 6, play_energy},     {"trial", ANY, play_trial},
    {"status", 3, play_status},     {"request", ANY, play_request},
    {"withdraw", 2, play_withdraw}, {"correct", 4, play_correct},
    {"account", 3, play_account},   {"allocate", 6, play_allocate},
    {"save", 3, play_save},         {"restore", 3, play_restore},
    {"convert", 1, play_convert},   {"date", 3, play_date},
    {"look", 1, play_look},         {"poke", 2, play_poke},
    {"tlen", 1, play_tlen},         {"alen", 1, play_alen},
    {"table", 0, play_table},       {"imgpoke", 3, play_imgpoke},
    {"image", 1, play_image},       {NULL, 0, NULL},
};

static const struct call hub_calls[] = {
    {"energy", 8, hub_energy},
    {"account", 5, hub_account},
    {"allocate", 9, hub_allocate},
    {NULL, 0, NULL},
};

static const struct call *find_call(const struct call *among, struct word name) {
    while (among->name != NULL && !is_name(name, among->name))
        among++;
    return among->name == NULL ? NULL : among;
}

bool play_line(struct player *player, const struct line *line) {
    int64_t numbers[LINE_NUMBERS];
    size_t count;
    size_t at = 0;
    struct word name = next_word(line, &at);
    const struct call *among = calls;
    if (is_name(name, "hub")) {
        among = hub_calls;
        name = next_word(line, &at);
    }
    const struct call *call = find_call(among, name);
    if (call == NULL || !read_numbers(line, at, numbers, &count))
        return false;
    if (call->count != ANY && call->count != count)
        return false;
    return call->play(player, (struct numbers){numbers, count});
}
