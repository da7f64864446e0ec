/* Petlumas, the gas point register, for C11 and C++11.
 *
 * A register is a buffer of PETLUMAS_REGISTER_BYTES bytes or more that the
 * caller keeps, saves and copies as it likes: 7,688 signed numbers of 8 bytes,
 * little endian. petlumas_fresh makes a register of any bytes.
 *
 * A register is of one of two editions, which its fourth number names. The
 * standard one (0) has room for 32 points of 48 records and reserves 4 points
 * for each operator, the long one (1) has room for 16 points of 108 records and
 * reserves 2. What was made before there were editions is standard. Every call
 * on a register takes both; petlumas_convert makes one of the other.
 *
 * An image is a register saved under a state number, in a buffer of
 * PETLUMAS_IMAGE_BYTES bytes or more: 124 blocks of 512 bytes. A block has 62
 * of the register's numbers in order, 8 bytes each, then the state number and
 * the block's number from 0, 4 bytes each, then its check of 8 bytes, all
 * little endian. For the check keep a sum of the block's first 63 words of 8
 * bytes and a sum of those sums, both modulo 2^64 and from 0: it is the second.
 *
 * Each function returns a refusal: 0 where the call was entered or answered,
 * else the first number of its own list, under "Refusals", that applies: the
 * lowest, but for petlumas_correct, which tests 16 last, and petlumas_restore,
 * which tests last whether the image's register is sound. After a refusal the
 * registers and the image are as they were.
 *
 *    1  the register is too short or (petlumas_fresh and petlumas_restore
 *       aside) unsound, or the register in an image to restore is unsound, or
 *       the buffer for a converted register is too short
 *    2  a number out of range, no such date, from after to (for an allocation
 *       after to + 1), to not before the gas day, more than 400 days or 100
 *       notices, or a buffer that is no register's too short
 *    3  the holidays are more than 512, or not strictly ascending, or one is
 *       no day
 *    4  the MIRN is unknown
 *    5  the MIRN is open already
 *    6  a non-daily record needs start < end, a daily one start = end
 *    7  start is neither the start of a standing record nor the append day
 *    8  a day from start to end is off
 *    9  the energy is beyond the range of the point's kind, and not confirmed
 *   10  a request is pending
 *   11  no request of that User is pending
 *   12  the User is the latest registered already
 *   13  the allowable period leaves the days 0 to 39,999
 *   14  off while off, on while on, or a day that is too early
 *   15  there is nothing to split the load by
 *   16  no room: a point or a record more than the edition has room for, 9th
 *       off span, 9th registration, or an 8th beside a request that stays
 *       pending
 *   17  a block of the image has a wrong check or a wrong block number
 *   18  an intact image has another state number in some block
 *   19  the points left would not cover the other operators' unfilled reserves
 *   20  the correction day is after the notice day or more than 425 days before
 *       it, or before install
 *   21  the User is FRO on every day from the correction day on already
 *   22  the register has more points, or a point more records, than the other
 *       edition has room for, or the points left there would not cover the
 *       operators' unfilled reserves
 *
 * The answer is the refusal and then the fields that a function names, 8 bytes
 * each, little endian. It is written on a refusal too, with every field 0. An
 * answer buffer shorter than the function's PETLUMAS_.._ANSWER_BYTES is the one
 * exception: then no buffer is written, and the result is 2, or 1 where a lent
 * register gets 1, whatever an image holds.
 *
 * Bytes of a buffer past those named here do not matter and are never written.
 *
 * A day is 0 to 39,999, from 1 January 1970 to 7 July 2079. A MIRN is 1 to
 * 9,999,999,999, a User 1 to 16, a kind 0 (non-daily) or 1 (daily metered), a
 * type 0 (actual), 1 (estimated) or 2 (substituted), a section 1 (Wagga Wagga
 * and Tamworth) or 0 (the rest), an operator 1 to 4, an edition 0 (standard) or
 * 1 (long), a state number 1 to 4, a yes 1 and a no 0. Energy is in whole MJ,
 * -1,000,000 to 1,000,000. Any other number gets its refusal.
 *
 * What the caller owes, since no proof can see it:
 *   - A pointer is not null and has as many bytes behind it as its length says.
 *   - The buffers of one call do not overlap, and no other thread touches them
 *     meanwhile. There are no globals, so calls on different buffers may run at
 *     the same time.
 *   - The thread has 80 KiB of stack left, for petlumas_trial,
 *     petlumas_restore and petlumas_convert 144 KiB. Nothing is allocated.
 */
#ifndef PETLUMAS_H
#define PETLUMAS_H

#include <stddef.h>
#include <stdint.h>

#define PETLUMAS_REGISTER_BYTES 61504
#define PETLUMAS_IMAGE_BYTES 63488

#define PETLUMAS_FRESH_ANSWER_BYTES 8
#define PETLUMAS_OPEN_ANSWER_BYTES 8
#define PETLUMAS_ENERGY_ANSWER_BYTES 40
#define PETLUMAS_TRIAL_ANSWER_BYTES 24
#define PETLUMAS_STATUS_ANSWER_BYTES 8
#define PETLUMAS_REQUEST_ANSWER_BYTES 24
#define PETLUMAS_WITHDRAW_ANSWER_BYTES 8
#define PETLUMAS_CORRECT_ANSWER_BYTES 136
#define PETLUMAS_ACCOUNT_ANSWER_BYTES 16
#define PETLUMAS_ALLOCATE_ANSWER_BYTES 144
#define PETLUMAS_SAVE_ANSWER_BYTES 8
#define PETLUMAS_RESTORE_ANSWER_BYTES 8
#define PETLUMAS_CONVERT_ANSWER_BYTES 8
#define PETLUMAS_DATE_ANSWER_BYTES 16

#define PETLUMAS_TRIAL_NOTICES 100
#define PETLUMAS_TRIAL_NOTICE_BYTES 48
#define PETLUMAS_ALLOCATE_TABLE_BYTES 256

#ifdef __cplusplus
#define PETLUMAS_RESTRICT __restrict
extern "C" {
#else
#define PETLUMAS_RESTRICT restrict
#endif

/* Makes a register with no points.
 * nondaily, daily: the validation ranges of the two kinds, 0 to 1,000,000, or
 *   -1 for no range.
 * edition: the register's.
 * Answer: no field.
 * Refusals: 1 (too short only), 2. */
int64_t petlumas_fresh(uint8_t *PETLUMAS_RESTRICT reg, size_t reg_len,
                       uint8_t *PETLUMAS_RESTRICT answer, size_t answer_len,
                       int64_t nondaily, int64_t daily, int64_t edition);

/* Opens a point.
 * mirn, kind, user, install: the point, its User and its first day.
 * base: the base load, MJ for one day, 0 to 10,000, or -1 for 1,000.
 * section: in section 1 a transfer is registered on an actual reading only.
 * operator_: the network operator whose point it is. In a register that began
 *   with petlumas_fresh, conversions and restores of its own images included,
 *   one with fewer points than the edition reserves gets neither 16 nor 19,
 *   whatever the others opened.
 * Answer: no field.
 * Refusals: 1, 2, 5, 16, 19. */
int64_t petlumas_open(uint8_t *PETLUMAS_RESTRICT reg, size_t reg_len,
                      uint8_t *PETLUMAS_RESTRICT answer, size_t answer_len,
                      int64_t mirn, int64_t kind, int64_t user,
                      int64_t install, int64_t base, int64_t section,
                      int64_t operator_);

/* Enters an energy record. An append settles a pending request by its end: in
 * the request's period it registers the User, in section 1 only if its type is
 * 0, and after it the request lapses. A replacement or a recut corrects the
 * record and leaves the request.
 * mirn, start, end, energy, type: the record.
 * confirmed: yes lets an energy beyond the range pass.
 * Answer: which it was (1 append, 2 replacement, 3 recut), how many later
 *   records it removed, the User registered or 0, whether a request lapsed.
 * Refusals: 1, 2, 4, 6, 7, 8, 9, 16. */
int64_t petlumas_energy(uint8_t *PETLUMAS_RESTRICT reg, size_t reg_len,
                        uint8_t *PETLUMAS_RESTRICT answer, size_t answer_len,
                        int64_t mirn, int64_t start, int64_t end,
                        int64_t energy, int64_t type, int64_t confirmed);

/* Tries a batch of energy notices: tells what petlumas_energy would answer to
 * each if they were entered in order. The register is only read. A notice that
 * is refused changes nothing, and the batch goes on.
 * notices: count times PETLUMAS_TRIAL_NOTICE_BYTES bytes or more: the mirn,
 *   start, end, energy, type and confirmed of each notice, 8 bytes each, little
 *   endian. A number out of range gets 2 for its notice only.
 * answers: count times PETLUMAS_ENERGY_ANSWER_BYTES bytes or more. Where the
 *   result is 0 these bytes are the answers of petlumas_energy, in order; else
 *   they are as they were.
 * count: how many notices there are, 0 to PETLUMAS_TRIAL_NOTICES.
 * Answer: the most records that a point would have at the start or after any
 *   notice, 0 with no point, and how many records the batch would remove.
 * Refusals: 1, 2 (notices or answers too short for the count included). */
int64_t petlumas_trial(const uint8_t *PETLUMAS_RESTRICT reg, size_t reg_len,
                       uint8_t *PETLUMAS_RESTRICT answer, size_t answer_len,
                       const uint8_t *PETLUMAS_RESTRICT notices,
                       size_t notices_len,
                       uint8_t *PETLUMAS_RESTRICT answers, size_t answers_len,
                       int64_t count);

/* Says from which day on a point is off (de-energised), or on again.
 * mirn, day: the point and that day.
 * on: 0 off, 1 on.
 * Answer: no field.
 * Refusals: 1, 2, 4, 14, 16. */
int64_t petlumas_status(uint8_t *PETLUMAS_RESTRICT reg, size_t reg_len,
                        uint8_t *PETLUMAS_RESTRICT answer, size_t answer_len,
                        int64_t mirn, int64_t day, int64_t on);

/* Requests a transfer of a point to a User.
 * holidays: days, 8 bytes each, strictly ascending, at most 512; a length of 0
 *   means weekends only, and bytes that make no whole number are not read.
 * mirn, user, proposed: the point, the User and the proposed day.
 * nochange: whether a no-change statement comes with it.
 * Answer: the first and the last day of the allowable period.
 * Refusals: 1, 2, 3, 4, 10, 12, 13, 16. */
int64_t petlumas_request(uint8_t *PETLUMAS_RESTRICT reg, size_t reg_len,
                         uint8_t *PETLUMAS_RESTRICT answer, size_t answer_len,
                         const uint8_t *PETLUMAS_RESTRICT holidays,
                         size_t holidays_len,
                         int64_t mirn, int64_t user, int64_t proposed,
                         int64_t nochange);

/* Withdraws a User's pending request.
 * mirn, user: the point and the User.
 * Answer: no field.
 * Refusals: 1, 2, 4, 11. */
int64_t petlumas_withdraw(uint8_t *PETLUMAS_RESTRICT reg, size_t reg_len,
                          uint8_t *PETLUMAS_RESTRICT answer, size_t answer_len,
                          int64_t mirn, int64_t user);

/* Corrects a transfer error: makes a User the point's FRO, its responsible
 * User, from a day on. Later registrations go, and so does a pending request of
 * that User; another User's stays. Records don't change.
 * mirn, user: the point and the User.
 * day: the correction day.
 * notice: the notice day; day is at most 425 days before it.
 * Answer: sixteen flags, for the Users 1 to 16: 1 where the User was FRO on some
 *   day that has another FRO now, else 0.
 * Refusals: 1, 2, 4, 20, 21, 16. */
int64_t petlumas_correct(uint8_t *PETLUMAS_RESTRICT reg, size_t reg_len,
                         uint8_t *PETLUMAS_RESTRICT answer, size_t answer_len,
                         int64_t mirn, int64_t user, int64_t day,
                         int64_t notice);

/* Sums a User's energy.
 * user, from, to: the User, and the first and the last day.
 * Answer: the sum of the shares of those days, in MJ. The first k of the n
 *   days of a record have its energy * k / n together, rounded towards plus
 *   infinity.
 * Refusals: 1, 2. */
int64_t petlumas_account(const uint8_t *PETLUMAS_RESTRICT reg, size_t reg_len,
                         uint8_t *PETLUMAS_RESTRICT answer, size_t answer_len,
                         int64_t user, int64_t from, int64_t to);

/* Splits a gas day's net section load among the points.
 * table: PETLUMAS_ALLOCATE_TABLE_BYTES bytes or more. Where the result is 0
 *   its first 32 numbers are the points' loads in order of opening, 0 past the
 *   last point; else it is as it was.
 * gasday: the gas day.
 * from, to: the days that weigh the points, before the gas day, at most 400: a
 *   non-daily point by its energy on them or, where none is filled, by its base
 *   load for each. With from = to + 1 there are no days, and its base load
 *   counts once.
 * tdq: the gas injected, 0 to 1,000,000,000.
 * uag, clp: unaccounted gas and linepack change, within 1,000,000,000 of 0.
 * Answer: the net section load, then the totals of the Users 1 to 16.
 * Refusals: 1, 2 (a table too short included), 15. */
int64_t petlumas_allocate(const uint8_t *PETLUMAS_RESTRICT reg, size_t reg_len,
                          uint8_t *PETLUMAS_RESTRICT answer, size_t answer_len,
                          uint8_t *PETLUMAS_RESTRICT table, size_t table_len,
                          int64_t gasday, int64_t from, int64_t to,
                          int64_t tdq, int64_t uag, int64_t clp);

/* Saves the register as an image.
 * image: PETLUMAS_IMAGE_BYTES bytes or more. Where the result is 0 its first
 *   PETLUMAS_IMAGE_BYTES bytes are the image; else it is as it was.
 * state: the state number.
 * Answer: no field.
 * Refusals: 1, 2 (an image too short included). */
int64_t petlumas_save(const uint8_t *PETLUMAS_RESTRICT reg, size_t reg_len,
                      uint8_t *PETLUMAS_RESTRICT answer, size_t answer_len,
                      uint8_t *PETLUMAS_RESTRICT image, size_t image_len,
                      int64_t state);

/* Restores the register that an image holds, in its edition, over any bytes.
 * image: PETLUMAS_IMAGE_BYTES bytes or more.
 * state: the state number that the image was saved under.
 * Answer: no field.
 * Refusals: 1 (too short only), 2 (an image too short included), 17, 18,
 *   1 (the register in the image is unsound). */
int64_t petlumas_restore(uint8_t *PETLUMAS_RESTRICT reg, size_t reg_len,
                         uint8_t *PETLUMAS_RESTRICT answer, size_t answer_len,
                         const uint8_t *PETLUMAS_RESTRICT image,
                         size_t image_len,
                         int64_t state);

/* Makes a register of the other edition with the same points and all that was
 * entered of them. A point from before points had operators counts as operator
 * 1's and is written as one.
 * other: PETLUMAS_REGISTER_BYTES bytes or more, whatever they hold. Where the
 *   result is 0 its first PETLUMAS_REGISTER_BYTES bytes are that register; else
 *   it is as it was.
 * Answer: no field.
 * Refusals: 1 (other too short included), 22. */
int64_t petlumas_convert(const uint8_t *PETLUMAS_RESTRICT reg, size_t reg_len,
                         uint8_t *PETLUMAS_RESTRICT answer, size_t answer_len,
                         uint8_t *PETLUMAS_RESTRICT other, size_t other_len);

/* Turns a date into a day. It needs no register.
 * year, month, day: a date from 1 January 1970 to 7 July 2079.
 * Answer: the day.
 * Refusals: 2. */
int64_t petlumas_date(uint8_t *PETLUMAS_RESTRICT answer, size_t answer_len,
                      int64_t year, int64_t month, int64_t day);

#ifdef __cplusplus
}
#endif

#endif
