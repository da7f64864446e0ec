/* One register of bytes, its images and the calls of a journal on them. */
#ifndef HUB_PLAYER_H
#define HUB_PLAYER_H

#include "line.h"
#include "places.h"
#include "words.h"

enum {
    PAST_NUMBERS = 16, /* stand behind the register; no call may touch them */
    BUFFER_NUMBERS = REGISTER_NUMBERS + PAST_NUMBERS,
    BUFFER_BYTES = 8 * BUFFER_NUMBERS,
    SHARES_MOST = 64,   /* numbers of the longest answer table */
    REPLY_BYTES = 300,  /* the longest answer or answer table of a hub line */
    BATCH_MOST = 606,   /* numbers of a trial's longest table of notices */
    ANSWERS_MOST = 512, /* and of its longest table of answers */
    IMAGES = 5,
    IMAGE_BUFFER_BYTES = 63504, /* 16 more than an image; no call may touch them */
};

struct player {
    uint8_t buffer[BUFFER_BYTES];
    size_t lent;   /* numbers of the buffer that calls are lent */
    size_t shares; /* numbers of allocate's answer table */
    uint8_t images[IMAGES][IMAGE_BUFFER_BYTES];
    FILE *out;
};

void start_player(struct player *player, FILE *out);

/* Plays a line that is not skipped and prints its row; false, with nothing done, if it is no call.
 */
bool play_line(struct player *player, const struct line *line);

#endif
