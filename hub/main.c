/* Plays a journal, a file or standard input, through the library's functions on bytes. */
#include "player.h"

#include <inttypes.h>

static void play(FILE *in, FILE *out) {
    static struct player player; /* large for a stack */
    struct line line;
    start_player(&player, out);
    for (uint64_t number = 1; read_line(in, &line); number++)
        if (!is_skipped(&line) && (line.too_long || !play_line(&player, &line)))
            fprintf(out, "? %" PRIu64 "\n", number);
}

int main(int argc, char **argv) {
    if (argc > 2) {
        fprintf(stderr, "usage: %s [JOURNAL]\n", argv[0]);
        return 2;
    }
    FILE *in = argc == 2 ? fopen(argv[1], "rb") : stdin;
    if (in == NULL) {
        perror(argv[1]);
        return 2;
    }
    play(in, stdout);
    int failed = ferror(in) != 0;
    if (fflush(stdout) != 0 || ferror(stdout) != 0)
        failed = 1;
    if (in != stdin)
        fclose(in);
    return failed;
}
