/* Tells of each replay that is named whether it earned the no-flag badge, and whether it claims it: by the
 * rule of its version, by either rule, with nothing lent, and with its claim turned: badge FILE.. */
#include "evf.h"

#include <stdio.h>

enum { ROOM = 1 << 20, CELLS = 255 * 255 };
static uint8_t file[ROOM];
static int8_t board[CELLS];
static uint16_t cells[CELLS];

/* Judges the first `length` bytes of `file`, lending so many cells and entries, and prints the answer. */
static void judge(const char *how, size_t length, uint8_t wish, size_t lent)
{
    uint8_t answer = evf_badge(file, length, wish, board, lent, cells, lent);
    if (answer == EVF_NO_SUCH_WISH)
        printf("  %s: no such wish\n", how);
    else if (answer < EVF_NOT_EARNED)
        printf("  %s: refused %u\n", how, (unsigned)answer);
    else
        printf("  %s: %s, %s\n", how, evf_is_earned(answer) ? "earned" : "not earned",
               evf_is_claimed(answer) ? "claimed" : "not claimed");
}

int main(int count, char **words)
{
    for (int i = 1; i < count; i++) {
        FILE *f = fopen(words[i], "rb");
        if (!f) {
            perror(words[i]);
            return 1;
        }
        size_t length = fread(file, 1, ROOM, f);
        fclose(f);
        printf("%s\n", words[i]);
        judge("by its version", length, EVF_BY_VERSION, CELLS);
        judge("by the older rule, with nothing lent", length, EVF_BY_OLDER, 0);
        judge("by the newer rule", length, EVF_BY_NEWER, CELLS);
        judge("by the newer rule, with nothing lent", length, EVF_BY_NEWER, 0);
        judge("by another number", length, 3, CELLS);
        file[1] ^= 16; /* the claim is a bit of the second byte, in every version */
        judge("with its claim turned", length, EVF_BY_VERSION, CELLS);
    }
    return 0;
}
