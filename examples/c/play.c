/* Plays the first EVENTS events of each replay that is named, draws what the player saw of the board then,
 * and tells how the game ends: play EVENTS FILE.. */
#include "evf.h"

#include <stdio.h>
#include <stdlib.h>

enum { ROOM = 1 << 20, CELLS = 255 * 255 };
static uint8_t file[ROOM];
static int8_t board[CELLS];
static uint16_t cells[CELLS];

/* How a game stands, by what evf_play answered. */
static const char *told(uint8_t answer)
{
    static char text[16];
    switch (answer) {
    case EVF_UNDECIDED:
        return "undecided";
    case EVF_WON:
        return "won";
    case EVF_LOST:
        return "lost";
    default:
        snprintf(text, sizeof text, "refused %u", (unsigned)answer);
        return text;
    }
}

/* What a player sees of a cell: # covered, F flagged, a mine that was hit, or the number of mines around. */
static char seen(size_t k)
{
    if (cells[k] != EVF_UNCOVERED)
        return cells[k] == EVF_FLAGGED ? 'F' : '#';
    if (board[k] <= 0)
        return board[k] < 0 ? '*' : '.';
    return (char)('0' + board[k]);
}

static void draw(void)
{
    /* Height and width stand behind the version and its flags, of which versions 3 and 4 have a byte more. */
    const uint8_t *sizes = file + (file[0] < 3 ? 2 : 3);
    for (size_t row = 0; row < sizes[0]; row++) {
        for (size_t column = 0; column < sizes[1]; column++)
            putchar(seen(row * sizes[1] + column));
        putchar('\n');
    }
}

int main(int count, char **words)
{
    size_t events = count > 1 ? strtoul(words[1], NULL, 10) : 0;
    for (int i = 2; i < count; i++) {
        FILE *f = fopen(words[i], "rb");
        if (!f) {
            perror(words[i]);
            return 1;
        }
        size_t length = fread(file, 1, ROOM, f);
        fclose(f);
        uint8_t end = evf_play(file, length, SIZE_MAX, board, CELLS, cells, CELLS);
        printf("%s: in the end %s", words[i], told(end));
        printf(", without a board %s", told(evf_play(file, length, events, board, 0, cells, CELLS)));
        uint8_t answer = evf_play(file, length, events, board, CELLS, cells, CELLS);
        printf(", after %zu events %s\n", events, told(answer));
        if (answer >= EVF_UNDECIDED)
            draw();
    }
    return 0;
}
