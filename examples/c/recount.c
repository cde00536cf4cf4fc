/* Counts openings and 3BV of each board that is drawn, its rows parted by /, * a mine: recount ROW/ROW.. */
#include "evf.h"

#include <stdio.h>
#include <string.h>

static int8_t board[255 * 255];
static uint16_t work[255 * 255];

/* Takes a drawing into the board, as far as it has room, and tells how many cells those are. */
static size_t draw(const char *drawing)
{
    size_t cells = 0;
    for (; *drawing && cells < sizeof board; drawing++)
        if (*drawing != '/')
            board[cells++] = *drawing == '*' ? -1 : 0;
    return cells;
}

int main(int words, char **word)
{
    for (int i = 1; i < words; i++) {
        size_t cells = draw(word[i]), width = strcspn(word[i], "/"), height = width ? cells / width : 0;
        size_t answer = evf_recount(height, width, board, cells, work, cells);
        if (answer < 65536)
            printf("%s: refused %zu\n", word[i], answer);
        else
            printf("%s: %zu openings, 3BV %zu\n", word[i], evf_openings_of(answer), evf_bbbv_of(answer));
    }
    return 0;
}
