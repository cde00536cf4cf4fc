/* EVF minesweeper replays, versions 0 to 4: the check, the upgrade to version 4, the re-save as version 4,
 * a board's openings and 3BV counted anew, a game played through, and its no-flag badge, for C and C++.
 *
 * The code is proved and stands in six static libraries for x86-64 Linux, of which a program links what it
 * needs:
 *
 *     tools/staticlib evf_video     target/staticlib/libevf_video.a   evf_check
 *     tools/staticlib upgrade       target/staticlib/libupgrade.a     evf_upgrade
 *     tools/staticlib resave        target/staticlib/libresave.a      evf_resave
 *     tools/staticlib openings      target/staticlib/libopenings.a    evf_recount
 *     tools/staticlib file_play     target/staticlib/libfile_play.a   evf_play
 *     tools/staticlib file_badge    target/staticlib/libfile_badge.a  evf_badge
 *
 * Each function ends for every input, keeps nothing between calls, and reads and writes no memory of the
 * caller's but what it is handed. They may be called from several threads at once. evf_upgrade and evf_resave
 * take 65025 bytes of the stack for the cells of a board, and a little more. A buffer is handed over as a
 * pointer and a length, counted in what it points to. A pointer may be null only where its length is 0. */
#ifndef EVF_H
#define EVF_H

#include <stddef.h>
#include <stdint.h>

#ifdef __cplusplus
extern "C" {
#endif

/* Why a file or a board is refused. evf_check answers 1 to 10 of these, evf_upgrade 1 to 10, 13, 16, 19 to 22
 * and 26, evf_resave 1 to 10, 16, 19 to 22 and 26, evf_recount 15, 17 and 24, evf_play and evf_badge 1 to
 * 11, 24, 27 and 28. The others belong to calls that no C program makes, and stand here so that every number
 * has a name. */
enum evf_refusal {
    EVF_OK = 0,                     /* not refused; an answer of evf_check alone */
    EVF_FILE_ENDS = 1,              /* the file ends inside a field */
    EVF_VERSION_UNKNOWN = 2,        /* the version is above 4 */
    EVF_TEXT_NOT_UTF8 = 3,          /* a text that must be UTF-8 is not */
    EVF_ARBITER = 4,                /* the software is Arbiter, whose times are not read */
    EVF_TIME_NOT_DECIMAL = 5,       /* start or end must be a decimal number and is not */
    EVF_TIME_TOO_LARGE = 6,         /* start or end in microseconds is 2^64 or more */
    EVF_HEIGHT_ZERO = 7,            /* the board has no rows */
    EVF_FIRST_CODE_UNKNOWN = 8,     /* version 4: the first event is not mv, lc, rc or pf */
    EVF_CODE_UNKNOWN = 9,           /* version 4: a later code has no meaning */
    EVF_MS_TOO_LARGE = 10,          /* version 4: pauses or an event's milliseconds are 2^32 or more */
    EVF_BOARD_BUFFER_SHORT = 11,    /* too few cells to read the board into */
    EVF_ROW_SHORT = 12,             /* too few entries to read the events into */
    EVF_ALREADY_VERSION_4 = 13,     /* to be upgraded, and of version 4 */
    EVF_TEXT_OUTSIDE = 14,          /* a text or the custom metrics lie outside the bytes that hold texts */
    EVF_SIZE_UNWRITABLE = 15,       /* height is 0 or above 255, or width is above 255 */
    EVF_PIXELS_TOO_LARGE = 16,      /* height or width times the pixels of a cell is above 32767 */
    EVF_BOARD_SHORT = 17,           /* too few cells for height times width */
    EVF_NUMBER_TOO_LARGE = 18,      /* mines, 3BV or time do not fit their fields */
    EVF_TEXT_UNWRITABLE = 19,       /* player, race or unique id is not UTF-8 */
    EVF_LENGTH_UNWRITABLE = 20,     /* the device id is longer than 65535 bytes */
    EVF_FIRST_EVENT_UNWRITABLE = 21, /* there are no events, or the first is not mv, lc, rc or pf below 256 ms */
    EVF_EVENT_UNWRITABLE = 22,      /* an event has no known kind, or a time before that of the event before it */
    EVF_FILE_BUFFER_SHORT = 23,     /* too little room for the bytes to be written; never an answer, see EVF_SHORT */
    EVF_WORK_SHORT = 24,            /* too few entries to work in, for height times width */
    EVF_METRICS_UNWRITABLE = 25,    /* the custom metrics are not as many texts as they are said to be */
    EVF_NO_SUCH_RULE = 26,          /* the rule is neither 1 nor 2 */
    EVF_PIXELS_ZERO = 27,           /* to be played, and a cell has no pixels */
    EVF_BUTTONS_TOGETHER = 28       /* to be played, and both buttons are down at once, or there is a cc */
};

/* Where a half goes as an event's seconds become milliseconds. No file shows a difference: every time in a
 * file is a whole millisecond, and both rules give it back, so that each call makes the same copy by either
 * (proved). */
enum evf_rule {
    EVF_HALVES_AWAY = 1,            /* away from zero, as the Rust library does */
    EVF_HALVES_TO_EVEN = 2          /* to the even one of the two beside it */
};

/* Whether a file of any version, 0 to 4, can be read: EVF_OK if so, else the first reason that it cannot, 1 to
 * 10. Bytes behind the end of the replay are not looked at. */
uint8_t evf_check(const uint8_t *file, size_t length);

/* The bytes of the shortest file of version 4. Of evf_upgrade and of evf_resave: below it the answer is a
 * refusal's number. */
#define EVF_SHORTEST_COPY 51

/* Upgrades a file of version 0 to 3 to version 4 by a rule. The answer is one of three:
 *
 *     below EVF_SHORTEST_COPY    the number of the refusal; nothing was written
 *     up to room                 the length of the copy, which now stands in the first bytes of `copy`; the
 *                                bytes behind it are as they were
 *     above room                 the length that the copy would have; nothing was written, and a call with so
 *                                much room writes it
 *
 * So a call with room 0 measures. length + 65558 bytes are always enough (argued and tested, not proved).
 * Reading the copy gives the game of the file: all numbers, flags, texts, cells and events; only the country
 * becomes two letters. Refused with 19 to 22 the game has no version 4 file at all: keep the old one. With a
 * rule that is none the answer is 26, behind 1 to 13 and before all others. The two buffers must not
 * overlap. */
size_t evf_upgrade(const uint8_t *file, size_t length, uint8_t *copy, size_t room, uint8_t rule);

/* Writes a file of any version again as version 4, and answers as evf_upgrade does. Of version 0 to 3 the
 * copy is the same. Of version 4 it has the same custom metrics, and no game states: reading it gives the
 * game of the file with its mouse events alone. By a rule a file of version 4 that is read is refused with 16
 * or not at all; length + length / 8 bytes are always enough for it (argued and tested, not proved). With a
 * rule that is none the answer is 26, behind 1 to 10. */
size_t evf_resave(const uint8_t *file, size_t length, uint8_t *copy, size_t room, uint8_t rule);

/* The three cases of what evf_upgrade or evf_resave answered. EVF_UPGRADED is an older name of EVF_WRITTEN. */
enum evf_outcome { EVF_REFUSED, EVF_WRITTEN, EVF_SHORT, EVF_UPGRADED = EVF_WRITTEN };

static inline enum evf_outcome evf_outcome_of(size_t answer, size_t room)
{
    if (answer < EVF_SHORTEST_COPY)
        return EVF_REFUSED;
    return answer <= room ? EVF_WRITTEN : EVF_SHORT;
}

/* Counts the openings and the 3BV of a board of height x width cells, row by row, from its mines alone: -1 is
 * a mine, and any other number is none. `work` needs an entry for each cell; what its first height x width
 * entries hold then has no meaning, and the others are as they were. The answer is one of two:
 *
 *     15, 17 or 24       the number of the refusal; nothing was changed
 *     65536 and above    (openings + 1) * 65536 + 3BV
 *
 * The two buffers must not overlap. */
size_t evf_recount(size_t height, size_t width, const int8_t *board, size_t cells, uint16_t *work,
                   size_t entries);

/* The two counts in what evf_recount answered, where it was not refused. */
static inline size_t evf_openings_of(size_t answer)
{
    return answer / 65536 - 1;
}

static inline size_t evf_bbbv_of(size_t answer)
{
    return answer % 65536;
}

/* Not refused: how a game stands, answered by evf_play. */
enum evf_stands {
    EVF_UNDECIDED = 64,             /* no mine was uncovered, and not all other cells */
    EVF_WON = 65,                   /* all cells but the mines were uncovered */
    EVF_LOST = 66                   /* a mine was uncovered */
};

/* What stands in `work` for each cell of a game that was played. */
enum evf_cell { EVF_COVERED = 0, EVF_FLAGGED = 1, EVF_UNCOVERED = 2 };

/* Plays the first `events` events of a file of any version, or as many as there are, from a board all
 * covered: so what a player saw after any event. The answer is one of two:
 *
 *     1 to 11, 24, 27 or 28    the number of the refusal, the first that holds: 1 to 10 as evf_check, 11
 *                              where `board` and 24 where `work` is below height x width; nothing was changed
 *     64, 65 or 66             how the game stands, enum evf_stands
 *
 * Then the first height x width cells of `board` are the game's, row by row, -1 a mine, else the number of
 * mines around; and so many entries of `work` are what is seen of them, enum evf_cell. What lies behind is as
 * it was. 28 looks at those events alone: a game with chords can be played up to the first of them. Height
 * and width are bytes 2 and 3 of the file, counted from 0; of versions 3 and 4 bytes 3 and 4. The three
 * buffers must not overlap. */
uint8_t evf_play(const uint8_t *file, size_t length, size_t events, int8_t *board, size_t cells,
                 uint16_t *work, size_t entries);

/* The rule by which evf_badge judges. The older: no rc among all events. The newer: no rc that falls on a
 * covered cell, flagged or not, while the game is undecided. A pf counts under neither. */
enum evf_wish {
    EVF_BY_VERSION = 0,             /* the rule of the file's version: of 0 to 3 the older, of 4 the newer */
    EVF_BY_OLDER = 1,
    EVF_BY_NEWER = 2
};

/* Not refused: whether the badge is earned, and whether the file's own bit claims it, which is told and not
 * judged; answered by evf_badge. */
enum evf_award {
    EVF_NOT_EARNED = 64,            /* neither earned nor claimed */
    EVF_EARNED = 65,                /* earned, and not claimed */
    EVF_CLAIMED = 66,               /* claimed, and not earned */
    EVF_EARNED_AND_CLAIMED = 67,
    EVF_NO_SUCH_WISH = 255          /* the wish is above 2; nothing was changed */
};

/* Judges whether the game of a file of any version earned the no-flag badge, by all its events. The answer is
 * one of three:
 *
 *     1 to 11, 24, 27 or 28    the number of the refusal, the first that holds: 1 to 10 as evf_check; the
 *                              others under the newer rule alone, as evf_play; nothing was changed
 *     64 to 67                 the verdict beside the file's bit, enum evf_award
 *     255                      `wish` is none of enum evf_wish
 *
 * Under the newer rule the game is played, and `board` and `work` are then as evf_play leaves them after all
 * events. Under the older they are as they were, and both may have length 0. A badge that is earned under the
 * older rule is earned under the newer too, or refused there. The three buffers must not overlap. */
uint8_t evf_badge(const uint8_t *file, size_t length, uint8_t wish, int8_t *board, size_t cells,
                  uint16_t *work, size_t entries);

/* The two parts of what evf_badge answered, where that is 64 to 67. */
static inline int evf_is_earned(uint8_t answer)
{
    return answer % 2 == 1;
}

static inline int evf_is_claimed(uint8_t answer)
{
    return answer / 2 % 2 == 1;
}

#ifdef __cplusplus
}
#endif

#endif
