/* Writes each replay that is named again as version 4, in memory, and prints a line for each:
 * resave FILE.. */
#include "evf.h"

#include <stdio.h>
#include <string.h>

enum { ROOM = 1 << 20 };
static uint8_t file[ROOM], copy[ROOM], again[ROOM];

/* The 32-bit FNV-1a hash of some bytes, to compare them by. */
static uint32_t fnv(const uint8_t *bytes, size_t length)
{
    uint32_t hash = 2166136261u;
    for (size_t i = 0; i < length; i++)
        hash = (hash ^ bytes[i]) * 16777619u;
    return hash;
}

/* Whether what was re-saved again, m bytes, is the copy of n bytes. */
static const char *is_copy(size_t n, size_t m)
{
    return m == n && memcmp(copy, again, n) == 0 ? "the same" : "other bytes";
}

/* Re-saves the file, and then its copy: custom metrics are kept, and a second time nothing changes, nor does
 * it by the other rule. 3 is no rule. */
static void resave(size_t length)
{
    size_t n = evf_resave(file, length, copy, ROOM, EVF_HALVES_AWAY);
    switch (evf_outcome_of(n, ROOM)) {
    case EVF_REFUSED:
        printf("refused %zu\n", n);
        break;
    case EVF_SHORT:
        printf("%zu bytes are needed\n", n);
        break;
    default: {
        printf("resaved %zu bytes, hash %08x, a second time %s", n, (unsigned)fnv(copy, n),
               is_copy(n, evf_resave(copy, n, again, ROOM, EVF_HALVES_AWAY)));
        printf(", by rule 2 %s, by rule 3 refused %zu\n",
               is_copy(n, evf_resave(file, length, again, ROOM, EVF_HALVES_TO_EVEN)),
               evf_resave(file, length, again, ROOM, 3));
    }
    }
}

int main(int count, char **names)
{
    for (int i = 1; i < count; i++) {
        FILE *f = fopen(names[i], "rb");
        if (!f) {
            perror(names[i]);
            return 1;
        }
        size_t length = fread(file, 1, ROOM, f);
        fclose(f);
        printf("%s: %zu bytes, ", names[i], length);
        resave(length);
    }
    return 0;
}
