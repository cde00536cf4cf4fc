/* Checks and upgrades each replay that is named, in memory, and prints a line for each: upgrade FILE.. */
#include "evf.h"

#include <stdio.h>
#include <stdlib.h>
#include <string.h>

/* The bytes of a file, to be freed, and their number; or NULL. */
static uint8_t *read_file(const char *name, size_t *length)
{
    size_t room = 1 << 16, n;
    uint8_t *bytes = malloc(room);
    FILE *f = fopen(name, "rb");
    *length = 0;
    while (f && bytes && (n = fread(bytes + *length, 1, room - *length, f)) > 0) {
        *length += n;
        if (*length == room) {
            uint8_t *more = realloc(bytes, room *= 2);
            if (!more)
                break;
            bytes = more;
        }
    }
    if (!f || !bytes || ferror(f) || !feof(f)) {
        free(bytes);
        bytes = NULL;
    }
    if (f)
        fclose(f);
    return bytes;
}

/* The 32-bit FNV-1a hash of some bytes, to compare them by. */
static uint32_t fnv(const uint8_t *bytes, size_t length)
{
    uint32_t hash = 2166136261u;
    for (size_t i = 0; i < length; i++)
        hash = (hash ^ bytes[i]) * 16777619u;
    return hash;
}

/* Measures first, then upgrades into just that room. By the other rule no byte differs; 3 is no rule. */
static void upgrade(const uint8_t *file, size_t length)
{
    size_t room = evf_upgrade(file, length, NULL, 0, EVF_HALVES_AWAY);
    if (evf_outcome_of(room, 0) == EVF_REFUSED) {
        printf("refused %zu", room);
        return;
    }
    uint8_t *copy = malloc(2 * room);
    if (!copy) {
        printf("no memory for %zu bytes", 2 * room);
        return;
    }
    uint8_t *even = copy + room;
    size_t answer = evf_upgrade(file, length, copy, room, EVF_HALVES_AWAY);
    if (evf_outcome_of(answer, room) == EVF_WRITTEN) {
        printf("upgraded %zu bytes, hash %08x, check %u, a second upgrade %zu", answer,
               (unsigned)fnv(copy, answer), evf_check(copy, answer),
               evf_upgrade(copy, answer, NULL, 0, EVF_HALVES_AWAY));
        size_t n = evf_upgrade(file, length, even, room, EVF_HALVES_TO_EVEN);
        printf(", by rule 2 %s, by rule 3 refused %zu",
               n == answer && memcmp(copy, even, n) == 0 ? "the same" : "other bytes",
               evf_upgrade(file, length, even, room, 3));
    }
    free(copy);
}

int main(int count, char **names)
{
    for (int i = 1; i < count; i++) {
        size_t length;
        uint8_t *file = read_file(names[i], &length);
        if (!file) {
            perror(names[i]);
            return 1;
        }
        printf("%s: %zu bytes, check %u, ", names[i], length, evf_check(file, length));
        upgrade(file, length);
        printf("\n");
        free(file);
    }
    return 0;
}
