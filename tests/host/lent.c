#define _DEFAULT_SOURCE

#include "lent.h"

#include "sheets.h"

#include <stdlib.h>
#include <string.h>
#include <sys/mman.h>
#include <unistd.h>

enum { GUARD = 64, SLOTS = 5 };

static uint8_t guard_byte(size_t place)
{
    return (uint8_t)(0x5a ^ place);
}

static void put_guard(uint8_t *guard)
{
    for (size_t i = 0; i < GUARD; i++) {
        guard[i] = guard_byte(i);
    }
}

static int guard_stays(const uint8_t *guard)
{
    for (size_t i = 0; i < GUARD; i++) {
        if (guard[i] != guard_byte(i)) {
            return 0;
        }
    }
    return 1;
}

/* Where the slot's closed page begins. There is room before it for every run and a guard. */
static uint8_t *fence(size_t slot)
{
    static uint8_t *fences[SLOTS];
    if (fences[slot] == NULL) {
        size_t page = (size_t)sysconf(_SC_PAGESIZE);
        size_t open = (sizeof(struct run) + GUARD) / page * page + page;
        uint8_t *at = mmap(NULL, open + page, PROT_READ | PROT_WRITE, MAP_PRIVATE | MAP_ANONYMOUS, -1, 0);
        if (at == MAP_FAILED || mprotect(at + open, page, PROT_NONE) != 0) {
            abort();
        }
        fences[slot] = at + open;
    }
    return fences[slot];
}

static uint8_t *allocated(size_t len)
{
    uint8_t *block = malloc(len);
    if (block == NULL) {
        abort();
    }
    return block;
}

struct lent lend(enum way way, size_t slot, const uint8_t *bytes, size_t len)
{
    struct lent lent = {way, len, NULL, NULL};
    if (way == FENCED) {
        lent.run = fence(slot) - len;
        put_guard(lent.run - GUARD);
    } else if (way == GUARDED) {
        lent.block = allocated(len + 2 * GUARD);
        lent.run = lent.block + GUARD;
        put_guard(lent.block);
        put_guard(lent.run + len);
    } else if (way == EXACT || len > 0) {
        lent.block = allocated(len);
        lent.run = lent.block;
    }
    if (len > 0) {
        memcpy(lent.run, bytes, len);
    }
    return lent;
}

int returned(struct lent *lent, const uint8_t *bytes)
{
    int stays = lent->len == 0 || memcmp(lent->run, bytes, lent->len) == 0;
    if (lent->way == GUARDED || lent->way == FENCED) {
        stays = stays && guard_stays(lent->run - GUARD);
    }
    if (lent->way == GUARDED) {
        stays = stays && guard_stays(lent->run + lent->len);
    }
    free(lent->block);
    return stays;
}
