#define _DEFAULT_SOURCE

#include "rooms.h"

#include <signal.h>
#include <stdio.h>
#include <stdlib.h>
#include <string.h>
#include <sys/mman.h>
#include <unistd.h>

unsigned long calls;

static bool page_is_after;
static char doing[128]; /* the call under way */

void begin(const char *name, const char *what)
{
    snprintf(doing, sizeof doing, "%s, %s", name, what);
}

_Noreturn void fail(const char *why)
{
    printf("guard: %s: %s\n", doing, why);
    exit(1);
}

void hold(bool held, const char *why)
{
    if (!held) {
        fail(why);
    }
}

static void on_fault(int number)
{
    (void)number;
    static const char why[] = ": memory outside the lent slices, or lent read-only\n";
    bool told = write(STDERR_FILENO, doing, strlen(doing)) > 0 && write(STDERR_FILENO, why, sizeof why - 1) > 0;
    _exit(told ? 3 : 4);
}

void guard_rooms(bool after)
{
    page_is_after = after;
    signal(SIGSEGV, on_fault);
    signal(SIGBUS, on_fault);
}

static size_t page_bytes(void)
{
    return (size_t)sysconf(_SC_PAGESIZE);
}

size_t whole_pages(size_t bytes)
{
    return (bytes + page_bytes() - 1) / page_bytes() * page_bytes();
}

struct room open_room(size_t bytes)
{
    size_t inner = whole_pages(bytes);
    struct room room = {.map_bytes = inner + 2 * page_bytes(), .bytes = bytes};
    void *map = mmap(NULL, room.map_bytes, PROT_NONE, MAP_PRIVATE | MAP_ANONYMOUS, -1, 0);
    hold(map != MAP_FAILED, "no memory");
    room.map = map;
    room.at = room.map + page_bytes() + (page_is_after ? inner - bytes : 0);
    hold(inner == 0 || mprotect(room.map + page_bytes(), inner, PROT_READ | PROT_WRITE) == 0, "mprotect");
    return room;
}

void make_read_only(const struct room *room)
{
    size_t inner = room->map_bytes - 2 * page_bytes();
    hold(inner == 0 || mprotect(room->map + page_bytes(), inner, PROT_READ) == 0, "mprotect");
}

void close_room(struct room *room)
{
    munmap(room->map, room->map_bytes);
}

static uint8_t filler(size_t k)
{
    return (uint8_t)(1 + k % 255);
}

struct room open_filled(size_t bytes)
{
    struct room room = open_room(bytes);
    for (size_t k = 0; k < bytes; k++) {
        room.at[k] = filler(k);
    }
    return room;
}

bool filled_from(const struct room *room, size_t first)
{
    for (size_t k = first; k < room->bytes; k++) {
        if (room->at[k] != filler(k)) {
            return false;
        }
    }
    return true;
}
