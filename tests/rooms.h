/* Slices next to unreadable pages, and the call under way, for the parts of guard. */
#ifndef ROOMS_H
#define ROOMS_H

#include <stdbool.h>
#include <stddef.h>
#include <stdint.h>

/* Memory of some bytes, with an unreadable page on both sides; one of them is next to it. */
struct room {
    uint8_t *map, *at;
    size_t map_bytes, bytes;
};

/* Which page is next to the rooms that are opened from now on: the one after them, or the one before. From now on too,
   an access outside ends the program with the call under way. */
void guard_rooms(bool after);

/* Says what follows: the call under way. */
void begin(const char *name, const char *what);

/* Ends the program with the call under way and the reason. */
_Noreturn void fail(const char *why);

void hold(bool held, const char *why);

/* How many calls were made. */
extern unsigned long calls;

struct room open_room(size_t bytes);
void make_read_only(const struct room *room);
void close_room(struct room *room);

/* A filled room: at each place what stands there before a call, never 0. */
struct room open_filled(size_t bytes);

/* Whether what filled the room from a place on still stands. */
bool filled_from(const struct room *room, size_t first);

/* The bytes of as many pages as hold these. */
size_t whole_pages(size_t bytes);

#endif
