#define _POSIX_C_SOURCE 200809L

#include "reading.h"
#include "formats.h"

#include <errno.h>
#include <fcntl.h>
#include <poll.h>
#include <stdlib.h>
#include <string.h>
#include <sys/stat.h>
#include <unistd.h>

enum { BLOCK_BYTES = 65536 };

#define UNKNOWN UINT64_MAX

/* What a lid is read from. */
struct input {
    int descriptor;
    uint64_t length; /* the bytes that have been read */
    bool ended;      /* whether there are no more */
};

static bool would_wait(int error)
{
    return error == EAGAIN || error == EWOULDBLOCK;
}

/* Waits until there is something to read, or an end. */
static void wait_for(int descriptor)
{
    struct pollfd wanted = {.fd = descriptor, .events = POLLIN};
    (void)poll(&wanted, 1, -1); /* interrupted or not: the next read says how it is */
}

/* One read that moves on: at least a byte, 0 at the end, -1 with errno. */
static ssize_t read_once(int descriptor, uint8_t *into, size_t count)
{
    for (;;) {
        ssize_t got = read(descriptor, into, count);
        if (got >= 0) {
            return got;
        }
        if (would_wait(errno)) {
            wait_for(descriptor);
        } else if (errno != EINTR) {
            return -1;
        }
    }
}

/* Reads `count` bytes, fewer only at the end. Returns 0 or errno's number. */
static int read_bytes(struct input *input, uint8_t *into, size_t count)
{
    while (count > 0 && !input->ended) {
        ssize_t got = read_once(input->descriptor, into, count);
        if (got < 0) {
            return errno;
        }
        into += got;
        count -= (size_t)got;
        input->length += (uint64_t)got;
        input->ended = got == 0;
    }
    return 0;
}

static size_t lesser(uint64_t a, uint64_t b)
{
    return (size_t)(a < b ? a : b);
}

/* Reads until `most` bytes have been read, and keeps none. */
static int count_bytes(struct input *input, uint64_t most)
{
    uint8_t block[BLOCK_BYTES];
    int error = 0;
    while (error == 0 && !input->ended && input->length < most) {
        error = read_bytes(input, block, lesser(most - input->length, sizeof block));
    }
    return error;
}

static int make_room(uint8_t **bytes, size_t room)
{
    uint8_t *grown = realloc(*bytes, room);
    if (grown == NULL) {
        return ENOMEM;
    }
    *bytes = grown;
    return 0;
}

/* Reads until `most` bytes have been read, and keeps them with the front, which is shorter: in room for `room` at first
   and for twice as many whenever that is full. */
static int keep_bytes(struct input *input, const struct front *front, size_t room, size_t most, uint8_t **bytes)
{
    int error = make_room(bytes, room);
    if (error == 0) {
        memcpy(*bytes, front->bytes, front->count);
    }
    while (error == 0) {
        error = read_bytes(input, *bytes + input->length, room - input->length);
        if (error != 0 || input->ended || room == most) {
            return error;
        }
        room = lesser(2 * room, most);
        error = make_room(bytes, room);
    }
    return error;
}

/* How many bytes a plain file has, from its front on. A size of 0 says nothing: the system's own files have it too. */
static uint64_t size_of(const struct input *input)
{
    struct stat status;
    if (input->ended || fstat(input->descriptor, &status) != 0 || !S_ISREG(status.st_mode)) {
        return UNKNOWN;
    }
    off_t at = lseek(input->descriptor, 0, SEEK_CUR);
    return at >= 0 && at < status.st_size ? input->length + (uint64_t)(status.st_size - at) : UNKNOWN;
}

static int read_front(struct input *input, enum format asked, struct front *front)
{
    int error = read_bytes(input, front->bytes, LID_HEADER_BYTES);
    front->count = (size_t)input->length;
    if (error == 0 && may_be_pgm(asked, front)) {
        error = read_bytes(input, front->bytes + front->count, sizeof front->bytes - front->count);
        front->count = (size_t)input->length;
    }
    return error;
}

static bool can_be_measured(const struct reading *reading)
{
    return reading->asks > 0 && vuzgari_number_of(vuzgari_noise_windows(reading->w, reading->h)) == VUZGARI_GIVEN;
}

static bool can_be_measured_at(const struct readings *readings, uint64_t length)
{
    const struct reading *reading = choose(readings, length);
    return number_by_length(readings, reading, length) == VUZGARI_GIVEN && can_be_measured(reading);
}

/* The largest length that a reading asks for, of all or of those that can be measured; 0 where none asks. */
static uint64_t most_asked(const struct readings *readings, bool measured)
{
    uint64_t most = 0;
    for (size_t k = 0; k < readings->count; k++) {
        const struct reading *reading = &readings->all[k];
        if (reading->asks > most && (!measured || can_be_measured(reading))) {
            most = reading->asks;
        }
    }
    return most;
}

/* Reads on to the end, or to one byte past what any reading asks for. Of a plain file there is room for a byte more
   than it has, so that its end is met before the room grows. */
static int read_on(struct input *input, const struct readings *readings, uint64_t size, uint8_t **bytes)
{
    size_t most = (size_t)most_asked(readings, true);
    size_t room = lesser(size == UNKNOWN ? BLOCK_BYTES : size + 1, most);
    int error = most > 0 ? keep_bytes(input, &readings->front, room, most, bytes) : 0;
    return error == 0 ? count_bytes(input, most_asked(readings, false) + 1) : error;
}

/* Sets what follows from the length. */
static void settle(struct lid *lid, const struct readings *readings, uint64_t length)
{
    const struct reading *reading = choose(readings, length);
    lid->length = length;
    lid->reading = *reading;
    lid->answer.number = number_by_length(readings, reading, length);
}

static int read_after_front(struct input *input, const struct front *front, struct lid *lid, uint8_t **bytes)
{
    struct readings readings = readings_of(lid->asked, front);
    uint64_t length = size_of(input);
    int error = 0;
    if (length == UNKNOWN || can_be_measured_at(&readings, length)) {
        error = read_on(input, &readings, length, bytes);
        length = input->length;
        lid->more = !input->ended;
    }
    settle(lid, &readings, length);
    return error;
}

static int read_from(struct input *input, struct lid *lid, uint8_t **bytes)
{
    struct front front = {.count = 0};
    int error = read_front(input, lid->asked, &front);
    return error == 0 ? read_after_front(input, &front, lid, bytes) : error;
}

/* Opens without waiting for a writer; what is read then is waited for. */
static int open_at_once(const char *path)
{
    int descriptor = open(path, O_RDONLY | O_NONBLOCK | O_CLOEXEC | O_NOCTTY);
    int flags = descriptor < 0 ? -1 : fcntl(descriptor, F_GETFL);
    if (flags >= 0) {
        (void)fcntl(descriptor, F_SETFL, flags & ~O_NONBLOCK);
    }
    return descriptor;
}

/* Whether this is a pipe that no writer has had open since it was opened here: a writer that has left hangs up. */
static bool nobody_writes(int descriptor)
{
    struct stat status;
    struct pollfd end = {.fd = descriptor, .events = POLLIN};
    return fstat(descriptor, &status) == 0 && S_ISFIFO(status.st_mode)
        && poll(&end, 1, 0) >= 0 && (end.revents & POLLHUP) == 0;
}

static int read_file(struct lid *lid, uint8_t **bytes)
{
    struct input input = {.descriptor = open_at_once(lid->name)};
    if (input.descriptor < 0) {
        return errno;
    }
    int error = read_from(&input, lid, bytes);
    if (error == 0 && lid->length == 0 && nobody_writes(input.descriptor)) {
        error = NOBODY_WRITES;
    }
    close(input.descriptor);
    return error;
}

static int read_standard_input(struct lid *lid, uint8_t **bytes)
{
    static bool taken;
    struct input input = {.descriptor = STDIN_FILENO, .ended = taken};
    taken = true;
    return read_from(&input, lid, bytes);
}

uint8_t *read_lid(struct lid *lid)
{
    uint8_t *bytes = NULL;
    lid->error = strcmp(lid->name, "-") == 0 ? read_standard_input(lid, &bytes) : read_file(lid, &bytes);
    return bytes;
}
