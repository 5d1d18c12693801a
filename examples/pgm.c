/* The noise of a grey file (binary PGM), from C. It is built with what pkg-config says, and with nothing else:

       cc -o pgm pgm.c $(pkg-config --cflags --libs vuzgari)

   pgm FILE reads the file as a whole and prints its noise, or why there is none. The status is 0 with a figure and 1
   without one. */
#include <vuzgari.h>

#include <stdio.h>
#include <stdlib.h>

static void stop(const char *what)
{
    perror(what);
    exit(2);
}

/* The bytes of a file, and how many there are. */
static uint8_t *read_file(const char *path, size_t *length)
{
    size_t room = 65536;
    uint8_t *bytes = malloc(room);
    FILE *file = fopen(path, "rb");
    if (bytes == NULL || file == NULL) {
        stop(path);
    }
    *length = 0;
    for (;;) {
        *length += fread(bytes + *length, 1, room - *length, file);
        if (*length < room) {
            break; /* at the end of the file, or where it cannot be read on */
        }
        room *= 2;
        bytes = realloc(bytes, room);
        if (bytes == NULL) {
            stop(path);
        }
    }
    if (ferror(file)) {
        stop(path);
    }
    fclose(file);
    return bytes;
}

/* Asks how much memory the noise call needs, lends it, and decodes the answer. */
static struct vuzgari_answer measure(const uint8_t *pixels, size_t w, size_t h)
{
    struct vuzgari_answer answer = {0};
    uint64_t windows = vuzgari_noise_windows(w, h);
    answer.number = vuzgari_number_of(windows);
    if (answer.number != VUZGARI_GIVEN) {
        return answer; /* a side is too long or too short */
    }
    size_t ints_len = 3 * (size_t)windows;
    size_t floats_len = 2 * (size_t)windows + 2;
    int32_t *ints = malloc(ints_len * sizeof *ints);
    float *floats = malloc(floats_len * sizeof *floats);
    if (ints == NULL || floats == NULL) {
        stop("pgm");
    }
    uint8_t bytes[VUZGARI_ANSWER_BYTES] = {0}; /* the call leaves them alone where it is refused (1 to 4) */
    uint32_t number = vuzgari_noise(pixels, w * h, w, h, ints, ints_len, floats, floats_len, bytes, sizeof bytes);
    answer = vuzgari_answer_from(bytes);
    answer.number = number;
    free(ints);
    free(floats);
    return answer;
}

/* Judges the file by its header and its length; then the header says where the pixels are. */
static struct vuzgari_answer measure_file(const uint8_t *file, size_t length)
{
    struct vuzgari_answer answer = {0};
    uint64_t fields[VUZGARI_PGM_FIELDS]; /* width, height, maximum, the place of the first pixel */
    answer.number = vuzgari_pgm_judge(file, length, length);
    if (answer.number == VUZGARI_GIVEN) {
        answer.number = vuzgari_pgm_header(file, length, fields, VUZGARI_PGM_FIELDS);
    }
    if (answer.number == VUZGARI_GIVEN) {
        answer = measure(file + fields[3], (size_t)fields[0], (size_t)fields[1]);
    }
    return answer;
}

int main(int argc, char **argv)
{
    if (argc != 2) {
        fputs("usage: pgm FILE\n", stderr);
        return 2;
    }
    size_t length;
    uint8_t *file = read_file(argv[1], &length);
    struct vuzgari_answer answer = measure_file(file, length);
    free(file);
    if (answer.number == VUZGARI_GIVEN) {
        printf("%s: noise %u.%03u levels\n", argv[1], (unsigned)answer.milli / 1000, (unsigned)answer.milli % 1000);
    } else {
        printf("%s: no figure, number %u: %s\n", argv[1], (unsigned)answer.number, vuzgari_reason(answer.number));
    }
    if (fflush(stdout) != 0) {
        stop("pgm: standard output");
    }
    return answer.number == VUZGARI_GIVEN ? 0 : 1;
}
