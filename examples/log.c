/* A log of shots, from C. It is built with what pkg-config says, and with nothing else:

       cc -o log log.c $(pkg-config --cflags --libs vuzgari)

   log FILE measures two lids, appends their records to the log, which is made if there is none, and prints it. A log is
   records of 35 bytes, one after the other; nothing is appended to a file that is none. */
#include <vuzgari.h>

#include <stdbool.h>
#include <stdio.h>
#include <stdlib.h>

enum { WIDTH = 64, HEIGHT = 64, PIXELS = WIDTH * HEIGHT };

static void stop(const char *what)
{
    perror(what);
    exit(2);
}

/* Asks how much memory the noise call needs, lends it, and returns the call's number. */
static uint32_t measure(const uint8_t *pixels, size_t w, size_t h, uint8_t bytes[VUZGARI_ANSWER_BYTES])
{
    uint64_t windows = vuzgari_noise_windows(w, h);
    if (vuzgari_number_of(windows) != VUZGARI_GIVEN) {
        return vuzgari_number_of(windows); /* a side is too long or too short */
    }
    size_t ints_len = 3 * (size_t)windows;
    size_t floats_len = 2 * (size_t)windows + 2;
    int32_t *ints = malloc(ints_len * sizeof *ints);
    float *floats = malloc(floats_len * sizeof *floats);
    if (ints == NULL || floats == NULL) {
        stop("log");
    }
    uint32_t number =
        vuzgari_noise(pixels, w * h, w, h, ints, ints_len, floats, floats_len, bytes, VUZGARI_ANSWER_BYTES);
    free(ints);
    free(floats);
    return number;
}

static void refuse(uint32_t shot, uint32_t number)
{
    fprintf(stderr, "log: shot %u: number %u: %s\n", (unsigned)shot, (unsigned)number, vuzgari_reason(number));
    exit(1);
}

/* A lid without a figure has a record too (5, 6, 7); after any other number there is no answer to keep. */
static void append(FILE *log, const char *path, uint32_t shot, const uint8_t *pixels)
{
    uint8_t bytes[VUZGARI_ANSWER_BYTES];
    uint8_t record[VUZGARI_RECORD_BYTES];
    uint32_t number = measure(pixels, WIDTH, HEIGHT, bytes);
    if (number != VUZGARI_GIVEN && number != VUZGARI_FEW && number != VUZGARI_NONE && number != VUZGARI_THIN) {
        refuse(shot, number);
    }
    number = vuzgari_record_write(shot, WIDTH, HEIGHT, bytes, sizeof bytes, record, sizeof record);
    if (number != VUZGARI_GIVEN) {
        refuse(shot, number);
    }
    if (fwrite(record, sizeof record, 1, log) != 1 || fflush(log) != 0) {
        stop(path);
    }
}

static void print(struct vuzgari_record record)
{
    printf("shot %u, %u by %u: ", (unsigned)record.shot, (unsigned)record.width, (unsigned)record.height);
    if (record.answer == VUZGARI_GIVEN) {
        printf("noise %f levels\n", (double)record.sigma);
    } else {
        printf("no figure, number %u: %s\n", (unsigned)record.answer, vuzgari_reason(record.answer));
    }
}

/* Reads the log from its start and says how many records it has. One that is cut short or damaged ends the program. */
static uint32_t read_log(FILE *log, const char *path, bool printed)
{
    uint8_t bytes[VUZGARI_RECORD_BYTES];
    uint64_t fields[VUZGARI_RECORD_FIELDS];
    uint32_t count = 0;
    size_t length;
    rewind(log);
    while ((length = fread(bytes, 1, sizeof bytes, log)) > 0) {
        uint32_t number = vuzgari_record_read(bytes, length, fields, VUZGARI_RECORD_FIELDS);
        if (number != VUZGARI_GIVEN) {
            fprintf(stderr, "log: %s: record %u: number %u: %s\n", path, (unsigned)count + 1, (unsigned)number,
                    vuzgari_reason(number));
            exit(1);
        }
        count++;
        if (printed) {
            print(vuzgari_record_from(fields));
        }
    }
    if (ferror(log)) {
        stop(path);
    }
    return count;
}

int main(int argc, char **argv)
{
    static uint8_t grain[PIXELS], stripes[PIXELS];
    uint32_t drawn = 1;
    for (size_t k = 0; k < PIXELS; k++) {
        drawn = drawn * 1664525u + 1013904223u;
        grain[k] = (uint8_t)(120 + (drawn >> 16) % 13); /* plain grey, 120 to 132 */
        stripes[k] = k % 2 == 0 ? 0 : 255;              /* columns, black and white: nowhere quiet */
    }
    if (argc != 2) {
        fputs("usage: log FILE\n", stderr);
        return 2;
    }
    FILE *log = fopen(argv[1], "a+b");
    if (log == NULL) {
        stop(argv[1]);
    }
    uint32_t shots = read_log(log, argv[1], false);
    append(log, argv[1], shots + 1, grain);
    append(log, argv[1], shots + 2, stripes);
    read_log(log, argv[1], true);
    if (fclose(log) != 0) {
        stop(argv[1]);
    }
    if (fflush(stdout) != 0 || ferror(stdout)) {
        fputs("log: standard output could not be written\n", stderr);
        return 2;
    }
    return 0;
}
