#include "image.h"

#include <stdlib.h>
#include <string.h>

FILE *open_list(const char *path)
{
    FILE *list = fopen(path, "r");
    if (list == NULL) {
        perror(path);
        exit(2);
    }
    return list;
}

static bool parse(const char *line, struct image *image)
{
    int end = 0;
    int fields = sscanf(line, "%31s %zu %zu %zu %u %u %u %u %lld %n", image->name, &image->w, &image->h, &image->part,
                        &image->level, &image->even, &image->odd, &image->noise, &image->more, &end);
    if (fields != 9 || end == 0 || strlen(line + end) >= sizeof image->stored) {
        return false;
    }
    strcpy(image->stored, line + end);
    image->stored[strcspn(image->stored, "\n")] = '\0';
    return image->stored[0] != '\0';
}

bool next_image(FILE *list, struct image *image)
{
    char line[256];
    do {
        if (fgets(line, sizeof line, list) == NULL) {
            return false;
        }
    } while (line[0] == '#');
    if (!parse(line, image)) {
        fprintf(stderr, "not a line of a list: %s", line);
        exit(2);
    }
    return true;
}

size_t lid_bytes(const struct image *image)
{
    long long bytes = 4 + (long long)(image->w * image->h) + image->more;
    return bytes > 0 ? (size_t)bytes : 0;
}

static unsigned plain(const struct image *image, size_t x)
{
    if (x < image->part) {
        return image->level;
    }
    return x % 2 == 0 ? image->even : image->odd;
}

void paint(const struct image *image, uint8_t *pixels, size_t count)
{
    uint32_t state = 1;
    for (size_t k = 0; k < count; k++) {
        state = state * 1664525u + 1013904223u;
        unsigned level = plain(image, image->w == 0 ? 0 : k % image->w) + (state >> 16) % (image->noise + 1);
        pixels[k] = level < 255 ? (uint8_t)level : 255;
    }
}
