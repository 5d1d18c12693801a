/* make LIST FOLDER: writes each image of the list as a lid, FOLDER/NAME.lid: width and height, two bytes each, low
   first, then the pixels. */
#include "image.h"

#include <stdlib.h>

static _Noreturn void stop(const char *what)
{
    perror(what);
    exit(2);
}

/* Fills the first `count` bytes of the lid. */
static void lay_out(const struct image *image, uint8_t *bytes, size_t count)
{
    size_t sides[2] = {image->w, image->h};
    for (size_t k = 0; k < 4 && k < count; k++) {
        bytes[k] = (uint8_t)(sides[k / 2] >> 8 * (k % 2));
    }
    if (count > 4) {
        paint(image, bytes + 4, count - 4);
    }
}

static void write_lid(const struct image *image, const char *folder)
{
    char path[1024];
    if (snprintf(path, sizeof path, "%s/%s.lid", folder, image->name) >= (int)sizeof path) {
        fprintf(stderr, "%s: too long a path\n", folder);
        exit(2);
    }
    size_t count = lid_bytes(image);
    uint8_t *bytes = malloc(count + 1);
    FILE *file = fopen(path, "wb");
    if (bytes == NULL || file == NULL) {
        stop(path);
    }
    lay_out(image, bytes, count);
    if (fwrite(bytes, 1, count, file) != count || fclose(file) != 0) {
        stop(path);
    }
    free(bytes);
}

int main(int argc, char **argv)
{
    if (argc != 3) {
        fprintf(stderr, "usage: make LIST FOLDER\n");
        return 2;
    }
    FILE *list = open_list(argv[1]);
    struct image image;
    while (next_image(list, &image)) {
        write_lid(&image, argv[2]);
    }
    fclose(list);
    return 0;
}
