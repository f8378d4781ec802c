#include "image_file.h"

#include <stdio.h>

#include "image.h"

#define NAME_MOST 4096U

static int tell(const char *what, const char *name)
{
    fprintf(stderr, "%s %s\n", what, name);
    return 1;
}

static bool write_image(const uint8_t image[IMAGE_BYTES], const char *name)
{
    FILE *file = fopen(name, "wb");
    if (file == NULL)
        return false;
    bool written = fwrite(image, 1, IMAGE_BYTES, file) == IMAGE_BYTES;
    /* What is still held back may fail as it goes out. */
    return fclose(file) == 0 && written;
}

int image_file_save(const struct bench *bench, const char *name)
{
    uint8_t image[IMAGE_BYTES];
    char beside[NAME_MOST];
    image_save(bench, image, IMAGE_BYTES, 0);
    /* A new file beside it that takes its name once it is whole. */
    int length = snprintf(beside, NAME_MOST, "%s.new", name);
    if (length < 0 || (unsigned)length >= NAME_MOST)
        return tell("the name is too long:", name);
    if (!write_image(image, beside) || rename(beside, name) != 0) {
        remove(beside);
        return tell("cannot write", name);
    }
    return 0;
}

int image_file_restore(struct bench *bench, const char *name)
{
    uint8_t image[IMAGE_BYTES];
    FILE *file = fopen(name, "rb");
    if (file == NULL)
        return tell("cannot open", name);
    /* S98: what stands behind the image is not looked at. The newest is the
       longest. */
    size_t length = fread(image, 1, IMAGE_BYTES, file);
    bool failed = ferror(file) != 0;
    fclose(file);
    if (failed)
        return tell("cannot read", name);
    enum refusal refusal = image_restore(bench, image, length, 0);
    if (refusal != REFUSAL_NONE)
        fprintf(stderr, "restore %u\n", (unsigned)refusal);
    return refusal == REFUSAL_NONE ? 0 : 1;
}
