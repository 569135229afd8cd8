/*
 * A shelf of images in the current folder, for the program masters:
 *
 *     shelf COUNT SECTORS
 *
 * Each is a volume of its own, but the tenth of each ten has the label and the file of the fifth, which lies
 * in other sectors of it, with other remains.
 */
#include <stdio.h>
#include <stdlib.h>
#include <string.h>

#include "pnoelithe.h"

#define PROGRAM_BYTES 5000

static uint8_t image[PNO_IMAGE_MOST];
static uint8_t program[PROGRAM_BYTES];
static size_t wrong;               /* where a name is; the names here are not */
static struct pno_changes changes; /* the images are written as a whole */

static void done(uint32_t number) {
    if (number != PNO_DONE) {
        fprintf(stderr, "refused, number %u: %s\n", (unsigned)number, pno_text(number));
        exit(1);
    }
}

static void store(size_t length, const char *name) {
    done(pno_store(image, length, 0, 0, (const uint8_t *)name, PNO_NAME_BYTES, program, sizeof program,
                   &wrong, &changes));
}

/* A volume with one program, which begins with this number; moved, it has the sectors of a second one. */
static void make(size_t sectors, unsigned long number, int moved) {
    size_t length = sectors * PNO_SECTOR_BYTES;
    done(pno_format(image, length, sectors, (const uint8_t *)"SHELF     ", PNO_NAME_BYTES, 9, 40, 1, 1,
                    &wrong));
    if (moved)
        store(length, "GONE      ");
    for (size_t i = 0; i < sizeof program; i++)
        program[i] = (uint8_t)(i < 4 ? number >> (8 * i) : i);
    store(length, "PROGRAM   ");
    if (moved)
        done(pno_delete(image, length, 0, 0, (const uint8_t *)"GONE      ", PNO_NAME_BYTES, &wrong,
                        &changes));
}

int main(int argc, char **argv) {
    unsigned long count = argc == 3 ? strtoul(argv[1], NULL, 10) : 0;
    size_t sectors = argc == 3 ? strtoul(argv[2], NULL, 10) : 0;
    if (count == 0 || count > 999999 || sectors > PNO_SECTORS_MOST) {
        fprintf(stderr, "usage: shelf COUNT SECTORS\n");
        return 2;
    }
    for (unsigned long i = 1; i <= count; i++) {
        char path[32];
        make(sectors, i % 10 == 0 ? i - 5 : i, i % 10 == 0);
        snprintf(path, sizeof path, "%06lu.dsk", i);
        FILE *file = fopen(path, "wb");
        size_t length = sectors * PNO_SECTOR_BYTES;
        if (file == NULL || fwrite(image, 1, length, file) != length || fclose(file) != 0) {
            perror(path);
            return 2;
        }
    }
    return 0;
}
