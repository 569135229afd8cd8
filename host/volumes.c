/*
 * Makes volumes with the library's calls, and beside each what another disk manager must find on it:
 *
 *     volumes FOLDER
 *
 * writes for each volume NAME.dsk, NAME.dir (a line a file, in the order of names: name, bytes on the disk
 * with the descriptor, kind, R/O if protected; then the free bytes), NAME.marks (a line a file: name, and M
 * or a hyphen for its backup mark) and NAME.FILE.tif for each file, in the form in which files are handed
 * over between disk managers: 128 bytes of header, then the file's sectors. All of it comes from what the
 * calls were asked to do; nothing is read back from the volume.
 */
#include <stdio.h>
#include <stdlib.h>
#include <string.h>

#include "pnoelithe.h"

#define SECTOR PNO_SECTOR_BYTES
#define MOST_FILES 40
#define PROTECTED 0x08
#define MARKED 0x10
#define PROGRAM 0x01
#define ROOT 0

/* The disks that the other manager takes: its n is the product of the first three. */
struct geometry {
    const char *title;
    uint8_t sectors_per_track, tracks, sides, density;
    unsigned steps; /* how many calls are made on it by chance; where none, each of the lengths is stored */
    uint32_t layout; /* by which all of them are */
};

static const struct geometry geometries[] = {
    {"sssd-360", 9, 40, 1, 1, 60, 0},
    {"dssd-720", 9, 40, 2, 1, 400, 0},
    {"sssd-360-worn", 9, 40, 1, 1, 3000, 0},
    {"dsdd-1440", 18, 40, 2, 2, 1000, 0},
    {"dsdd-1440-worn", 18, 40, 2, 2, 6000, 0},
    {"sssd-360-lengths", 9, 40, 1, 1, 0, 0},
    {"sssd-360-marks", 9, 40, 1, 1, 60, PNO_MARKS},
    {"dssd-720-marks", 9, 40, 2, 1, 400, PNO_MARKS},
    {"dsdd-1440-worn-marks", 18, 40, 2, 2, 6000, PNO_MARKS},
};

/* The lengths of programs that matter: of no byte, around whole sectors, and the longest. */
static const size_t lengths[] = {0, 1, 255, 256, 257, 512, 8192, PNO_PROGRAM_MOST};

#define LENGTHS (sizeof lengths / sizeof lengths[0])

/* A file as the calls were asked to make it. */
struct file {
    uint8_t header[PNO_HEADER_BYTES];
    uint8_t *bytes;
    size_t sectors;
};

static uint8_t image[PNO_IMAGE_MOST];
static uint8_t medium[PNO_IMAGE_MOST]; /* formatted as a whole, and from then on written sector by sector */
static size_t image_len;
static uint32_t layout;
static struct file files[MOST_FILES];
static size_t file_count;
static size_t free_sectors;
static uint64_t state;
static size_t which, wrong; /* what is wrong with a name; the names here keep the rule */
static struct pno_changes changes;

static void fail(const char *what) {
    fprintf(stderr, "volumes: %s\n", what);
    exit(1);
}

/* A number below a bound; the same in every run. */
static size_t below(size_t bound) {
    state = state * 6364136223846793005u + 1442695040888963407u;
    return (size_t)(state >> 33) % bound;
}

static void fill(uint8_t *bytes, size_t length) {
    for (size_t i = 0; i < length; i++)
        bytes[i] = (uint8_t)below(256);
}

static void any_name(uint8_t name[10]) {
    static const char letters[] = "ABCDEFGHIJKLMNOPQRSTUVWXYZ0123456789-";
    size_t used = 1 + below(10);
    memset(name, ' ', 10);
    for (size_t i = 0; i < used; i++)
        name[i] = (uint8_t)letters[below(i == 0 ? 26 : sizeof letters - 1)];
}

static struct file *find(const uint8_t name[10]) {
    for (size_t i = 0; i < file_count; i++)
        if (memcmp(files[i].header, name, 10) == 0)
            return &files[i];
    return NULL;
}

/* The number must be the one that what is known here leads to; the chain's length is not known here. */
static int is_done(uint32_t number, uint32_t expected) {
    if (number != expected && !(expected == PNO_DONE && number == PNO_CHAIN_FULL))
        fail("a call gives an unexpected number");
    for (uint32_t i = 0; i < changes.writes; i++) {
        size_t at = SECTOR * changes.order[i];
        memcpy(medium + at, image + at, SECTOR);
    }
    return number == PNO_DONE;
}

/* A file that was made or changed has the mark, where there are marks. */
static void mark(struct file *file) {
    if (layout & PNO_MARKS)
        file->header[12] |= MARKED;
}

static struct file *add(const uint8_t name[10], uint8_t status) {
    struct file *file = &files[file_count++];
    memset(file, 0, sizeof *file);
    memcpy(file->header, name, 10);
    file->header[12] = status;
    mark(file);
    return file;
}

/* Puts bytes at the end of a file, the rest of the last sector zero. */
static void grow(struct file *file, const uint8_t *bytes, size_t length, size_t sectors) {
    size_t old = file->sectors * SECTOR;
    file->sectors += sectors;
    file->bytes = realloc(file->bytes, file->sectors * SECTOR);
    if (file->bytes == NULL)
        fail("no memory");
    memset(file->bytes + old, 0, sectors * SECTOR);
    memcpy(file->bytes + old, bytes, length);
    file->header[14] = (uint8_t)(file->sectors / 256);
    file->header[15] = (uint8_t)(file->sectors % 256);
    free_sectors -= sectors;
}

static void store_length(size_t length) {
    static uint8_t bytes[PNO_PROGRAM_MOST];
    size_t sectors = (length + SECTOR - 1) / SECTOR;
    uint8_t name[10];
    any_name(name);
    fill(bytes, length);
    uint32_t expected = find(name) ? PNO_PRESENT : free_sectors < sectors + 1 ? PNO_DISK_FULL : PNO_DONE;
    if (is_done(pno_store(image, image_len, layout, ROOT, name, 10, bytes, length, &wrong, &changes),
                expected)) {
        struct file *file = add(name, PROGRAM);
        file->header[16] = (uint8_t)(length % SECTOR);
        free_sectors -= 1;
        if (sectors > 0)
            grow(file, bytes, length, sectors);
    }
}

static void store(void) {
    store_length(below(3) == 0 ? lengths[below(LENGTHS)] : below(6000));
}

static void store_each_length(void) {
    for (size_t i = 0; i < LENGTHS; i++)
        store_length(lengths[i]);
    if (file_count != LENGTHS)
        fail("a length is not stored");
}

static void create(void) {
    static const uint8_t statuses[] = {0x00, 0x02, 0x80, 0x82};
    uint8_t name[10], status = statuses[below(4)], length = (uint8_t)(1 + below(254));
    uint8_t records = status & 0x80 ? 255 / length : 256 / length;
    any_name(name);
    uint32_t expected = find(name) ? PNO_PRESENT : free_sectors < 1 ? PNO_DISK_FULL : PNO_DONE;
    if (is_done(pno_create(image, image_len, layout, ROOT, name, 10, status, length, records, &wrong,
                           &changes),
                expected)) {
        struct file *file = add(name, status);
        file->header[13] = records;
        file->header[17] = length;
        free_sectors -= 1;
    }
}

/* What protection and kind say of a call on data. */
static uint32_t expected_of(const struct file *file) {
    uint8_t status = file->header[12];
    return status & PROTECTED ? PNO_PROTECTED : status & PROGRAM ? PNO_KIND : PNO_DONE;
}

static void append(struct file *file) {
    uint8_t data[SECTOR];
    uint32_t expected = expected_of(file);
    fill(data, SECTOR);
    if (expected == PNO_DONE && free_sectors < 1)
        expected = PNO_DISK_FULL;
    if (is_done(pno_append(image, image_len, layout, ROOT, file->header, 10, data, SECTOR, &wrong, &changes),
                expected)) {
        grow(file, data, SECTOR, 1);
        mark(file);
    }
}

static void overwrite(struct file *file) {
    uint8_t data[SECTOR];
    size_t offset = below(file->sectors + 1);
    uint32_t expected = expected_of(file);
    fill(data, SECTOR);
    if (expected == PNO_DONE && offset >= file->sectors)
        expected = PNO_ARGUMENT;
    if (is_done(pno_overwrite(image, image_len, layout, ROOT, file->header, 10, offset, data, SECTOR, &wrong,
                              &changes),
                expected)) {
        memcpy(file->bytes + offset * SECTOR, data, SECTOR);
        mark(file);
    }
}

static void delete(struct file *file) {
    uint32_t expected = file->header[12] & PROTECTED ? PNO_PROTECTED : PNO_DONE;
    if (is_done(pno_delete(image, image_len, layout, ROOT, file->header, 10, &wrong, &changes), expected)) {
        free_sectors += 1 + file->sectors;
        free(file->bytes);
        *file = files[--file_count];
    }
}

static void rename_file(struct file *file) {
    uint8_t name[10];
    any_name(name);
    uint32_t expected = find(name) ? PNO_PRESENT : file->header[12] & PROTECTED ? PNO_PROTECTED : PNO_DONE;
    if (is_done(pno_rename(image, image_len, layout, ROOT, file->header, 10, name, 10, &which, &wrong,
                           &changes),
                expected)) {
        memcpy(file->header, name, 10);
        mark(file);
    }
}

static void protect(struct file *file) {
    if (is_done(pno_protect(image, image_len, layout, ROOT, file->header, 10, &wrong, &changes), PNO_DONE))
        file->header[12] |= PROTECTED;
}

static void unprotect(struct file *file) {
    if (is_done(pno_unprotect(image, image_len, layout, ROOT, file->header, 10, &wrong, &changes), PNO_DONE))
        file->header[12] &= (uint8_t)~PROTECTED;
}

static void clear_mark(struct file *file) {
    if (is_done(pno_clear_mark(image, image_len, layout, ROOT, file->header, 10, &wrong, &changes), PNO_DONE))
        file->header[12] &= (uint8_t)~MARKED;
}

static void step(void) {
    static void (*const on_file[])(struct file *) = {append, append,      append,  append,    overwrite,
                                                     delete, rename_file, protect, unprotect, clear_mark};
    /* Clearing comes last: without marks there are none to clear. */
    size_t calls = sizeof on_file / sizeof on_file[0] - (layout & PNO_MARKS ? 0 : 1);
    size_t sort = below(12);
    if (file_count == 0 || (sort < 3 && file_count < MOST_FILES))
        (sort % 2 ? create : store)();
    else
        on_file[below(calls)](&files[below(file_count)]);
}

static void format(const struct geometry *of) {
    size_t n = (size_t)of->sectors_per_track * of->tracks * of->sides;
    image_len = SECTOR * n;
    layout = of->layout;
    file_count = 0;
    free_sectors = n - 2;
    changes.writes = 0;
    is_done(pno_format(image, image_len, n, (const uint8_t *)"WRITTEN   ", 10, of->sectors_per_track,
                       of->tracks, of->sides, of->density, &wrong),
            PNO_DONE);
    memcpy(medium, image, image_len);
}

static FILE *create_file(const char *folder, const char *title, const char *ending) {
    char path[4096];
    snprintf(path, sizeof path, "%s/%s%s", folder, title, ending);
    FILE *file = fopen(path, "wb");
    if (file == NULL)
        fail(path);
    return file;
}

static void close_file(FILE *file) {
    if (ferror(file) || fclose(file) != 0)
        fail("a file cannot be written");
}

static int used(const uint8_t name[10]) {
    int length = 10;
    while (length > 0 && name[length - 1] == ' ')
        length--;
    return length;
}

static void write_row(FILE *rows, const struct file *file) {
    uint8_t status = file->header[12];
    size_t bytes = SECTOR * (1 + file->sectors);
    fprintf(rows, "%.*s %zu ", used(file->header), (const char *)file->header, bytes);
    if (status & PROGRAM)
        fprintf(rows, "PGM");
    else
        fprintf(rows, "%c/%c %u", status & 0x02 ? 'I' : 'D', status & 0x80 ? 'V' : 'F', file->header[17]);
    fprintf(rows, "%s\n", status & PROTECTED ? " R/O" : "");
}

static void write_file(const char *folder, const char *title, const struct file *file) {
    uint8_t header[128] = {7, 'T', 'I', 'F', 'I', 'L', 'E', 'S'};
    char ending[20];
    header[8] = file->header[14];
    header[9] = file->header[15];
    header[10] = file->header[12];
    header[11] = file->header[13];
    header[12] = file->header[16];
    header[13] = file->header[17];
    snprintf(ending, sizeof ending, ".%.*s.tif", used(file->header), (const char *)file->header);
    FILE *tif = create_file(folder, title, ending);
    fwrite(header, 1, sizeof header, tif);
    fwrite(file->bytes, 1, file->sectors * SECTOR, tif);
    close_file(tif);
}

static int by_name(const void *one, const void *other) {
    return memcmp(((const struct file *)one)->header, ((const struct file *)other)->header, 10);
}

static void write_volume(const char *folder, const char *title) {
    FILE *volume = create_file(folder, title, ".dsk");
    fwrite(medium, 1, image_len, volume);
    close_file(volume);
    if (memcmp(medium, image, image_len) != 0)
        fail("a sector is changed and not written");
    FILE *rows = create_file(folder, title, ".dir"), *marks = create_file(folder, title, ".marks");
    qsort(files, file_count, sizeof files[0], by_name);
    for (size_t i = 0; i < file_count; i++) {
        const uint8_t *header = files[i].header;
        write_row(rows, &files[i]);
        fprintf(marks, "%.*s %c\n", used(header), (const char *)header, header[12] & MARKED ? 'M' : '-');
        write_file(folder, title, &files[i]);
    }
    fprintf(rows, "%zu bytes free\n", SECTOR * free_sectors);
    close_file(rows);
    close_file(marks);
}

int main(int argc, char **argv) {
    if (argc != 2)
        fail("a folder?");
    for (size_t i = 0; i < sizeof geometries / sizeof geometries[0]; i++) {
        const struct geometry *geometry = &geometries[i];
        state = i + 1;
        format(geometry);
        for (unsigned steps = 0; steps < geometry->steps; steps++)
            step();
        if (geometry->steps == 0)
            store_each_length();
        write_volume(argv[1], geometry->title);
    }
    return 0;
}
