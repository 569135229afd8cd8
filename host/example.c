/*
 * A host program: judges a disk image, shows what is on it, takes files from it, puts files on it, and packs
 * it.
 *
 *     make
 *     cc -Iinclude host/example.c target/staticlib/libpnoelithe.a -o example
 *     ./example IMAGE                        the catalogue
 *     ./example IMAGE judge                  whether it is a sound volume, and if not, why
 *     ./example IMAGE load NAME FILE         the program NAME into FILE
 *     ./example IMAGE read NAME FILE         the sectors of NAME, whatever its kind, into FILE
 *     ./example IMAGE store NAME FILE        FILE as a new program NAME
 *     ./example IMAGE append NAME FILE       FILE at the end of the data file NAME, which is made where
 *                                            there is none; the rest of the last sector is zero
 *     ./example IMAGE overwrite NAME OFFSET FILE
 *                                            FILE, of 256 bytes, in place of a sector of the data file
 *                                            NAME; offsets count from 0
 *     ./example IMAGE delete NAME
 *     ./example IMAGE rename NAME NEW        the file NAME under the name NEW
 *     ./example IMAGE protect NAME           the file NAME with protection
 *     ./example IMAGE unprotect NAME         the file NAME without
 *     ./example IMAGE clear NAME             the file NAME without its backup mark
 *     ./example IMAGE repair                 a sound volume again of what a command has left that was
 *                                            stopped while it wrote
 *     ./example IMAGE pack FILE              the packed volume into FILE; IMAGE stays as it is
 *
 * -m in front of IMAGE goes by the rule that has backup marks: files may have one, those that are made or
 * changed get one, and the catalogue ends each file's line in M for the mark or in a hyphen. Without -m an
 * image with a mark is no sound volume. A mark is cleared by that rule in any case.
 *
 * -d DIRECTORY in front of IMAGE, before -m or behind it, goes by the second edition, which has directories:
 * the command is on the files of one, 1 to 3 as sector 0 has them, and 0 is the root. judge, repair and pack
 * take the whole image, whichever number is given. Without -d an image with a directory is no sound volume,
 * and repair makes one of it that has the root alone.
 *
 * Status 0: all is done. 1: a call is refused, and no file is written. 2: something cannot be read or
 * written, or the words are not those above. Standard error says why, and of a name that breaks its rule
 * which character does, counted from 1.
 *
 * IMAGE is written in place: the sectors that a call has changed, one at a time and in the library's order,
 * each of them on the medium before the next is written. Where the program is stopped meanwhile, or a sector
 * cannot be written, repair by the same options leaves a sound volume with the files before the command or
 * with those after it. append makes a call for each sector: then the file may have some of them.
 *
 * FILE is replaced as a whole: its bytes go to a file pnoelithe-XXXXXX beside it, which takes its name when
 * they are on the medium. Where that fails, the old file is as it was. It is so too where the program is
 * killed meanwhile; then the other file may be left.
 */
#define _XOPEN_SOURCE 700 /* POSIX of 2008, and realpath */

#include <errno.h>
#include <fcntl.h>
#include <limits.h>
#include <stdio.h>
#include <stdlib.h>
#include <string.h>
#include <sys/stat.h>
#include <unistd.h>

#include "pnoelithe.h"

#define TEMPORARY "pnoelithe-XXXXXX"
#define DISPLAY_FIXED 0x00

static uint8_t image[PNO_IMAGE_MOST + 1]; /* one byte more: an image that is too long has number 1 */
static size_t image_len;
static const char *image_path;
static int medium = -1; /* the image's file, from the first sector on that is written through */
static int is_trial;    /* calls are made to see whether one is refused, and no sector is written */
static uint32_t layout;   /* the rules that all calls go by */
static size_t directory; /* whose files they are on */
static size_t offset;    /* of the sector that is overwritten */
static uint8_t bytes[PNO_IMAGE_MOST + 1];

/* A name as it is lent: with its padding; of one that is too long, a byte more than names have. */
struct name {
    uint8_t bytes[PNO_NAME_BYTES + 1];
    size_t len;
};

/* With number 7: where the name is wrong, and of a rename which of its two names it is. */
static size_t wrong, which;

/* The sectors that a call has changed; none where it is refused. */
static struct pno_changes changes;

/* Ends the program where something cannot be read or written; errno says why. */
_Noreturn static void fail(const char *verb, const char *path) {
    fprintf(stderr, "cannot %s %s: %s\n", verb, path, strerror(errno));
    exit(2);
}

/* Reads a file into a buffer; of a longer one, as much as the buffer takes. */
static size_t read_file(const char *path, uint8_t *buffer, size_t room) {
    FILE *file = fopen(path, "rb");
    size_t length = file == NULL ? 0 : fread(buffer, 1, room, file);
    if (file == NULL || ferror(file))
        fail("read", path);
    fclose(file);
    return length;
}

/* From here to write_file a function gives 0, or -1 and the reason in errno. */
static int write_bytes(int file, const uint8_t *buffer, size_t length) {
    while (length > 0) {
        ssize_t written = write(file, buffer, length);
        if (written < 0 && errno != EINTR)
            return -1;
        if (written > 0) {
            buffer += written;
            length -= (size_t)written;
        }
    }
    return 0;
}

/* Waits until what was written is on the medium. A pipe has none, and some folders know no such call. */
static int settle(int file) {
    return fsync(file) == 0 || errno == EINVAL ? 0 : -1;
}

/* Closes a file and gives the result of what was done with it before. */
static int closed(int file, int result) {
    int reason = errno;
    if (close(file) != 0 && result == 0)
        return -1;
    errno = reason;
    return result;
}

/* Owner, group and mode of the file that is replaced. */
static int take_after(int file, const struct stat *old) {
    struct stat now;
    if (fstat(file, &now) != 0)
        return -1;
    if (now.st_uid != old->st_uid || now.st_gid != old->st_gid)
        if (fchown(file, old->st_uid, old->st_gid) != 0)
            return -1;
    return now.st_mode == old->st_mode ? 0 : fchmod(file, old->st_mode & 07777);
}

/* The mode of any new file, where it is not the file system that gives modes. */
static int take_default(int file) {
    mode_t mask = umask(0);
    umask(mask);
    return fchmod(file, 0666 & ~mask) == 0 || errno == EPERM ? 0 : -1;
}

static int fill(int file, const struct stat *old, const uint8_t *buffer, size_t length) {
    if ((old != NULL ? take_after(file, old) : take_default(file)) != 0)
        return closed(file, -1);
    if (write_bytes(file, buffer, length) != 0)
        return closed(file, -1);
    return closed(file, settle(file));
}

/* Makes the file under its temporary name and gives it its own; what is not finished is removed. */
static int make(char *temporary, const char *path, const struct stat *old, const uint8_t *buffer,
                size_t length) {
    int file = mkstemp(temporary);
    if (file < 0)
        return -1;
    if (fill(file, old, buffer, length) == 0 && rename(temporary, path) == 0)
        return 0;
    int reason = errno;
    unlink(temporary);
    errno = reason;
    return -1;
}

/* Gives 1 where the file is in its place, and a loss of power might still bring the old one back. */
static int replace(const char *path, const struct stat *old, const uint8_t *buffer, size_t length) {
    const char *slash = strrchr(path, '/');
    size_t before = slash == NULL ? 0 : (size_t)(slash - path) + 1;
    char beside[PATH_MAX];
    if (before + sizeof TEMPORARY > sizeof beside) {
        errno = ENAMETOOLONG;
        return -1;
    }
    memcpy(beside, path, before);
    strcpy(beside + before, ".");
    int folder = open(beside, O_RDONLY | O_DIRECTORY);
    if (folder < 0)
        return -1;
    strcpy(beside + before, TEMPORARY);
    int result = make(beside, path, old, buffer, length);
    if (result == 0 && settle(folder) != 0)
        result = 1;
    int reason = errno;
    close(folder);
    errno = reason;
    return result;
}

static int write_into(const char *path, const uint8_t *buffer, size_t length) {
    int file = open(path, O_WRONLY);
    if (file < 0)
        return -1;
    if (write_bytes(file, buffer, length) != 0)
        return closed(file, -1);
    return closed(file, settle(file));
}

/*
 * A symbolic link stays, and the file that it leads to is replaced; one that leads nowhere is an error. So
 * is a file that may not be written, though its folder may. A pipe or a device is written into.
 */
static int replace_or_write(const char *path, const uint8_t *buffer, size_t length) {
    struct stat old;
    char target[PATH_MAX];
    if (stat(path, &old) != 0) {
        if (errno != ENOENT || lstat(path, &old) == 0)
            return -1;
        return replace(path, NULL, buffer, length);
    }
    if (!S_ISREG(old.st_mode))
        return write_into(path, buffer, length);
    if (realpath(path, target) == NULL || access(target, W_OK) != 0)
        return -1;
    return replace(target, &old, buffer, length);
}

static void write_file(const char *path, const uint8_t *buffer, size_t length) {
    int result = replace_or_write(path, buffer, length);
    if (result != 0)
        fail(result < 0 ? "write" : "sync the folder of", path);
}

/* The sector is on the medium when this comes back. Gives 0, or -1 and the reason in errno. */
static int write_sector(uint32_t sector, int *is_begun) {
    size_t at = (size_t)sector * PNO_SECTOR_BYTES, end = at + PNO_SECTOR_BYTES;
    while (at < end) {
        ssize_t written = pwrite(medium, image + at, end - at, (off_t)at);
        if (written < 0 && errno != EINTR)
            return -1;
        if (written > 0) {
            at += (size_t)written;
            *is_begun = 1;
        }
    }
    return settle(medium);
}

/* Takes the number of a call that changes the image, whose sectors go to the image's file. */
static uint32_t through(uint32_t number) {
    static int is_begun;
    for (uint32_t i = 0; i < changes.writes && !is_trial; i++) {
        if (medium < 0)
            medium = open(image_path, O_WRONLY);
        if (medium >= 0 && write_sector(changes.order[i], &is_begun) == 0)
            continue;
        fprintf(stderr, "cannot write %s: %s%s\n", image_path, strerror(errno),
                is_begun ? "; it is to be repaired" : "");
        exit(2);
    }
    return number;
}

/* Prints all that there is to print. An output that is closed or full may show it only at the end. */
static void print(const void *text, size_t length) {
    if (fwrite(text, 1, length, stdout) != length || fflush(stdout) != 0 || fclose(stdout) != 0)
        fail("write", "standard output");
}

static struct name padded(const char *word) {
    struct name name;
    size_t length = strlen(word);
    memset(name.bytes, ' ', sizeof name.bytes);
    memcpy(name.bytes, word, length < sizeof name.bytes ? length : sizeof name.bytes);
    name.len = length <= PNO_NAME_BYTES ? PNO_NAME_BYTES : sizeof name.bytes;
    return name;
}

static uint32_t list(void) {
    static uint8_t text[PNO_LISTING_MOST];
    size_t length;
    uint32_t number = pno_listing(image, image_len, layout, directory, text, sizeof text, &length);
    if (number == PNO_DONE)
        print(text, length);
    return number;
}

static uint32_t judge(const struct name *name, const char *path) {
    static const char sound[] = "number 0: a sound volume\n";
    (void)name, (void)path;
    uint32_t number = pno_judge(image, image_len, layout);
    if (number == PNO_DONE)
        print(sound, sizeof sound - 1);
    return number;
}

static uint32_t load(const struct name *name, const char *path) {
    size_t length;
    uint32_t number = pno_load(image, image_len, layout, directory, name->bytes, name->len, bytes,
                               sizeof bytes, &length, &wrong);
    if (number == PNO_DONE)
        write_file(path, bytes, length);
    return number;
}

static uint32_t read_sectors(const struct name *name, const char *path) {
    uint32_t number;
    size_t length = 0, offset = 0;
    while ((number = pno_read(image, image_len, layout, directory, name->bytes, name->len, offset,
                              bytes + length, PNO_SECTOR_BYTES, &wrong)) == PNO_DONE) {
        length += PNO_SECTOR_BYTES;
        offset++;
    }
    if (number != PNO_ARGUMENT)
        return number;
    /* There is no sector at that offset: it is past the last one. */
    write_file(path, bytes, length);
    return PNO_DONE;
}

static uint32_t store(const struct name *name, const char *path) {
    size_t length = read_file(path, bytes, sizeof bytes);
    return through(pno_store(image, image_len, layout, directory, name->bytes, name->len, bytes, length,
                             &wrong, &changes));
}

static uint32_t append_bytes(const struct name *name, size_t length) {
    uint32_t number = through(pno_create(image, image_len, layout, directory, name->bytes, name->len,
                                         DISPLAY_FIXED, 128, 2, &wrong, &changes));
    if (number == PNO_PRESENT)
        number = PNO_DONE;
    for (size_t at = 0; at < length && number == PNO_DONE; at += PNO_SECTOR_BYTES) {
        uint8_t sector[PNO_SECTOR_BYTES] = {0};
        memcpy(sector, bytes + at, length - at < sizeof sector ? length - at : sizeof sector);
        number = through(pno_append(image, image_len, layout, directory, name->bytes, name->len, sector,
                                    sizeof sector, &wrong, &changes));
    }
    return number;
}

/* Several calls, of which a later one may be refused: no sector is written unless none of them is. */
static uint32_t append(const struct name *name, const char *path) {
    static uint8_t before[sizeof image];
    size_t length = read_file(path, bytes, sizeof bytes);
    memcpy(before, image, image_len);
    is_trial = 1;
    uint32_t number = append_bytes(name, length);
    is_trial = 0;
    if (number != PNO_DONE)
        return number;
    memcpy(image, before, image_len);
    return append_bytes(name, length);
}

static uint32_t overwrite(const struct name *name, const char *path) {
    size_t length = read_file(path, bytes, sizeof bytes);
    return through(pno_overwrite(image, image_len, layout, directory, name->bytes, name->len, offset, bytes,
                                 length, &wrong, &changes));
}

static uint32_t delete(const struct name *name, const char *path) {
    (void)path;
    return through(pno_delete(image, image_len, layout, directory, name->bytes, name->len, &wrong, &changes));
}

static uint32_t rename_file(const struct name *name, const char *path) {
    struct name other = padded(path);
    return through(pno_rename(image, image_len, layout, directory, name->bytes, name->len, other.bytes,
                              other.len, &which, &wrong, &changes));
}

static uint32_t protect(const struct name *name, const char *path) {
    (void)path;
    return through(pno_protect(image, image_len, layout, directory, name->bytes, name->len, &wrong, &changes));
}

static uint32_t unprotect(const struct name *name, const char *path) {
    (void)path;
    return through(
        pno_unprotect(image, image_len, layout, directory, name->bytes, name->len, &wrong, &changes));
}

static uint32_t clear_mark(const struct name *name, const char *path) {
    (void)path;
    return through(
        pno_clear_mark(image, image_len, layout, directory, name->bytes, name->len, &wrong, &changes));
}

static uint32_t repair(const struct name *name, const char *path) {
    (void)name, (void)path;
    return through(pno_repair(image, image_len, layout, &changes));
}

static uint32_t pack(const struct name *name, const char *path) {
    (void)name;
    uint32_t number = pno_pack(image, image_len, layout, bytes, image_len);
    if (number == PNO_DONE)
        write_file(path, bytes, image_len);
    return number;
}

static const struct command {
    const char *word;
    int words; /* of the command line without options: the first after the command as a name, of six words
                  the second as an offset, the last as a path or as the new name */
    uint32_t (*call)(const struct name *name, const char *path);
} commands[] = {{"judge", 3, judge},         {"load", 5, load},          {"read", 5, read_sectors},
                {"store", 5, store},         {"append", 5, append},      {"overwrite", 6, overwrite},
                {"delete", 4, delete},       {"rename", 5, rename_file}, {"protect", 4, protect},
                {"unprotect", 4, unprotect}, {"clear", 4, clear_mark},   {"repair", 3, repair},
                {"pack", 4, pack}};

/* Says where a name is wrong: the first word after the command, or of a rename the one behind it. */
static void explain(char **words) {
    const char *word = words[3 + which];
    const char *title = strcmp(words[2], "rename") != 0 ? "name" : which == 0 ? "old name" : "new name";
    if (wrong == PNO_NAME_BYTES)
        fprintf(stderr, ": the %s has more than %d characters", title, PNO_NAME_BYTES);
    else if (word[strspn(word, " ")] == '\0')
        fprintf(stderr, ": the %s is blank", title);
    else
        fprintf(stderr, ": character %zu of the %s", wrong + 1, title);
}

/* A number in decimal digits; gives 0 where the word is none. */
static int is_number(const char *word, size_t *number) {
    char *end;
    if (word[0] < '0' || word[0] > '9')
        return 0;
    *number = strtoul(word, &end, 10);
    return *end == '\0';
}

/* Takes an option from the front of some words; gives how many words it has, or 0 where there is none. */
static int option(int count, char **words) {
    if (count > 0 && strcmp(words[0], "-m") == 0) {
        layout |= PNO_MARKS;
        return 1;
    }
    /* Any number will do: the library says where there is no such directory. */
    if (count < 2 || strcmp(words[0], "-d") != 0 || !is_number(words[1], &directory))
        return 0;
    layout |= PNO_DIRECTORIES;
    return 2;
}

int main(int argc, char **argv) {
    const struct command *command = NULL;
    for (int taken; (taken = option(argc - 1, argv + 1)) > 0; argc -= taken)
        argv += taken;
    for (size_t i = 0; i < sizeof commands / sizeof commands[0]; i++)
        if (argc == commands[i].words && strcmp(argv[2], commands[i].word) == 0)
            command = &commands[i];
    if ((argc != 2 && command == NULL) || strcmp(argv[1], "-d") == 0 ||
        (argc == 6 && !is_number(argv[4], &offset))) {
        fprintf(stderr, "usage: example [-m] [-d DIRECTORY] IMAGE [judge | (load | read | store | append) "
                        "NAME FILE | overwrite NAME OFFSET FILE | (delete | protect | unprotect | clear) NAME "
                        "| rename NAME NEW | repair | pack FILE]\n");
        return 2;
    }
    image_path = argv[1];
    image_len = read_file(image_path, image, sizeof image);
    uint32_t number;
    if (command == NULL) {
        number = list();
    } else {
        struct name name = padded(argc > 3 ? argv[3] : "");
        number = command->call(&name, argv[argc - 1]);
    }
    if (number != PNO_DONE) {
        fprintf(stderr, "refused, number %u: %s", (unsigned)number, pno_text(number));
        if (number == PNO_NAME)
            explain(argv);
        fprintf(stderr, "\n");
        return 1;
    }
    if (medium >= 0 && close(medium) != 0)
        fail("write", image_path);
    return 0;
}
