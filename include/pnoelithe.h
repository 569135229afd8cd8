/*
 * Pnoelithe: volumes of TI-99/4A disks in lent memory.
 *
 * The functions are those of the static library libpnoelithe.a (make), for x86-64 Linux,
 * in C or in any language that calls C. Each is proved to give, for every image and every argument, exactly
 * the number and the bytes that the rules define; none keeps state, allocates, or leaves anything for the
 * caller to have checked.
 *
 * Conventions of every call
 *   - The name begins with pno_.
 *   - A buffer is a pointer and, right after it, its length in bytes.
 *   - Every call but pno_format has, right after its first buffer, the layout by which it reads that image:
 *     see The layout. Every call on one file, pno_entry and pno_listing have right after it the directory:
 *     see Directories.
 *   - No pointer is null. For an empty buffer lend the address of any byte, and length 0. In C++ the data()
 *     of an empty std::vector may be null:
 *         const uint8_t none = 0, *bytes = v.empty() ? &none : v.data();
 *         pno_store(image, image_len, layout, directory, name, name_len, bytes, v.size(), &wrong, &changes);
 *   - What a call writes, the image among it, overlaps nothing else that is lent to it: no buffer, and
 *     nothing behind another pointer.
 *   - Counts, places and offsets are size_t. A value goes back through a pointer (size_t *, a name's ten
 *     bytes), which is not null either, also where the host has no use for that value.
 *   - Every call that changes an image, but for pno_format and pno_pack, has changes as its last argument:
 *     which sectors are to be written through, and in which order; see What a call changes.
 *   - The result is one of the numbers below. With any number but 0 the call has written nothing: no byte of
 *     a buffer, and behind pointers only, with 7, where a name is wrong (wrong and which, see Names), and the
 *     0 that says that no sector is to be written (changes).
 *   - Threads: the library has no state, so calls on different images may be made on any threads at the same
 *     time. Of one image there may be several readers at a time, or one writer and no reader beside it.
 *   - Stack is what a call takes of it at most, in the archive as it is built: all below the call's
 *     arguments, so with the return address. memcpy and memset, which the host provides, count with theirs
 *     alone.
 */
#ifndef PNOELITHE_H
#define PNOELITHE_H

#include <stddef.h>
#include <stdint.h>

#ifdef __cplusplus
extern "C" {
#endif

/* The version. While the major number is 0, the interface may change with each minor one. */
#define PNO_VERSION_MAJOR 0
#define PNO_VERSION_MINOR 6
#define PNO_VERSION_PATCH 0
#define PNO_QUOTED(word) #word
#define PNO_DOTTED(major, minor, patch) PNO_QUOTED(major) "." PNO_QUOTED(minor) "." PNO_QUOTED(patch)
#define PNO_VERSION PNO_DOTTED(PNO_VERSION_MAJOR, PNO_VERSION_MINOR, PNO_VERSION_PATCH) /* as a text */

#define PNO_SECTOR_BYTES 256   /* the bytes of a sector */
#define PNO_NAME_BYTES 10      /* the bytes of a disk's or a file's name, with its padding */
#define PNO_HEADER_BYTES 28    /* the bytes of a descriptor that pno_entry gives */
#define PNO_SECTORS_LEAST 3    /* the fewest sectors of a volume */
#define PNO_SECTORS_MOST 1600  /* the most sectors of a volume */
#define PNO_IMAGE_MOST 409600  /* the most bytes of a volume's image */
#define PNO_FILES_MOST 127     /* the most files of the root or of a directory */
#define PNO_LISTING_MOST 4466  /* the most bytes of a listing, by any layout: room for every one */
#define PNO_PROGRAM_MOST 32768 /* the most bytes that a store takes */
#define PNO_LOADED_MOST 408832 /* the most bytes that a load gives: 1,597 full sectors */
#define PNO_WRITES_MOST 131    /* the most sectors that a call writes: 128 of data and three */

/* The numbers a call gives back. Where several are due, the first in this order is given. */
enum pno_number {
    PNO_DONE = 0,        /* done; of an image: a sound volume */
    PNO_LENGTH = 1,      /* the image's length is not 256 x n for n from 3 to 1,600 */
    PNO_LABEL = 2,       /* sector 0: bad disk name, n or "DSK" */
    PNO_INDEX = 3,       /* sector 1 breaks its range or end rule; with PNO_DIRECTORIES also: the index of a
                            directory does, or an entry breaks a rule of its own */
    PNO_DESCRIPTOR = 4,  /* a descriptor breaks name, status, chain or kind rules, or the names of an index do
                            not ascend; by the kind rule a program without sectors has end offset 0 */
    PNO_TWO_HOLDERS = 5, /* a sector has two holders */
    PNO_MAP = 6,         /* the map is not that of the holders */
    PNO_NAME = 7,        /* a name breaks its rule; where, stands behind wrong */
    PNO_NOT_FOUND = 8,   /* no such directory, no file of that name in it, or no file at that place of its
                            catalogue */
    PNO_PRESENT = 9,     /* there is a file of the new name in the directory already */
    PNO_PROTECTED = 10,  /* the file is protected */
    PNO_KIND = 14,       /* the file is not a program; append and overwrite: it is one */
    PNO_ARGUMENT = 15,   /* a buffer is too short, or data too long or not 256 bytes; the file has no sector
                            at that offset; no file can be created with that status; the target of packing
                            is not as long as its source */
    PNO_INDEX_FULL = 11, /* there are 127 files in the directory already */
    PNO_DISK_FULL = 12,  /* fewer sectors are free than the call takes */
    PNO_CHAIN_FULL = 13  /* the file's chain would need a 77th block */
};

/* The names that 14 and 15 had before. */
#define PNO_NOT_PROGRAM PNO_KIND
#define PNO_SIZE PNO_ARGUMENT

/* A number's text, for a message; of 0 too, and of one that no call gives. */
static inline const char *pno_text(uint32_t number) {
    switch (number) {
    case PNO_DONE:
        return "done";
    case PNO_LENGTH:
        return "the image's length is not that of a volume";
    case PNO_LABEL:
        return "sector 0 is no label";
    case PNO_INDEX:
        return "a directory is no list of files";
    case PNO_DESCRIPTOR:
        return "a file's descriptor breaks a rule";
    case PNO_TWO_HOLDERS:
        return "a sector has two holders";
    case PNO_MAP:
        return "the map is not that of the files";
    case PNO_NAME:
        return "a name breaks its rule";
    case PNO_NOT_FOUND:
        return "there is no such file or directory";
    case PNO_PRESENT:
        return "there is a file of that name already";
    case PNO_PROTECTED:
        return "the file is protected";
    case PNO_KIND:
        return "the file is of another kind";
    case PNO_ARGUMENT:
        return "a length, an offset or a status does not fit";
    case PNO_INDEX_FULL:
        return "there are 127 files already";
    case PNO_DISK_FULL:
        return "too few sectors are free";
    case PNO_CHAIN_FULL:
        return "the free sectors lie in too many pieces";
    default:
        return "no number of this library";
    }
}

/*
 * The layout
 *   By which rules a call reads an image, its caller chooses: 0, or constants of enum pno_layout joined by |.
 *   Other bits are not looked at. The same image may be read by one layout and then by another.
 *
 * The backup mark
 *   Later controllers take bit 10 hex of a file's status, byte 12 of its descriptor, as a mark: the file has
 *   changed since it was last backed up. Which rule holds of that bit, layout says.
 *   Without PNO_MARKS, the old rule: there is no mark. An image on which a file has the bit is number 4.
 *   With PNO_MARKS, the new rule: every file may have the mark, whatever its kind, protected or not.
 *   pno_create, pno_store, pno_append, pno_overwrite and pno_rename set it, in the status of the file that
 *   they make or change, also where it is set; pno_protect, pno_unprotect and pno_pack leave it as it is; the
 *   listing shows it in a field of its own. All else is as without PNO_MARKS.
 *   pno_clear_mark takes the mark away. It always goes by the new rule.
 *   So a volume without any mark is sound by both rules, and one with a mark by the new one alone.
 *
 * Directories
 *   Without PNO_DIRECTORIES, the first edition: there is the root alone, whose index is sector 1. Bytes 20 to
 *   55 of sector 0 are carried.
 *   With PNO_DIRECTORIES, the second edition: these bytes are three entries, each of twelve bytes: a
 *   directory's name, ten bytes, and the number of its index sector, high byte first. Twelve zeros are an
 *   absent entry, and one may stand before another that is there. The names of the directories keep the rule
 *   of names and differ among each other. Each index sector is from 2 to n - 1, is a sector that is held, and
 *   lists files as sector 1 does. A name may stand in several indexes, once in each. Where an entry breaks
 *   these rules, or an index those of sector 1, the number is 3; where names do not ascend in an index, 4;
 *   where a sector is held twice, be it the index of two entries, 5.
 *   The argument directory says which files are meant: 0 those of the root, 1 to 3 those of an entry. What
 *   there is no entry for is 8: an absent one, every number above 3, and without PNO_DIRECTORIES every number
 *   but 0. That is tested right after the names, or right after the image where a call takes no name. 9 and
 *   11 are of the files of the directory alone.
 *   Where a call on a file of the root writes sector 1, one on a file of a directory writes the index sector
 *   of that. No call makes a directory, and pno_format makes a volume without any.
 *   So a volume with zeros in bytes 20 to 55 is the same by both editions; one with a directory is sound by
 *   the second alone, and number 6 by the first where nothing else is wrong with it.
 */
enum pno_layout {
    PNO_MARKS = 1,       /* status bit 10 hex is the backup mark */
    PNO_DIRECTORIES = 2  /* the second edition: sector 0 has the entries of directories */
};

/*
 * Names
 *   The name of a disk, a directory or a file is ten bytes: one to ten printable ones (21 to 7E hex, no dot),
 *   then spaces (20 hex) up to the tenth. A name of another length, or one that breaks the rule, is number 7.
 *   Every call that takes a name has the pointer wrong. With 7 the place of the first wrong byte stands
 *   behind it: 0 to 9, or PNO_NAME_BYTES where the name is not lent as ten bytes. After a space every byte
 *   but a space is wrong, at its own place: "AB C" is wrong at 3, and " A" at 1. Ten spaces are wrong at 0.
 *   A rename, which takes two names, has the pointer which before it: 0 stands there where the old name is
 *   meant, 1 where it is the new one. The new one is tested only where nothing is wrong with the old one.
 *   With any other number, 0 among them, what was behind wrong and which stays. The names on a disk have no
 *   place: the image's own numbers are given for them.
 *
 * What a call gives back
 *   Each call first judges the image (pno_format does not, and pno_repair passes over what it mends) and
 *   gives back 1 to 6 where it is no sound volume.
 *   Bytes go to the front of the lent buffer, and the rest of the buffer stays as it was. A buffer may be
 *   longer than what goes into it, never shorter.
 */

/*
 * Judges an image: 0 where it is a sound volume, else the first of 1 to 6 that is due. The whole image, with
 * PNO_DIRECTORIES every index of it, is tested for 1, then for 2, and so on. A status with bit 10 hex is 4
 * without PNO_MARKS, and not with it.
 *
 * Stack: at most 424 bytes.
 */
uint32_t pno_judge(const uint8_t *image, size_t image_len, uint32_t layout);

/*
 * Makes an empty volume of n sectors of the image, whatever its bytes were: the label with the name, n and
 * the drive's numbers, the map, an empty catalogue, and E5 hex in every byte from sector 2 on.
 *
 * Numbers: 1 where image_len is not 256 x n, or n is not from PNO_SECTORS_LEAST to PNO_SECTORS_MOST; 7.
 * Stack: at most 136 bytes.
 */
uint32_t pno_format(uint8_t *image, size_t image_len, size_t n, const uint8_t *name, size_t name_len,
                    uint8_t sectors_per_track, uint8_t tracks, uint8_t sides, uint8_t density,
                    size_t *wrong);

/*
 * The number of free sectors: the zero bits of the map, which on a sound volume are n less the sectors that
 * the system, the directories and the files hold.
 *
 * Numbers: 1 to 6.
 * Stack: at most 456 bytes.
 */
uint32_t pno_free_count(const uint8_t *image, size_t image_len, uint32_t layout, size_t *free_sectors);

/*
 * A volume's summary: its name with the padding, its number of sectors n, of files, and of free sectors. The
 * files are those of the root and of all directories together.
 *
 * Numbers: 1 to 6.
 * Stack: at most 488 bytes.
 */
uint32_t pno_summary(const uint8_t *image, size_t image_len, uint32_t layout, uint8_t name[PNO_NAME_BYTES],
                     size_t *n, size_t *files, size_t *free_sectors);

/* The kinds of file that pno_entry gives. */
enum pno_kind {
    PNO_PROGRAM = 0,
    PNO_DIS_FIX = 1,
    PNO_DIS_VAR = 2,
    PNO_INT_FIX = 3,
    PNO_INT_VAR = 4
};

/*
 * An entry of a directory's catalogue: the file at a place, counted from 0 in the order of names. The first
 * PNO_HEADER_BYTES of its descriptor go into the header buffer (bytes 0 to 9 are the name), and behind the
 * pointers
 *   kind          one of enum pno_kind
 *   length        a program's length in bytes, which can pass 65,535; else the record length
 *   sectors       the number of its sectors, without the descriptor; 0 of a program of no bytes
 *   is_protected  1 or 0
 * A program's length is 256 x sectors where the end offset, byte 16 of the header, is 0: its last sector is
 * full. Else it is 256 x (sectors - 1) and the end offset. With PNO_MARKS, bit 10 hex of byte 12 of the
 * header is the file's mark; the kind is the same with the mark and without.
 *
 * Numbers: 1 to 6; 8 for no such directory, then past its last file; 15 where header_len is below
 * PNO_HEADER_BYTES.
 * Stack: at most 504 bytes.
 */
uint32_t pno_entry(const uint8_t *image, size_t image_len, uint32_t layout, size_t directory, size_t place,
                   uint8_t *header, size_t header_len, size_t *kind, size_t *length, size_t *sectors,
                   size_t *is_protected);

/*
 * Reads a sector of a file of any kind, protected or not: its 256 bytes. Offsets count from 0.
 *
 * Numbers: 1 to 6; 7; 8; 15 for an offset past the last sector, or where out_len is below PNO_SECTOR_BYTES.
 * Stack: at most 616 bytes.
 */
uint32_t pno_read(const uint8_t *image, size_t image_len, uint32_t layout, size_t directory,
                  const uint8_t *name, size_t name_len, size_t offset, uint8_t *out, size_t out_len,
                  size_t *wrong);

/*
 * Loads a program: its bytes, and their number behind length. Those of a program without sectors are none.
 *
 * Numbers: 1 to 6; 7; 8; 14; 15 where out_len is below the program's length, which is at most
 * PNO_LOADED_MOST.
 * Stack: at most 680 bytes.
 */
uint32_t pno_load(const uint8_t *image, size_t image_len, uint32_t layout, size_t directory,
                  const uint8_t *name, size_t name_len, uint8_t *out, size_t out_len, size_t *length,
                  size_t *wrong);

/*
 * The catalogue of a directory as text, and its length behind length. The first line has disk name, n and
 * free count, whatever the directory; then one line a file of it, in the order of names: name, kind, length
 * in bytes of a program or else record length, sectors, and P or U for protected or not; with PNO_MARKS one
 * field more, M where the file has the mark and a hyphen where it has not. One space between fields, names
 * without their padding, and one newline at the end of each line; no byte of zero ends the text.
 *
 * Numbers: 1 to 6; 8 for no such directory; 15 where out_len is below the text's length, which is at most
 * PNO_LISTING_MOST.
 * Stack: at most 504 bytes.
 */
uint32_t pno_listing(const uint8_t *image, size_t image_len, uint32_t layout, size_t directory, uint8_t *out,
                     size_t out_len, size_t *length);

/*
 * Calls that write
 *   Each judges the image first and gives back 1 to 6 where it is no sound volume; pno_repair is told apart.
 *   Then it tests what is named under it, in the order in which it is named, and gives back the first number
 *   that is due. With any number but 0 no byte of the image is changed; with 0 the bytes that are named are,
 *   no other, and the image is a sound volume again. Names and data are read and never changed.
 *
 * Where things go
 *   A new descriptor goes to the lowest free sector. Data goes to the lowest free sector from 34 on and,
 *   when none is left there, to the lowest free one; several are taken one after another by this rule.
 *
 * What a call changes
 *   With number 0 a call has changed whole sectors of the image, and says which: writes is how many, and the
 *   first writes of order are their numbers, in the order in which a host is to write them through to the
 *   medium that the image is of. What a sector is to hold stands in the image after the call. Each call has
 *   its order, which stands under it; index is there the index sector of the directory that is named, so of
 *   the root sector 1. A sector is listed also where its bytes are as they were, as of a file that is
 *   protected once more. With any number but 0, writes is 0. What stands in order behind the first writes of
 *   it stays as it was. So, after a call that is done,
 *       for (uint32_t i = 0; i < changes.writes; i++)
 *           write_sector(changes.order[i], image + PNO_SECTOR_BYTES * changes.order[i]);
 *   where write_sector comes back when the 256 bytes are on the medium.
 *
 * What holds of a medium when that is cut short
 *   A sector write is whole or absent, and no sector stands twice in order. So after the first i writes of a
 *   call the medium has these sectors as they are after the call, and all others as they were before it.
 *   Then pno_repair of what the medium has, by the same layout (of pno_clear_mark with PNO_MARKS), gives 0 and
 *   a sound volume, whose catalogue, the files with all that they hold, is that before the call or that after
 *   it: the former for i = 0, the latter for i = writes. That holds for every i, of each of the nine calls
 *   from pno_create to pno_clear_mark. There is one exception: with PNO_MARKS, a cut of pno_overwrite between
 *   its two writes leaves the catalogue before the call with the mark set on that file.
 *   So a host that was stopped reads the medium, repairs the image, writes the sectors of the repair through,
 *   and goes on. A repair that is cut itself and begun again ends the same.
 *   pno_format and pno_pack are not covered: what is cut of them is done again from the beginning.
 */
struct pno_changes {
    uint32_t differ;                 /* kept for a later version; this one leaves it as it stood */
    uint32_t writes;                 /* how many sectors are to be written through; 0 with any number but 0 */
    uint32_t order[PNO_WRITES_MOST]; /* their numbers, in the order of writing */
};

/*
 * Creates a data file without sectors: its descriptor, which is zero but for the name, the status, the
 * records per sector (byte 13) and the record length (byte 17); its bit in the map; its place in the index.
 * The status is 00 (display, fixed), 02 (internal, fixed), 80 (display, variable) or 82 hex (internal,
 * variable); the other two are any byte. With PNO_MARKS the status is one of these four too, and the file has
 * the mark besides.
 *
 * Writes: descriptor, sector 0, index.
 * Numbers: 1 to 6; 7; 8 for no such directory; 9; 15 for another status; 11; 12.
 * Stack: at most 920 bytes.
 */
uint32_t pno_create(uint8_t *image, size_t image_len, uint32_t layout, size_t directory, const uint8_t *name,
                    size_t name_len, uint8_t status, uint8_t record_length, uint8_t records_per_sector,
                    size_t *wrong, struct pno_changes *changes);

/*
 * Appends a sector to a data file: the sector's 256 bytes, its bit in the map, and in the descriptor the
 * number of sectors and the chain, with PNO_MARKS also the mark. The rest of the descriptor stays, the end
 * offset and the record count among it.
 *
 * Writes: the sector, sector 0, descriptor.
 * Numbers: 1 to 6; 7; 8; 10; 14 for a program; 15 where data_len is not PNO_SECTOR_BYTES; 12; 13, which is
 * not due where the sector that is taken follows the file's last one.
 * Stack: at most 1,240 bytes.
 */
uint32_t pno_append(uint8_t *image, size_t image_len, uint32_t layout, size_t directory, const uint8_t *name,
                    size_t name_len, const uint8_t *data, size_t data_len, size_t *wrong,
                    struct pno_changes *changes);

/*
 * Overwrites a sector of a data file: its 256 bytes, with PNO_MARKS also the file's mark, and nothing else.
 * Offsets count from 0.
 *
 * Writes: the sector; with PNO_MARKS descriptor, the sector.
 * Numbers: 1 to 6; 7; 8; 10; 14 for a program; 15 for an offset past the last sector, or where data_len is
 * not PNO_SECTOR_BYTES.
 * Stack: at most 632 bytes.
 */
uint32_t pno_overwrite(uint8_t *image, size_t image_len, uint32_t layout, size_t directory,
                       const uint8_t *name, size_t name_len, size_t offset, const uint8_t *data,
                       size_t data_len, size_t *wrong, struct pno_changes *changes);

/*
 * Stores a program of 0 to PNO_PROGRAM_MOST bytes as a new file: bytes_len / 256 sectors, rounded up, the
 * rest of the last one zero; its descriptor, which is zero but for the name, status 01, or with PNO_MARKS 11
 * hex, the number of sectors, the end offset, which is bytes_len mod 256, and the chain; the bits of all
 * these in the map; its place in the index. So 256 bytes take one sector, and no byte takes none but the
 * descriptor's.
 *
 * Writes: the program's sectors in the order of the file, descriptor, sector 0, index.
 * Numbers: 1 to 6; 7; 8 for no such directory; 9; 15 where bytes_len is above PNO_PROGRAM_MOST; 11; 12, the
 * descriptor's sector being counted; 13.
 * Stack: at most 1,320 bytes.
 */
uint32_t pno_store(uint8_t *image, size_t image_len, uint32_t layout, size_t directory, const uint8_t *name,
                   size_t name_len, const uint8_t *bytes, size_t bytes_len, size_t *wrong,
                   struct pno_changes *changes);

/*
 * Deletes a file: its place in the index, later ones moving down by one, and its bits in the map. The sectors
 * themselves keep their bytes.
 *
 * Writes: index, sector 0.
 * Numbers: 1 to 6; 7; 8; 10.
 * Stack: at most 1,160 bytes.
 */
uint32_t pno_delete(uint8_t *image, size_t image_len, uint32_t layout, size_t directory, const uint8_t *name,
                    size_t name_len, size_t *wrong, struct pno_changes *changes);

/*
 * Renames a file: the ten bytes of its name, and its place in the index; with PNO_MARKS also its mark. The
 * directory is the same for both names.
 *
 * Writes: descriptor, index.
 * Numbers: 1 to 6; 7 for the old name (which is 0), then for the new one (which is 1); 8 for no such
 * directory, then for the old name; 9 for the new one, also where it is the old one; 10.
 * Stack: at most 1,128 bytes.
 */
uint32_t pno_rename(uint8_t *image, size_t image_len, uint32_t layout, size_t directory, const uint8_t *old,
                    size_t old_len, const uint8_t *new_name, size_t new_len, size_t *which, size_t *wrong,
                    struct pno_changes *changes);

/*
 * Protects a file, and unprotects it: one bit of its status, which leaves the mark as it is. Either may be
 * done again.
 *
 * Writes: descriptor.
 * Numbers: 1 to 6; 7; 8.
 * Stack: at most 600 bytes.
 */
uint32_t pno_protect(uint8_t *image, size_t image_len, uint32_t layout, size_t directory, const uint8_t *name,
                     size_t name_len, size_t *wrong, struct pno_changes *changes);
uint32_t pno_unprotect(uint8_t *image, size_t image_len, uint32_t layout, size_t directory,
                       const uint8_t *name, size_t name_len, size_t *wrong, struct pno_changes *changes);

/*
 * Clears the mark of a file, protected or not: one bit of its status, and nothing else. It may be done again.
 * This call always goes by the new rule: PNO_MARKS counts as set, whatever layout says. The edition is the one
 * that layout says.
 *
 * Writes: descriptor.
 * Numbers: 1 to 6; 7; 8.
 * Stack: at most 600 bytes.
 */
uint32_t pno_clear_mark(uint8_t *image, size_t image_len, uint32_t layout, size_t directory,
                        const uint8_t *name, size_t name_len, size_t *wrong, struct pno_changes *changes);

/*
 * Repairs a volume of which a call's writes were cut short: orders the numbers in every index by the names
 * that they lead to, and makes the map anew, as the holders have it. No other byte is changed: bytes 0 to 55
 * of sector 0 stay, and so do all marks. Of a sound volume no byte is. Where it is done, the image is a sound
 * volume, whatever was in the map before and in whichever order names stood.
 *
 * It is refused where no order of the names and no map would make the image a sound volume. So it tests for 1
 * to 5 as pno_judge does, but for the order of names: with two equal names anywhere in one index it is 4, and
 * with others in any order it is not. 6 is never given. After a cut of another call it is never refused.
 *
 * The layout is to be that of the volume: without PNO_DIRECTORIES the map is made of what the root holds, and
 * all that the directories have is free then.
 *
 * Writes: sector 1, with PNO_DIRECTORIES the index sectors of the entries that are there in their order,
 * sector 0; always all of them.
 * Numbers: 1 to 5.
 * Stack: at most 696 bytes.
 */
uint32_t pno_repair(uint8_t *image, size_t image_len, uint32_t layout, struct pno_changes *changes);

/*
 * Packs a volume into another image of the same length, whatever bytes that had: the target is then a sound
 * volume with the source's label, files and contents, and has nothing else on it. Bytes 0 to 55 of sector 0
 * are the source's. The descriptors lie from sector 2 on in the order of names, bytes 0 to 27 of each as
 * they were, the mark among them; the data of all files follows in that order without a gap, in one block a
 * file; every free sector is E5 hex. With PNO_DIRECTORIES the index sectors lie from sector 2 on in the order
 * of the entries, which have these numbers then; the descriptors lie from the next sector on, the root's
 * first, then those of each entry, and the data in the same order. So volumes that differ only in where
 * things lie, and in what is left in free sectors, pack to the same bytes, and packing what was packed
 * changes nothing. The source is read, by the layout, and never changed.
 *
 * Numbers: 1 to 6 for the source; 15 where target_len is not source_len.
 * Stack: at most 872 bytes.
 */
uint32_t pno_pack(const uint8_t *source, size_t source_len, uint32_t layout, uint8_t *target,
                  size_t target_len);

#ifdef __cplusplus
}
#endif

#endif
