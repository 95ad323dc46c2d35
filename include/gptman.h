/* gptman.h: GUID partition tables, for C and other languages.
 *
 * The library does no I/O. You pass the first and the last bytes of a disk, the "ends", and it returns the table, or
 * the steps of a write, which you carry out. It keeps no state between calls, and accesses no memory of the caller except
 * the arrays that it is given.
 *
 * Each pointer must be that of an array with at least as many elements as the count after it says, aligned for its
 * type. It may be null only if the count is 0. An array that a call writes to must not overlap another one. The caller
 * owns all arrays. Several threads may call at once.
 *
 * The results are proved: docs/generated/promises/gptman_c.md. That a caller carries out the steps in order is not. */
#ifndef GPTMAN_H
#define GPTMAN_H

#include <stddef.h>
#include <stdint.h>

#ifdef __cplusplus
extern "C" {
#endif

/* A table, without its partitions. */
typedef struct gptman_table {
    uint8_t disk_guid[16];     /* the 16 bytes on the disk */
    uint64_t first_usable_lba; /* the first sector that a partition may use */
    uint64_t last_usable_lba;  /* the last sector that a partition may use */
    uint64_t align;            /* partitions begin at multiples of this number of sectors */
    uint32_t entry_count;      /* the number of entries, including unused ones */
    uint32_t is_backup;        /* 1: the primary copy has a fault, the backup copy was read; else 0 */

    /* The sectors of both copies, by the header that was read. It does not state where the entries of the other copy
     * are: they are given at the sector from which a write stores them. */
    uint64_t primary_header_lba;
    uint64_t primary_entries_lba;
    uint64_t backup_header_lba;
    uint64_t backup_entries_lba;
    uint64_t reserved[6]; /* zeros; room for later versions */
} gptman_table;

/* An entry of a table. It is unused if type_guid is all zeros. */
typedef struct gptman_partition {
    uint8_t type_guid[16];   /* the 16 bytes on the disk */
    uint8_t unique_guid[16]; /* the GUID of the partition itself, likewise */
    uint64_t first_lba;      /* its first sector */
    uint64_t last_lba;       /* its last sector */
    uint64_t attributes;     /* the bits that UEFI defines */
    uint16_t name[36];       /* UTF-16, followed by zeros */
} gptman_partition;

/* A step of a write. */
typedef struct gptman_step {
    uint64_t kind;   /* GPTMAN_WRITE or GPTMAN_SYNC */
    uint64_t offset; /* the first byte of the disk to write */
    uint64_t length; /* the number of bytes to write */
    uint64_t start;  /* their position in the array of bytes */
} gptman_step;

enum { GPTMAN_WRITE = 1, GPTMAN_SYNC = 2 };

/* The requirements of a call. */
typedef struct gptman_needed {
    uint64_t steps;  /* the number of steps */
    uint64_t bytes;  /* the number of bytes that they write */
    uint64_t from;   /* the first byte of the disk that is missing */
    uint64_t length; /* the number of bytes that are missing from there on */
} gptman_needed;

/* The state of both copies of a table, each read separately. */
typedef struct gptman_copies {
    uint32_t primary_fault; /* the fault of the copy in sector 1, or GPTMAN_OK */
    uint32_t backup_fault;  /* the same for the copy in the last whole sector */
    uint32_t are_same;      /* 1: both places hold one table, each in the form of its place; else 0 */
    uint32_t reserved[5];   /* zeros; room for later versions */
} gptman_copies;

/* The results of calls. Errors of a table are below 100. A later version may return others. */
enum {
    GPTMAN_OK = 0,
    GPTMAN_IO = 1,
    GPTMAN_INVALID_SIGNATURE = 2,
    GPTMAN_INVALID_REVISION = 3,
    GPTMAN_INVALID_HEADER_SIZE = 4,
    GPTMAN_INVALID_CHECKSUM = 5,
    GPTMAN_INVALID_PARTITION_ENTRY_ARRAY_CHECKSUM = 6,
    GPTMAN_READ_ERROR = 7, /* both copies have a fault */
    GPTMAN_NO_SPACE_LEFT = 8,
    GPTMAN_CONFLICT_PARTITION_GUID = 9,
    GPTMAN_INVALID_PARTITION_BOUNDARIES = 10,
    GPTMAN_INVALID_PARTITION_NUMBER = 11,
    GPTMAN_UNUSED_PARTITION = 12,
    GPTMAN_PARTITION_NOT_FOUND = 13,
    GPTMAN_OVERFLOW = 14,
    GPTMAN_OUT_OF_MEMORY = 15,
    GPTMAN_INVALID_PARTITION_ENTRY_SIZE = 16,
    GPTMAN_OTHER_LENGTH = 100, /* the table was made for a disk of another length; gptman_fit fits it */
    GPTMAN_OTHER_LAYOUT = 101, /* the table or the copy that is read does not have the layout of docs/FORMAT.md */
    GPTMAN_DOS_DISK = 102,     /* the first sector has partitions of its own */
    GPTMAN_LACKS_BYTES = 103,  /* neither end has all of needed->length bytes from needed->from on */
    GPTMAN_LACKS_ROOM = 104,   /* an array is too short */
    GPTMAN_BAD_ARGUMENT = 105,

    /* Only in gptman_fd.h: a call asked for bytes or room that it had, for bytes past the end of the disk, or too
     * often. No known version does. */
    GPTMAN_FD_ASKS_AGAIN = 150
};

/* The flags of a write: GPTMAN_OVER_DOS if the first sector may have partitions of its own, else 0. */
enum { GPTMAN_OVER_DOS = 1 };

/* Reads the table of a disk.
 *
 * `head` has the first bytes of the disk and `tail` the last ones, of any length; they must not overlap. 34 and 33
 * sectors are enough for most tables. `disk_size` and `sector_size` are in bytes. The result holds whatever is on the
 * disk between the two ends.
 *
 * GPTMAN_OK: `table` is the table on the disk, and the first table->entry_count elements of `partitions` are its
 *     entries, beginning with entry 1.
 * GPTMAN_INVALID_SIGNATURE, GPTMAN_READ_ERROR: both copies have a fault; the former if neither has a signature, or the
 *     disk is shorter than a sector.
 * GPTMAN_OUT_OF_MEMORY: out of memory. This says nothing about the disk.
 * GPTMAN_LACKS_BYTES: extend an end so that it has the bytes that `needed` names, and call again. They are on the disk.
 *     If the ends meet, this is not returned. If the ends of each later call have all bytes that were named before,
 *     gptman_read and gptman_check name bytes at most four times, gptman_new five times, and gptman_write and
 *     gptman_fit nine times.
 * GPTMAN_LACKS_ROOM: `partitions` is shorter than table->entry_count, which is set.
 * GPTMAN_BAD_ARGUMENT: `sector_size` is 0, or the ends together are longer than the disk.
 *
 * Outputs that a result does not mention are unchanged. */
uint32_t gptman_read(const uint8_t *head, size_t head_length, const uint8_t *tail, size_t tail_length,
                     uint64_t disk_size, uint64_t sector_size, gptman_table *table,
                     gptman_partition *partitions, size_t partition_count, gptman_needed *needed);

/* Reports the fault of each copy of the table, and whether both places hold one table, as `gptimg check` does.
 * gptman_read returns a table even if one copy has a fault.
 *
 * The ends and sizes are as for gptman_read.
 *
 * GPTMAN_OK: `copies` has the state of both. A disk shorter than a sector has no backup copy; its fault is
 *     GPTMAN_INVALID_SIGNATURE. Two copies without a fault are not the same if they are different tables, or one is not
 *     in the form of its place.
 * GPTMAN_OUT_OF_MEMORY, GPTMAN_LACKS_BYTES, GPTMAN_BAD_ARGUMENT: as for gptman_read.
 *
 * Outputs that a result does not mention are unchanged. */
uint32_t gptman_check(const uint8_t *head, size_t head_length, const uint8_t *tail, size_t tail_length,
                      uint64_t disk_size, uint64_t sector_size, gptman_copies *copies, gptman_needed *needed);

/* Plans the write of the table on a disk with other entries.
 *
 * The ends and sizes are as for gptman_read. Sync the disk, then read the ends, so that the copy that is written last
 * is stored. `partitions` has all entries to be written, including unused ones, as many as the table has.
 *
 * On GPTMAN_OK `steps` has needed->steps steps, and `bytes` has what they write. Carry them out in order, each only
 * after the previous one succeeded. For GPTMAN_WRITE write `length` bytes from bytes + `start` to byte `offset` of the
 * disk. For GPTMAN_SYNC sync the disk, as fsync does. There are no other kinds. The copy that was not read is written
 * and synced first, then the other one. If you stop or the power fails, the disk holds the old table or the new one.
 *
 * The backup entries are written directly after the last usable sector, whatever is there. If that sector is lower than
 * usual, inspect the place first (gptman_fd.h does). After a failed step the ends no longer match the disk: carry out
 * no step of this plan again, but sync, read the ends and the table, and make a new plan.
 *
 * The other results are those of gptman_read, and
 * GPTMAN_CONFLICT_PARTITION_GUID: two partitions have the same unique GUID;
 * GPTMAN_INVALID_PARTITION_BOUNDARIES: an entry ends before it starts, two partitions share a sector, or one is not
 *     within the usable sectors;
 * GPTMAN_NO_SPACE_LEFT, GPTMAN_OVERFLOW: a copy would end past the disk, or past byte 2^64;
 * GPTMAN_LACKS_ROOM: `steps` or `bytes` is shorter than needed->steps or needed->bytes, which are set. To learn them,
 *     call once with empty arrays;
 * GPTMAN_BAD_ARGUMENT: also if `partition_count` is not that of the table, the table has no entries, or `flags` is
 *     above 1;
 * GPTMAN_OTHER_LENGTH: the table was made for a disk of another length: its headers are not those of sector 1 and the
 *     last whole sector. gptman_fit fits it;
 * GPTMAN_OTHER_LAYOUT: the copy that is read is not in its place, or the table otherwise does not have the layout of
 *     docs/FORMAT.md;
 * GPTMAN_DOS_DISK: the first 512 bytes are an MBR with partitions of its own, and `flags` is not GPTMAN_OVER_DOS. No
 *     step writes an MBR. */
uint32_t gptman_write(const uint8_t *head, size_t head_length, const uint8_t *tail, size_t tail_length,
                      uint64_t disk_size, uint64_t sector_size, const gptman_partition *partitions,
                      size_t partition_count, gptman_step *steps, size_t step_count, uint8_t *bytes,
                      size_t byte_count, gptman_needed *needed, uint32_t flags);

/* Plans the write of a new table without partitions. Only disk_guid and entry_count of `table` are used.
 *
 * The ends, sizes, arrays and steps are as for gptman_write. The backup copy is written first. If a table was in the
 * primary place, and its primary copy does not overlap the new backup copy, the disk holds that table or the new one
 * wherever you stop. No protective MBR is written.
 *
 * GPTMAN_OVERFLOW, GPTMAN_INVALID_PARTITION_BOUNDARIES: the disk has too few sectors for two copies.
 * GPTMAN_BAD_ARGUMENT: also if entry_count is 0, or the disk is shorter than a sector.
 * GPTMAN_OTHER_LAYOUT: the new table would not have the layout of docs/FORMAT.md, for example if sectors are too short
 *     for a header.
 * The other results are those of gptman_write except GPTMAN_OTHER_LENGTH and, as no table is read,
 * GPTMAN_INVALID_SIGNATURE and GPTMAN_READ_ERROR. */
uint32_t gptman_new(const uint8_t *head, size_t head_length, const uint8_t *tail, size_t tail_length,
                    uint64_t disk_size, uint64_t sector_size, const gptman_table *table, gptman_step *steps,
                    size_t step_count, uint8_t *bytes, size_t byte_count, gptman_needed *needed, uint32_t flags);

/* Plans the write of the table on a disk, fitted to the present length of the disk, which became longer or shorter. The
 * usable sectors and the place of the backup copy change; the partitions do not.
 *
 * The ends, sizes, arrays and steps are as for gptman_write, with the present `disk_size`. If the primary copy is read,
 * the backup copy is written first, at its new place. If you stop or the power fails, the disk then holds the old table
 * or the fitted one, whatever else is on it. No protective MBR is written.
 *
 * The other results are those of gptman_read and gptman_write except GPTMAN_OTHER_LENGTH, and
 * GPTMAN_INVALID_PARTITION_BOUNDARIES: also if a partition would end past the last usable sector of a shorter disk, or
 *     the disk has too few sectors for two copies;
 * GPTMAN_OVERFLOW: also if the disk has too few sectors for one copy, or the table has no entries;
 * GPTMAN_OTHER_LAYOUT: the copy that is read is not in its place, or the fitted table does not have the layout of
 *     docs/FORMAT.md;
 * GPTMAN_BAD_ARGUMENT: `sector_size` is 0, the ends together are longer than the disk, or `flags` is above 1. */
uint32_t gptman_fit(const uint8_t *head, size_t head_length, const uint8_t *tail, size_t tail_length,
                    uint64_t disk_size, uint64_t sector_size, gptman_step *steps, size_t step_count, uint8_t *bytes,
                    size_t byte_count, gptman_needed *needed, uint32_t flags);

/* Reports whether the first 512 bytes of a disk are an MBR with partitions of its own: a signature, a boot indicator of
 * 0 or 0x80 in each of its four entries, at least one used entry, and no protective one. A protective MBR would
 * overwrite these partitions.
 *
 * GPTMAN_OK: they are not, or the disk is shorter.
 * GPTMAN_DOS_DISK: they are.
 * GPTMAN_LACKS_BYTES: as for gptman_read.
 * GPTMAN_BAD_ARGUMENT: the ends together are longer than the disk. */
uint32_t gptman_dos(const uint8_t *head, size_t head_length, const uint8_t *tail, size_t tail_length,
                    uint64_t disk_size, gptman_needed *needed);

/* The first byte of the protective MBR on a disk, and its length in bytes. */
enum { GPTMAN_MBR_START = 446, GPTMAN_MBR_LENGTH = 66 };

/* Encodes the protective MBR of a disk into the first GPTMAN_MBR_LENGTH elements of `bytes`: one partition over the
 * whole disk, for programs that do not know GUID partition tables. Write them from byte GPTMAN_MBR_START on; gptman_new
 * does not. `bootable` is 1 if the partition is to be marked as bootable, else 0.
 *
 * GPTMAN_OVERFLOW: the disk is shorter than a sector.
 * GPTMAN_NO_SPACE_LEFT: the disk is not shorter than a sector, but shorter than 512 bytes.
 * GPTMAN_LACKS_ROOM: `byte_count` is below GPTMAN_MBR_LENGTH.
 * GPTMAN_BAD_ARGUMENT: `sector_size` is 0, or `bootable` is above 1.
 *
 * The rest of `bytes` is unchanged, and after an error all of it. */
uint32_t gptman_mbr(uint64_t disk_size, uint64_t sector_size, uint32_t bootable, uint8_t *bytes, size_t byte_count);

enum { GPTMAN_FIRST = 1, GPTMAN_LAST = 2, GPTMAN_BEST = 3 };

/* Finds a place for a partition of `size` sectors (0 means 1) among the free sectors of a table with these partitions:
 * the first place, the last, or one in the shortest free range that is long enough.
 *
 * GPTMAN_OK: `first_lba` is its first sector, a multiple of table->align. It is free until `partitions` changes.
 * GPTMAN_NO_SPACE_LEFT: there is no place.
 * GPTMAN_OUT_OF_MEMORY: out of memory.
 * GPTMAN_BAD_ARGUMENT: table->align is 0, `choice` is none of these, or there are 2^32 partitions or more. */
uint32_t gptman_place(const gptman_table *table, const gptman_partition *partitions, size_t partition_count,
                      uint64_t size, uint32_t choice, uint64_t *first_lba);

/* The size of a buffer for any name as UTF-8, including the final zero. */
enum { GPTMAN_NAME_SIZE = 109 };

/* Writes the name of a partition as UTF-8 to `text`, followed by a zero. The name ends before its first zero unit. An
 * unpaired surrogate becomes U+FFFD.
 *
 * GPTMAN_LACKS_ROOM: `text_size` is not above the length of the name.
 * GPTMAN_OUT_OF_MEMORY: out of memory. */
uint32_t gptman_get_name(const gptman_partition *partition, uint8_t *text, size_t text_size);

/* Sets the name of a partition to these bytes of UTF-8, followed by zeros.
 *
 * GPTMAN_BAD_ARGUMENT: they are not UTF-8, contain a zero, or take more than 36 units of UTF-16.
 * GPTMAN_OUT_OF_MEMORY: out of memory.
 *
 * After an error the partition is unchanged. */
uint32_t gptman_set_name(gptman_partition *partition, const uint8_t *text, size_t text_length);

/* Returns the CRC-32 of these bytes, as used for headers and entries. */
uint32_t gptman_crc32(const uint8_t *bytes, size_t byte_count);

/* The size of a buffer for any name of a result, including the final zero. */
enum { GPTMAN_FAULT_NAME_SIZE = 35 };

/* Writes the name of a result, as in docs/FAULTS.md, to `text`, followed by a zero: "Ok", "InvalidSignature", or
 * "Unknown" if no call returns it.
 *
 * GPTMAN_LACKS_ROOM: `text_size` is not above the length of the name. */
uint32_t gptman_fault_name(uint32_t result, char *text, size_t text_size);

/* Returns the version of the library: MAJOR * 65536 + MINOR * 256 + PATCH. */
uint32_t gptman_version(void);

/* The binary interface of this header. */
enum { GPTMAN_ABI = 1 };

/* Returns the number of the binary interface, which is that in the name of the shared library. While it stays, calls
 * keep their arguments, numbers their meaning, and structs their size: a new field takes the place of reserved zeros.
 * Numbers and calls may be added. A call sets reserved fields to 0, and reads none. */
uint32_t gptman_abi(void);

#if defined(__STDC_VERSION__) && __STDC_VERSION__ >= 201112L
_Static_assert(sizeof(gptman_table) == 128, "the size of a table");
_Static_assert(sizeof(gptman_partition) == 128, "the size of a partition");
_Static_assert(sizeof(gptman_step) == 32, "the size of a step");
_Static_assert(sizeof(gptman_needed) == 32, "the size of what is needed");
_Static_assert(sizeof(gptman_copies) == 32, "the size of what two copies are");
#endif

#ifdef __cplusplus
}
#endif

#endif
