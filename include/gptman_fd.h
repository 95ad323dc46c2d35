/* gptman_fd.h: the calls of gptman.h over a file descriptor, on Linux. This is tested, not proved.
 *
 * Each call returns 0, a number of gptman.h, or GPTMAN_IO with errno if the system refused. It reads the length and the
 * ends of the disk, and a change syncs the disk first, so that it is planned from stored data. A call may follow one
 * that failed. The position of the file changes.
 *
 * With -std=c11 and the like, include it before other headers, or define _DEFAULT_SOURCE before the first one. */
#ifndef GPTMAN_FD_H
#define GPTMAN_FD_H

#if !defined(_DEFAULT_SOURCE) && !defined(_GNU_SOURCE) && !defined(_XOPEN_SOURCE)
#define _DEFAULT_SOURCE /* for pread, pwrite and fsync */
#endif
#include <errno.h>
#include <fcntl.h>
#include <stdio.h>
#include <stdlib.h>
#include <string.h>
#include <sys/file.h>
#include <sys/ioctl.h>
#include <sys/stat.h>
#include <sys/sysmacros.h>
#include <unistd.h>

#include "gptman.h"

/* An open disk. Opening sets `flags` to 0; to overwrite a DOS disk, set it to GPTMAN_OVER_DOS. */
typedef struct gptman_disk {
    int fd;
    uint32_t flags;
    uint64_t sector_size; /* in bytes */
} gptman_disk;

/* A call of gptman.h, with the lengths of the disk and of both ends in bytes. `room` is for the partitions that are
 * read, or for steps, with `bytes` after them. */
enum { GPTMAN_FD_READ, GPTMAN_FD_CHECK, GPTMAN_FD_DOS, GPTMAN_FD_WRITE, GPTMAN_FD_NEW, GPTMAN_FD_FIT };
typedef struct gptman_fd_call {
    const gptman_partition *wanted;
    gptman_partition *room;
    uint8_t *bytes;
    size_t wants, count, byte_count;
    uint64_t size, first, last;
    gptman_table table;
    gptman_copies copies;
    gptman_needed needed;
} gptman_fd_call;

/* Opens a disk without a lock. A sector has 512, 1024, 2048 or 4096 bytes; 0 takes what the block device reports. If
 * `fd` is negative, errno is unchanged: it may be the result of open(). */
static inline uint32_t gptman_open_unlocked(gptman_disk *disk, int fd, uint64_t sector_size) {
    int reported = 0;
    if (sector_size == 0 && fd >= 0 && ioctl(fd, _IO(0x12, 104) /* BLKSSZGET */, &reported) == 0)
        sector_size = (uint64_t)reported;
    disk->fd = fd, disk->flags = 0, disk->sector_size = sector_size;
    if (fd < 0 || lseek(fd, 0, SEEK_END) < 0) return GPTMAN_IO;
    int is_usual = sector_size == 512 || sector_size == 1024 || sector_size == 2048 || sector_size == 4096;
    return is_usual ? GPTMAN_OK : GPTMAN_BAD_ARGUMENT;
}

/* Opens a disk, and first locks a file that is open for writing. This waits until no other program holds the advisory
 * lock of flock, and goes on without a lock if the file system has none. The lock is held until the file is closed, so
 * that no other program that takes it writes between a read and the change that depends on it. */
static inline uint32_t gptman_open(gptman_disk *disk, int fd, uint64_t sector_size) {
    int mode = fd < 0 ? -1 : fcntl(fd, F_GETFL), is_writable = mode != -1 && (mode & O_ACCMODE) != O_RDONLY;
    while (is_writable && flock(fd, LOCK_EX) != 0 && errno == EINTR) continue;
    return gptman_open_unlocked(disk, fd, sector_size);
}

/* Reads or writes `length` bytes from byte `at` of a file on. */
static inline uint32_t gptman_fd_move(int fd, int writes, uint8_t *bytes, uint64_t length, uint64_t at) {
    while (length > 0) {
        ssize_t n = writes ? pwrite(fd, bytes, (size_t)length, (off_t)at) : pread(fd, bytes, (size_t)length, (off_t)at);
        if (n < 0 && errno == EINTR) continue;
        if (n == 0) errno = EIO;
        if (n <= 0) return GPTMAN_IO;
        bytes += n, at += (uint64_t)n, length -= (uint64_t)n;
    }
    return GPTMAN_OK;
}

/* Makes a call with the ends and the room that it has. */
static inline uint32_t gptman_fd_once(const gptman_disk *disk, int kind, gptman_fd_call *c) {
#define GPTMAN_FD_ENDS head, (size_t)c->first, head + c->first, (size_t)c->last, c->size
#define GPTMAN_FD_PLAN (gptman_step *)c->room, c->count, c->bytes, c->byte_count, &c->needed, disk->flags
    uint64_t sector = disk->sector_size;
    uint8_t *head = (uint8_t *)malloc((size_t)(c->first + c->last + 1));
    uint32_t answer = GPTMAN_OUT_OF_MEMORY;
    if (head != NULL) answer = gptman_fd_move(disk->fd, 0, head, c->first, 0);
    if (answer == GPTMAN_OK) answer = gptman_fd_move(disk->fd, 0, head + c->first, c->last, c->size - c->last);
    if (answer != GPTMAN_OK) kind = -1;
    if (kind == GPTMAN_FD_READ) answer = gptman_read(GPTMAN_FD_ENDS, sector, &c->table, c->room, c->count, &c->needed);
    if (kind == GPTMAN_FD_CHECK) answer = gptman_check(GPTMAN_FD_ENDS, sector, &c->copies, &c->needed);
    if (kind == GPTMAN_FD_DOS) answer = gptman_dos(GPTMAN_FD_ENDS, &c->needed);
    if (kind == GPTMAN_FD_WRITE) answer = gptman_write(GPTMAN_FD_ENDS, sector, c->wanted, c->wants, GPTMAN_FD_PLAN);
    if (kind == GPTMAN_FD_NEW) answer = gptman_new(GPTMAN_FD_ENDS, sector, &c->table, GPTMAN_FD_PLAN);
    if (kind == GPTMAN_FD_FIT) answer = gptman_fit(GPTMAN_FD_ENDS, sector, GPTMAN_FD_PLAN);
    free(head);
    return answer;
}

/* Extends the end that is nearer to the missing bytes, to at most 256 MiB: room for two million entries. */
static inline uint32_t gptman_fd_extend(gptman_fd_call *c) {
    uint64_t from = c->needed.from, length = c->needed.length, rest = c->size - from;
    if (from > c->size || length > rest || from + length <= c->first || rest <= c->last) return GPTMAN_FD_ASKS_AGAIN;
    if (from + length > 1u << 28 && rest > 1u << 28) return GPTMAN_LACKS_BYTES;
    *(from + length <= rest ? &c->first : &c->last) = from + length <= rest ? from + length : rest;
    return GPTMAN_OK;
}

/* Makes the room of a call as large as it needs: for `count` partitions or steps, and so many bytes. */
static inline uint32_t gptman_fd_enlarge(gptman_fd_call *c, size_t count, size_t byte_count) {
    if (count <= c->count && byte_count <= c->byte_count) return GPTMAN_FD_ASKS_AGAIN;
    free(c->room);
    c->room = (gptman_partition *)malloc((count + 1) * sizeof *c->room + byte_count);
    c->bytes = c->room == NULL ? NULL : (uint8_t *)(c->room + count);
    c->count = count, c->byte_count = byte_count;
    return c->room == NULL ? GPTMAN_OUT_OF_MEMORY : GPTMAN_OK;
}

/* Makes a call until it has what it needs: a plan asks for bytes at most nine times, and for room once. If the ends
 * would meet, the first is the whole disk. */
static inline uint32_t gptman_fd_make(const gptman_disk *disk, int kind, gptman_fd_call *c) {
    off_t size = lseek(disk->fd, 0, SEEK_END); /* also of a block device */
    if (size < 0) return GPTMAN_IO;
    c->size = (uint64_t)size, c->first = 2 * disk->sector_size + 16384, c->last = disk->sector_size + 16384;
    for (int round = 0; round < 12; round++) {
        if (c->first >= c->size || c->last >= c->size - c->first) c->first = c->size, c->last = 0;
        uint32_t answer = gptman_fd_once(disk, kind, c);
        if (answer != GPTMAN_LACKS_BYTES && answer != GPTMAN_LACKS_ROOM) return answer;
        if (answer == GPTMAN_LACKS_BYTES) answer = gptman_fd_extend(c);
        else if (kind == GPTMAN_FD_READ) answer = gptman_fd_enlarge(c, c->table.entry_count, 0);
        else answer = gptman_fd_enlarge(c, (size_t)c->needed.steps, (size_t)c->needed.bytes);
        if (answer != GPTMAN_OK) return answer;
    }
    return GPTMAN_FD_ASKS_AGAIN;
}

/* Reads the table. `*partitions` is an array of table->entry_count elements, for free(), or null after an error. */
static inline uint32_t gptman_read_fd(const gptman_disk *disk, gptman_table *table, gptman_partition **partitions) {
    gptman_fd_call call;
    memset(&call, 0, sizeof call);
    uint32_t answer = gptman_fd_enlarge(&call, 128, 0); /* enough for most tables */
    if (answer == GPTMAN_OK) answer = gptman_fd_make(disk, GPTMAN_FD_READ, &call);
    if (answer != GPTMAN_OK) free(call.room), call.room = NULL;
    else *table = call.table;
    *partitions = call.room;
    return answer;
}

/* Reports the state of both copies. */
static inline uint32_t gptman_check_fd(const gptman_disk *disk, gptman_copies *copies) {
    gptman_fd_call call;
    uint32_t answer = gptman_fd_make(disk, GPTMAN_FD_CHECK, (gptman_fd_call *)memset(&call, 0, sizeof call));
    if (answer == GPTMAN_OK) *copies = call.copies;
    return answer;
}

/* Refuses a write if the last usable sector is lower than usual, unless the backup entries are directly after it. The
 * write puts them there, and would overwrite data of another program. */
static inline uint32_t gptman_fd_refuse_gap(const gptman_disk *disk, const gptman_fd_call *plan) {
    gptman_table table;
    gptman_partition *partitions;
    gptman_copies copies;
    uint32_t answer = gptman_read_fd(disk, &table, &partitions);
    free(partitions);
    if (answer != GPTMAN_OK || table.is_backup) return answer;
    uint64_t array = (128 * plan->wants - 1) / disk->sector_size + 1, sectors = plan->size / disk->sector_size;
    if (table.last_usable_lba + array + 2 >= sectors) return GPTMAN_OK;
    answer = gptman_check_fd(disk, &copies);
    if (answer == GPTMAN_LACKS_BYTES || (answer == GPTMAN_OK && !copies.are_same)) answer = GPTMAN_OTHER_LAYOUT;
    return answer;
}

/* Syncs the disk, plans a change, and carries out the steps in order, up to the first that fails. */
static inline uint32_t gptman_fd_change(const gptman_disk *disk, int kind, gptman_fd_call *call) {
    if (fsync(disk->fd) != 0) return GPTMAN_IO;
    uint32_t answer = gptman_fd_enlarge(call, 16, 40000); /* likewise */
    if (answer == GPTMAN_OK) answer = gptman_fd_make(disk, kind, call);
    const gptman_step *step = (const gptman_step *)call->room;
    if (answer == GPTMAN_OK && kind == GPTMAN_FD_WRITE) answer = gptman_fd_refuse_gap(disk, call);
    for (uint64_t i = 0; answer == GPTMAN_OK && i < call->needed.steps; i++, step++) {
        if (step->kind == GPTMAN_SYNC) answer = fsync(disk->fd) == 0 ? GPTMAN_OK : GPTMAN_IO;
        else answer = gptman_fd_move(disk->fd, 1, call->bytes + step->start, step->length, step->offset);
    }
    free(call->room);
    return answer;
}

/* Writes the table on the disk with these entries. */
static inline uint32_t gptman_write_fd(const gptman_disk *disk, const gptman_partition *partitions, size_t count) {
    gptman_fd_call call;
    memset(&call, 0, sizeof call);
    call.wanted = partitions, call.wants = count;
    return gptman_fd_change(disk, GPTMAN_FD_WRITE, &call);
}

/* Writes the table on the disk, fitted to the present length of the disk. */
static inline uint32_t gptman_fit_fd(const gptman_disk *disk) {
    gptman_fd_call call;
    return gptman_fd_change(disk, GPTMAN_FD_FIT, (gptman_fd_call *)memset(&call, 0, sizeof call));
}

/* Writes a new table of `entry_count` unused entries. */
static inline uint32_t gptman_new_fd(const gptman_disk *disk, const uint8_t *disk_guid, uint32_t entry_count) {
    gptman_fd_call call;
    memset(&call, 0, sizeof call);
    memcpy(call.table.disk_guid, disk_guid, 16), call.table.entry_count = entry_count;
    return gptman_fd_change(disk, GPTMAN_FD_NEW, &call);
}

/* Writes and syncs a protective MBR. */
static inline uint32_t gptman_mbr_fd(const gptman_disk *disk, int bootable) {
    uint8_t bytes[GPTMAN_MBR_LENGTH];
    gptman_fd_call call;
    memset(&call, 0, sizeof call);
    off_t size = lseek(disk->fd, 0, SEEK_END);
    uint32_t answer = size < 0 || fsync(disk->fd) != 0 ? GPTMAN_IO : GPTMAN_OK;
    if (answer == GPTMAN_OK && disk->flags != GPTMAN_OVER_DOS) answer = gptman_fd_make(disk, GPTMAN_FD_DOS, &call);
    if (answer == GPTMAN_OK) answer = gptman_mbr((uint64_t)size, disk->sector_size, bootable != 0, bytes, sizeof bytes);
    if (answer == GPTMAN_OK) answer = gptman_fd_move(disk->fd, 1, bytes, sizeof bytes, GPTMAN_MBR_START);
    if (answer == GPTMAN_OK && fsync(disk->fd) != 0) answer = GPTMAN_IO;
    return answer;
}

/* Prints what failed, and the name of the answer or the error of the system. */
static inline void gptman_perror(const char *what, uint32_t answer) {
    char name[GPTMAN_FAULT_NAME_SIZE];
    if (answer == GPTMAN_IO) perror(what);
    else if (gptman_fault_name(answer, name, sizeof name) == GPTMAN_OK) fprintf(stderr, "%s: %s\n", what, name);
}

/* After a change of a block device prints the command by which the kernel rereads the table. */
static inline void gptman_tell_kernel(const gptman_disk *disk, const char *path) {
    struct stat device;
    char mapped[64];
    if (fstat(disk->fd, &device) != 0 || !S_ISBLK(device.st_mode)) return;
    snprintf(mapped, sizeof mapped, "/sys/dev/block/%u:%u/dm", major(device.st_rdev), minor(device.st_rdev));
    fprintf(stderr, "`%s %s` tells the kernel\n", access(mapped, F_OK) == 0 ? "kpartx -u" : "partx -u", path);
}

#endif
