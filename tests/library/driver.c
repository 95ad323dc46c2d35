/* driver: makes the calls of gptman_fd.h over one file, as lines on standard input ask, and has calls of the system
 * fail. An answer is some lines and an empty one.
 *
 * open IMAGE SECTOR MODE        MODE is locked, unlocked or reading
 * fail KIND NUMBER HOW          the call NUMBER (from 0) of write, sync, read or alloc from now on fails: of a write
 *                               nothing is made, a part, all, or garbage. A write or read that is short is no
 *                               failure, nor is a sync that drops: sector 1 is garbage then, and the next write fails
 * calls                         how many writes, syncs and requests for memory there were since then
 * flags NUMBER                  the flags of the writes from now on, until a file is opened
 * read | check | fit | plain | bootable | new GUID COUNT
 * write NUMBER TYPE UNIQUE FIRST LAST      writes what was read last, with this entry
 * same                          writes what was read last */
#define _DEFAULT_SOURCE
#include <errno.h>
#include <fcntl.h>
#include <inttypes.h>
#include <stdio.h>
#include <stdlib.h>
#include <string.h>
#include <sys/file.h>
#include <unistd.h>

static struct {
    const char *kind;
    long writes, syncs, reads, requests, number;
    char how[16];
} failing = {"", 0, 0, 0, 0, 0, ""};

static int fails(const char *kind, long *count) {
    return (*count)++ == failing.number && strcmp(failing.kind, kind) == 0;
}

/* Moves a part, or all, and then fails; or moves a part alone. */
static ssize_t failing_write(int fd, const void *from, size_t length, off_t at) {
    static uint8_t garbage[1 << 16];
    size_t moved = strcmp(failing.how, "nothing") == 0 ? 0 : strcmp(failing.how, "all") == 0 ? length : length / 2;
    if (strcmp(failing.how, "garbage") == 0) {
        memset(garbage, 0x5a, sizeof garbage);
        from = garbage, moved = length < sizeof garbage ? length : sizeof garbage;
    }
    if (pwrite(fd, from, moved, at) != (ssize_t)moved) exit(3);
    if (strcmp(failing.how, "short") == 0) return (ssize_t)moved;
    errno = EIO;
    return -1;
}

static ssize_t try_pwrite(int fd, const void *from, size_t length, off_t at) {
    return fails("write", &failing.writes) ? failing_write(fd, from, length, at) : pwrite(fd, from, length, at);
}

static ssize_t try_pread(int fd, void *to, size_t length, off_t at) {
    if (!fails("read", &failing.reads)) return pread(fd, to, length, at);
    if (strcmp(failing.how, "short") == 0) return pread(fd, to, length / 2, at);
    return errno = EIO, -1;
}

static int try_fsync(int fd) {
    static const char garbage[512] = "what was never stored";
    if (!fails("sync", &failing.syncs)) return fsync(fd);
    if (strcmp(failing.how, "drops") != 0) return errno = EIO, -1;
    failing.kind = "write", failing.number = failing.writes;
    snprintf(failing.how, sizeof failing.how, "garbage");
    return pwrite(fd, garbage, 512, 512) == 512 ? fsync(fd) : -1;
}

static void *try_malloc(size_t size) {
    if (!fails("alloc", &failing.requests)) return malloc(size);
    return errno = ENOMEM, NULL;
}

#define pwrite try_pwrite
#define pread try_pread
#define fsync try_fsync
#define malloc try_malloc
#include "gptman_fd.h"

static gptman_disk disk = {-1, 0, 0};
static gptman_table table;
static gptman_partition *partitions;

static uint32_t open_image(const char *path, uint64_t sector, const char *mode) {
    int fd = open(path, strcmp(mode, "reading") == 0 ? O_RDONLY : O_RDWR);
    if (fd < 0) exit(4);
    if (disk.fd > 0) close(disk.fd);
    free(partitions), partitions = NULL;
    return strcmp(mode, "unlocked") == 0 ? gptman_open_unlocked(&disk, fd, sector) : gptman_open(&disk, fd, sector);
}

static void print_bytes(const uint8_t *bytes, size_t count) {
    for (size_t i = 0; i < count; i++) printf("%02x", bytes[i]);
}

static void read_bytes(uint8_t *bytes, size_t count, const char *digits) {
    for (size_t i = 0; i < count; i++) {
        unsigned byte = 0;
        if (sscanf(digits + 2 * i, "%2x", &byte) != 1) exit(5);
        bytes[i] = (uint8_t)byte;
    }
}

/* The table, and then each used entry with its number. */
static uint32_t read_table(void) {
    static const uint8_t unused[16];
    free(partitions);
    uint32_t answer = gptman_read_fd(&disk, &table, &partitions);
    if (answer != 0) return answer;
    printf("%u ", table.is_backup), print_bytes(table.disk_guid, 16);
    printf(" %" PRIu64 " %" PRIu64 " %u\n", table.first_usable_lba, table.last_usable_lba, table.entry_count);
    for (uint32_t i = 0; i < table.entry_count; i++) {
        if (memcmp(partitions[i].type_guid, unused, 16) == 0) continue;
        printf("%u ", i + 1), print_bytes((const uint8_t *)&partitions[i], sizeof *partitions), printf("\n");
    }
    return answer;
}

static uint32_t check_both(void) {
    gptman_copies copies;
    uint32_t answer = gptman_check_fd(&disk, &copies);
    if (answer != 0) return answer;
    char primary[GPTMAN_FAULT_NAME_SIZE], backup[GPTMAN_FAULT_NAME_SIZE];
    if (gptman_fault_name(copies.primary_fault, primary, sizeof primary) != 0) exit(7);
    if (gptman_fault_name(copies.backup_fault, backup, sizeof backup) != 0) exit(7);
    printf(copies.primary_fault ? "primary fault %s\n" : "primary ok\n", primary);
    printf(copies.backup_fault ? "backup fault %s\n" : "backup ok\n", backup);
    printf("same %s\n", copies.are_same ? "yes" : "no");
    return answer;
}

static uint32_t write_table(uint32_t number, const char *type, const char *unique, uint64_t first, uint64_t last) {
    if (number > 0 && partitions != NULL) {
        gptman_partition *entry = &partitions[number - 1];
        memset(entry, 0, sizeof *entry);
        read_bytes(entry->type_guid, 16, type), read_bytes(entry->unique_guid, 16, unique);
        entry->first_lba = first, entry->last_lba = last;
    }
    return gptman_write_fd(&disk, partitions, partitions == NULL ? 0 : table.entry_count);
}

static uint32_t make_new(const char *digits, uint32_t count) {
    uint8_t guid[16];
    read_bytes(guid, 16, digits);
    return gptman_new_fd(&disk, guid, count);
}

static uint32_t set_failing(const char *kind, long number, const char *how) {
    static char kept[16];
    snprintf(kept, sizeof kept, "%s", kind), snprintf(failing.how, sizeof failing.how, "%s", how);
    failing.kind = kept, failing.number = number;
    failing.writes = failing.syncs = failing.reads = failing.requests = 0;
    return 0;
}

static uint32_t do_line(char words[6][4096]) {
    const char *name = words[0];
    uint64_t number = strtoull(words[1], NULL, 10);
    if (strcmp(name, "open") == 0) return open_image(words[1], strtoull(words[2], NULL, 10), words[3]);
    if (strcmp(name, "fail") == 0) return set_failing(words[1], atol(words[2]), words[3]);
    if (strcmp(name, "calls") == 0) {
        return printf("%ld %ld %ld\n", failing.writes, failing.syncs, failing.requests) < 0;
    }
    if (strcmp(name, "flags") == 0) return disk.flags = (uint32_t)strtoull(words[1], NULL, 10), 0u;
    if (strcmp(name, "read") == 0) return read_table();
    if (strcmp(name, "check") == 0) return check_both();
    if (strcmp(name, "fit") == 0) return gptman_fit_fd(&disk);
    if (strcmp(name, "plain") == 0) return gptman_mbr_fd(&disk, 0);
    if (strcmp(name, "bootable") == 0) return gptman_mbr_fd(&disk, 1);
    if (strcmp(name, "new") == 0) return make_new(words[1], (uint32_t)strtoull(words[2], NULL, 10));
    if (strcmp(name, "same") == 0) return write_table(0, "", "", 0, 0);
    if (strcmp(name, "write") != 0) exit(6);
    uint64_t first = strtoull(words[4], NULL, 10), last = strtoull(words[5], NULL, 10);
    return write_table((uint32_t)number, words[2], words[3], first, last);
}

int main(void) {
    static char line[8192], words[6][4096];
    while (fgets(line, sizeof line, stdin) != NULL) {
        for (int i = 0; i < 6; i++) words[i][0] = 0;
        sscanf(line, "%4095s %4095s %4095s %4095s %4095s %4095s", words[0], words[1], words[2], words[3], words[4],
               words[5]);
        char fault[GPTMAN_FAULT_NAME_SIZE];
        if (gptman_fault_name(do_line(words), fault, sizeof fault) != 0) return 7;
        printf("%s\n\n", fault);
        fflush(stdout);
    }
    free(partitions);
    return 0;
}
