/* fd IMAGE SECTOR check|plain|bootable: the calls of gptman_fd.h for both copies and for a protective MBR, with the
 * lines that gptimg prints. */
#include "gptman_fd.h"

static const char *name_of(uint32_t fault) {
    static char name[GPTMAN_FAULT_NAME_SIZE];
    return gptman_fault_name(fault, name, sizeof name) == 0 ? name : "?";
}

static void print_copy(const char *place, uint32_t fault) {
    printf("%s %s%s\n", place, fault == 0 ? "ok" : "fault ", fault == 0 ? "" : name_of(fault));
}

static uint32_t check(const gptman_disk *disk) {
    gptman_copies copies;
    uint32_t fault = gptman_check_fd(disk, &copies);
    if (fault != 0) return fault;
    print_copy("primary", copies.primary_fault), print_copy("backup", copies.backup_fault);
    printf("same %s\n", copies.are_same ? "yes" : "no");
    return 0;
}

static uint32_t write_mbr(const gptman_disk *disk, int bootable) {
    uint32_t fault = gptman_mbr_fd(disk, bootable);
    if (fault == 0) printf("ok\n");
    return fault;
}

int main(int argc, char **argv) {
    gptman_disk disk;
    int fd = argc == 4 ? open(argv[1], O_RDWR) : -1;
    if (fd < 0) return 2;
    uint32_t fault = gptman_open(&disk, fd, strtoull(argv[2], NULL, 10));
    int looks = strcmp(argv[3], "check") == 0, bootable = strcmp(argv[3], "bootable") == 0;
    if (fault == 0) fault = looks ? check(&disk) : write_mbr(&disk, bootable);
    if (fault != 0) printf("fault: %s\n", name_of(fault));
    return close(fd) != 0 ? 2 : 0;
}
