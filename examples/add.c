/* add IMAGE FIRST LAST NAME: adds a partition for Linux from sector FIRST to LAST, under the lowest unused number. */
#include "gptman_fd.h"

/* The type of a partition for Linux, as its bytes stand on a disk. */
static const uint8_t LINUX[16] = {0xaf, 0x3d, 0xc6, 0x0f, 0x83, 0x84, 0x72, 0x47,
                                  0x8e, 0x79, 0x3d, 0x69, 0xd8, 0x47, 0x7d, 0xe4};

/* A random GUID. 0, or -1. */
static int draw_guid(uint8_t *guid) {
    int fd = open("/dev/urandom", O_RDONLY);
    int status = fd < 0 || read(fd, guid, 16) != 16 ? -1 : 0;
    guid[7] = (uint8_t)((guid[7] & 0x0f) | 0x40), guid[8] = (uint8_t)((guid[8] & 0x3f) | 0x80);
    if (fd >= 0) close(fd);
    return status;
}

int main(int argc, char **argv) {
    static const uint8_t unused[16];
    if (argc != 5) return 2;
    gptman_disk disk;
    gptman_table table;
    gptman_partition *partitions = NULL;
    uint32_t answer = gptman_open(&disk, open(argv[1], O_RDWR), 512), i = 0;
    if (answer == GPTMAN_OK) answer = gptman_read_fd(&disk, &table, &partitions);
    if (answer == GPTMAN_OK) {
        while (i < table.entry_count && memcmp(partitions[i].type_guid, unused, 16) != 0) i++;
        if (i == table.entry_count) answer = GPTMAN_NO_SPACE_LEFT;
    }
    if (answer == GPTMAN_OK) {
        gptman_partition *added = &partitions[i];
        memset(added, 0, sizeof *added);
        memcpy(added->type_guid, LINUX, 16);
        added->first_lba = strtoull(argv[2], NULL, 10), added->last_lba = strtoull(argv[3], NULL, 10);
        answer = gptman_set_name(added, (const uint8_t *)argv[4], strlen(argv[4]));
        if (answer == GPTMAN_OK && draw_guid(added->unique_guid) != 0) answer = GPTMAN_IO;
        if (answer == GPTMAN_OK) answer = gptman_write_fd(&disk, partitions, table.entry_count);
    }
    free(partitions);
    if (answer != GPTMAN_OK) gptman_perror("add", answer);
    else gptman_tell_kernel(&disk, argv[1]);
    return answer != GPTMAN_OK;
}
