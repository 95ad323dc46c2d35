/* list IMAGE [SECTOR_SIZE]: a line for each partition of an image: its number, its sectors, its name. */
#include "gptman_fd.h"

#include <inttypes.h>

int main(int argc, char **argv) {
    static const uint8_t unused[16];
    gptman_disk disk;
    gptman_table table;
    gptman_partition *partitions = NULL;
    if (argc < 2) return 2;
    uint32_t answer = gptman_open(&disk, open(argv[1], O_RDONLY), argc > 2 ? strtoull(argv[2], NULL, 10) : 512);
    if (answer == GPTMAN_OK) answer = gptman_read_fd(&disk, &table, &partitions);
    for (uint32_t i = 0; answer == GPTMAN_OK && i < table.entry_count; i++) {
        if (memcmp(partitions[i].type_guid, unused, 16) == 0) continue;
        uint8_t name[GPTMAN_NAME_SIZE];
        if ((answer = gptman_get_name(&partitions[i], name, sizeof name)) != GPTMAN_OK) break;
        printf("%" PRIu32 " %" PRIu64 " %" PRIu64 " %s\n", i + 1, partitions[i].first_lba, partitions[i].last_lba,
               (const char *)name);
    }
    free(partitions);
    if (answer != GPTMAN_OK) gptman_perror("list", answer);
    return answer != GPTMAN_OK;
}
