/* tasks IMAGE TASK: ten common tasks. list | check | repair | guids | add SECTORS NAME | remove NUMBER |
 * resize NUMBER SECTORS | name NUMBER NAME | new and grow, which also write a protective MBR */
#include "gptman_fd.h"
#include <inttypes.h>
#include <sys/random.h>

static int is(const char *task, const char *name) { return strcmp(task, name) == 0; }
static int is_used(const gptman_partition *entry) { return memcmp(entry->type_guid, (uint8_t[16]){0}, 16) != 0; }

static uint32_t draw_guid(uint8_t *guid) {
    if (getrandom(guid, 16, 0) != 16) return GPTMAN_IO;
    guid[7] = (uint8_t)((guid[7] & 0x0f) | 0x40), guid[8] = (uint8_t)((guid[8] & 0x3f) | 0x80); /* version 4 */
    return GPTMAN_OK;
}

/* Adds a partition for Linux in the first free place, under the first unused number. */
static uint32_t add(const gptman_table *table, gptman_partition *entries, uint64_t sectors, const char *name) {
    gptman_partition added = {"\xaf\x3d\xc6\x0f\x83\x84\x72\x47\x8e\x79\x3d\x69\xd8\x47\x7d\xe4", {0}, 0, 0, 0, {0}};
    uint32_t i = 0, answer = gptman_place(table, entries, table->entry_count, sectors, GPTMAN_FIRST, &added.first_lba);
    while (i < table->entry_count && is_used(&entries[i])) i++;
    if (answer == GPTMAN_OK) answer = i < table->entry_count ? draw_guid(added.unique_guid) : GPTMAN_NO_SPACE_LEFT;
    if (answer == GPTMAN_OK) answer = gptman_set_name(&added, (const uint8_t *)name, strlen(name));
    added.last_lba = added.first_lba + sectors - 1;
    if (answer == GPTMAN_OK) entries[i] = added;
    return answer;
}

/* Does a task with the entries of a table. */
static uint32_t edit(const char *task, const gptman_table *table, gptman_partition *entries, char **words) {
    uint64_t number = strtoull(words[0], NULL, 10), sectors = strtoull(words[1], NULL, 10);
    uint32_t answer = GPTMAN_OK;
    for (uint32_t i = 0; answer == GPTMAN_OK && i < table->entry_count; i++) {
        uint8_t name[GPTMAN_NAME_SIZE];
        if (!is_used(&entries[i])) continue;
        if (is(task, "guids")) answer = draw_guid(entries[i].unique_guid);
        if (is(task, "list") && (answer = gptman_get_name(&entries[i], name, sizeof name)) == GPTMAN_OK)
            printf("%u %" PRIu64 " %" PRIu64 " %s\n", i + 1, entries[i].first_lba, entries[i].last_lba, (char *)name);
    }
    if (is(task, "guids") || is(task, "list") || is(task, "repair")) return answer;
    if (is(task, "add")) return add(table, entries, number, words[1]);
    if (number == 0 || number > table->entry_count) return GPTMAN_INVALID_PARTITION_NUMBER;
    gptman_partition *entry = &entries[number - 1];
    if (is(task, "name")) return gptman_set_name(entry, (const uint8_t *)words[1], strlen(words[1]));
    if (is(task, "remove")) return memset(entry, 0, sizeof *entry), GPTMAN_OK;
    if (is(task, "resize")) return entry->last_lba = entry->first_lba + sectors - 1, GPTMAN_OK;
    return GPTMAN_BAD_ARGUMENT;
}

int main(int argc, char **argv) {
    char nothing[] = "", *words[] = {argc > 3 ? argv[3] : nothing, argc > 4 ? argv[4] : nothing};
    const char *task = argc > 2 ? argv[2] : "";
    gptman_disk disk;
    gptman_table table = {0};
    gptman_partition *entries = NULL;
    gptman_copies copies;
    uint32_t answer = gptman_open(&disk, open(argc > 2 ? argv[1] : "", O_RDWR), 512);
    if (answer == GPTMAN_OK && is(task, "new")) {
        if ((answer = draw_guid(table.disk_guid)) == GPTMAN_OK) answer = gptman_new_fd(&disk, table.disk_guid, 128);
        if (answer == GPTMAN_OK) answer = gptman_mbr_fd(&disk, 0);
    } else if (answer == GPTMAN_OK && is(task, "grow")) {
        if ((answer = gptman_fit_fd(&disk)) == GPTMAN_OK) answer = gptman_mbr_fd(&disk, 0);
    } else if (answer == GPTMAN_OK && is(task, "check")) {
        if ((answer = gptman_check_fd(&disk, &copies)) == GPTMAN_OK)
            printf("%u %u %u\n", copies.primary_fault, copies.backup_fault, copies.are_same);
    } else if (answer == GPTMAN_OK) {
        answer = gptman_read_fd(&disk, &table, &entries);
        if (answer == GPTMAN_OK) table.align = 2048, answer = edit(task, &table, entries, words); /* 1 MiB */
        if (answer == GPTMAN_OK && !is(task, "list")) answer = gptman_write_fd(&disk, entries, table.entry_count);
        free(entries);
    }
    if (answer != GPTMAN_OK) gptman_perror("tasks", answer);
    else if (!is(task, "list") && !is(task, "check")) gptman_tell_kernel(&disk, argv[1]);
    return answer != GPTMAN_OK;
}
