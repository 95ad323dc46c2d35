/* asks: the calls of gptman_fd.h over a library that asks again for what it has, for what is on no disk, or for a byte
 * more each time. A line for each answer. */
#define _DEFAULT_SOURCE
#include <stdio.h>

#include "gptman.h"

static enum { KNOWN, TWICE, OUTSIDE, PAST, MORE, SAME_ROOM, MORE_ROOM, HOW_MANY } way;
static uint64_t size_of_disk;

static uint32_t ask(gptman_needed *needed, size_t head, size_t tail, uint32_t *room) {
    static uint64_t last;
    needed->length = 1;
    switch (way) {
    case KNOWN: needed->from = head - 1; break;
    case TWICE: needed->from = size_of_disk - tail - 1, needed->length = 0; break;
    case OUTSIDE: needed->from = size_of_disk; break;
    case PAST: needed->from = UINT64_MAX, needed->length = 2; break;
    case MORE: needed->from = head; break;
    case SAME_ROOM: needed->steps = 0, needed->bytes = 0, *room = 128; return GPTMAN_LACKS_ROOM;
    default: needed->steps = needed->bytes = ++last, *room = (uint32_t)(128 + last); return GPTMAN_LACKS_ROOM;
    }
    return GPTMAN_LACKS_BYTES;
}

static uint32_t ask_read(const uint8_t *head, size_t head_length, const uint8_t *tail, size_t tail_length,
                         uint64_t size, uint64_t sector, gptman_table *table, gptman_partition *partitions,
                         size_t count, gptman_needed *needed) {
    (void)head, (void)tail, (void)size, (void)sector, (void)partitions, (void)count;
    return ask(needed, head_length, tail_length, &table->entry_count);
}

static uint32_t ask_check(const uint8_t *head, size_t head_length, const uint8_t *tail, size_t tail_length,
                          uint64_t size, uint64_t sector, gptman_copies *copies, gptman_needed *needed) {
    uint32_t room;
    (void)head, (void)tail, (void)size, (void)sector, (void)copies;
    return ask(needed, head_length, tail_length, &room);
}

static uint32_t ask_fit(const uint8_t *head, size_t head_length, const uint8_t *tail, size_t tail_length, uint64_t size,
                        uint64_t sector, gptman_step *steps, size_t step_count, uint8_t *bytes, size_t byte_count,
                        gptman_needed *needed, uint32_t flags) {
    uint32_t room;
    (void)head, (void)tail, (void)size, (void)sector, (void)steps, (void)step_count, (void)bytes, (void)byte_count;
    (void)flags;
    return ask(needed, head_length, tail_length, &room);
}

#define gptman_read ask_read
#define gptman_check ask_check
#define gptman_fit ask_fit
#include "gptman_fd.h"

static void print(uint32_t answer, char end) {
    char name[GPTMAN_FAULT_NAME_SIZE];
    if (gptman_fault_name(answer, name, sizeof name) == 0) printf("%s%c", name, end);
}

int main(int argc, char **argv) {
    gptman_disk disk;
    gptman_table table;
    gptman_partition *partitions;
    gptman_copies copies;
    int fd = argc == 2 ? open(argv[1], O_RDWR) : -1;
    if (gptman_open(&disk, fd, 512) != 0) return 2;
    size_of_disk = (uint64_t)lseek(fd, 0, SEEK_END);
    for (int k = 0; k < HOW_MANY; k++) {
        way = k;
        uint32_t read = gptman_read_fd(&disk, &table, &partitions);
        if (partitions != NULL) return 3;
        print(read, ' ');
        if (way < SAME_ROOM) print(gptman_check_fd(&disk, &copies), ' ');
        print(gptman_fit_fd(&disk), '\n');
    }
    return 0;
}
