/* list_fdisk IMAGE: what examples/list.c prints, by libfdisk. */
#include <libfdisk/libfdisk.h>
#include <stdio.h>

int main(int argc, char **argv) {
    struct fdisk_context *context = fdisk_new_context();
    struct fdisk_table *table = NULL;
    struct fdisk_partition *partition = NULL;
    if (argc != 2 || context == NULL || fdisk_assign_device(context, argv[1], 1) != 0) return 1;
    if (!fdisk_is_label(context, GPT) || fdisk_get_partitions(context, &table) != 0) return 1;
    struct fdisk_iter *iter = fdisk_new_iter(FDISK_ITER_FORWARD);
    while (iter != NULL && fdisk_table_next_partition(table, iter, &partition) == 0) {
        const char *name = fdisk_partition_get_name(partition);
        printf("%zu %ju %ju %s\n", fdisk_partition_get_partno(partition) + 1,
               (uintmax_t)fdisk_partition_get_start(partition), (uintmax_t)fdisk_partition_get_end(partition),
               name == NULL ? "" : name);
    }
    fdisk_free_iter(iter);
    fdisk_unref_table(table);
    fdisk_deassign_device(context, 1);
    fdisk_unref_context(context);
    return 0;
}
