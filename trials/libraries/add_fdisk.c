/* add_fdisk IMAGE FIRST LAST NAME: what examples/add.c does, by libfdisk. */
#include <libfdisk/libfdisk.h>
#include <stdlib.h>

int main(int argc, char **argv) {
    struct fdisk_context *context = fdisk_new_context();
    struct fdisk_partition *partition = fdisk_new_partition();
    if (argc != 5 || context == NULL || partition == NULL) return 2;
    fdisk_disable_dialogs(context, 1);
    if (fdisk_assign_device(context, argv[1], 0) != 0 || !fdisk_is_label(context, GPT)) return 1;
    uint64_t first = strtoull(argv[2], NULL, 10), last = strtoull(argv[3], NULL, 10);
    struct fdisk_parttype *type =
        fdisk_label_parse_parttype(fdisk_get_label(context, NULL), "0FC63DAF-8483-4772-8E79-3D69D8477DE4");
    int is_set = type != NULL && fdisk_partition_set_type(partition, type) == 0 &&
                 fdisk_partition_set_start(partition, first) == 0 &&
                 fdisk_partition_set_size(partition, last - first + 1) == 0 &&
                 fdisk_partition_set_name(partition, argv[4]) == 0 &&
                 fdisk_partition_partno_follow_default(partition, 1) == 0;
    int status = !is_set || fdisk_add_partition(context, partition, NULL) != 0 || fdisk_write_disklabel(context) != 0;
    if (fdisk_deassign_device(context, 0) != 0) status = 1;
    fdisk_unref_parttype(type);
    fdisk_unref_partition(partition);
    fdisk_unref_context(context);
    return status;
}
