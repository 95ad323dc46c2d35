/* add_parted IMAGE FIRST LAST NAME: what examples/add.c does, by libparted. */
#include <parted/parted.h>
#include <stdlib.h>

/* What parted does with the options -s and -f: what can be mended is. */
static PedExceptionOption mend(PedException *exception) {
    if (exception->options & PED_EXCEPTION_FIX) return PED_EXCEPTION_FIX;
    return PED_EXCEPTION_UNHANDLED;
}

int main(int argc, char **argv) {
    if (argc != 5) return 2;
    ped_exception_set_handler(mend);
    PedDevice *device = ped_device_get(argv[1]);
    PedDisk *disk = device == NULL ? NULL : ped_disk_new(device);
    if (disk == NULL) return 1;
    long long first = strtoll(argv[2], NULL, 10), last = strtoll(argv[3], NULL, 10);
    PedPartition *partition = ped_partition_new(disk, PED_PARTITION_NORMAL, NULL, first, last);
    if (partition == NULL || !ped_partition_set_name(partition, argv[4])) return 1;
    PedConstraint *exact = ped_constraint_exact(&partition->geom);
    int is_done = ped_disk_add_partition(disk, partition, exact) && ped_disk_commit(disk);
    ped_constraint_destroy(exact);
    ped_disk_destroy(disk);
    ped_device_destroy(device);
    return !is_done;
}
