/* list_parted IMAGE: what examples/list.c prints, by libparted. */
#include <parted/parted.h>
#include <stdio.h>

int main(int argc, char **argv) {
    PedDevice *device = argc == 2 ? ped_device_get(argv[1]) : NULL;
    PedDisk *disk = device == NULL ? NULL : ped_disk_new(device);
    if (disk == NULL) return 1;
    for (PedPartition *p = ped_disk_next_partition(disk, NULL); p != NULL; p = ped_disk_next_partition(disk, p)) {
        if (p->num > 0) {
            printf("%d %lld %lld %s\n", p->num, p->geom.start, p->geom.end, ped_partition_get_name(p));
        }
    }
    ped_disk_destroy(disk);
    ped_device_destroy(device);
    return 0;
}
