/* list_blkid IMAGE: what examples/list.c prints, by libblkid. */
#include <blkid/blkid.h>
#include <stdio.h>

int main(int argc, char **argv) {
    blkid_probe probe = argc == 2 ? blkid_new_probe_from_filename(argv[1]) : NULL;
    blkid_partlist list = probe == NULL ? NULL : blkid_probe_get_partitions(probe);
    if (list == NULL) return 1;
    for (int i = 0; i < blkid_partlist_numof_partitions(list); i++) {
        blkid_partition partition = blkid_partlist_get_partition(list, i);
        const char *name = blkid_partition_get_name(partition);
        long long first = blkid_partition_get_start(partition), size = blkid_partition_get_size(partition);
        printf("%d %lld %lld %s\n", blkid_partition_get_partno(partition), first, first + size - 1,
               name == NULL ? "" : name);
    }
    blkid_free_probe(probe);
    return 0;
}
