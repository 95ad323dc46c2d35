/* grow IMAGE: fits the table to the length that the image has now. */
#include "gptman_fd.h"

int main(int argc, char **argv) {
    if (argc != 2) return 2;
    gptman_disk disk;
    uint32_t answer = gptman_open(&disk, open(argv[1], O_RDWR), 512);
    if (answer == GPTMAN_OK) answer = gptman_fit_fd(&disk);
    if (answer != GPTMAN_OK) gptman_perror("grow", answer);
    return answer != GPTMAN_OK;
}
