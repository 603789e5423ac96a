/* Prints the focus points of a maker note: example FILE MODEL [PICTURE_WIDTH PICTURE_HEIGHT] */
#include <stdio.h>
#include <stdlib.h>
#include <string.h>

#include "focuspoints.h"

static uint8_t block[1048577];

int main(int argc, char **argv)
{
    if (argc != 3 && argc != 5) {
        fprintf(stderr, "usage: example FILE MODEL [PICTURE_WIDTH PICTURE_HEIGHT]\n");
        return 2;
    }
    FILE *f = fopen(argv[1], "rb");
    if (!f) {
        perror(argv[1]);
        return 2;
    }
    size_t len = fread(block, 1, sizeof block, f);
    fclose(f);
    uint32_t given = argc == 5;
    uint32_t width = given ? (uint32_t)strtoul(argv[3], NULL, 10) : 0;
    uint32_t height = given ? (uint32_t)strtoul(argv[4], NULL, 10) : 0;
    uint32_t out[FOCUSPOINTS_LISTING];
    uint32_t no = focuspoints_photograph(block, len, 0, 0, 0, given, width, height,
                                         (const uint8_t *)argv[2], strlen(argv[2]), out, FOCUSPOINTS_LISTING);
    if (no != FOCUSPOINTS_OK) {
        printf("no %u\n", no);
        return 1;
    }
    printf("frame %u %u points %u primary %u mode %u origin %u\n", out[0], out[1], out[2], out[3], out[4], out[5]);
    for (uint32_t *p = out + FOCUSPOINTS_HEAD; p < out + FOCUSPOINTS_HEAD + 6 * out[2]; p += 6)
        printf("%u %u %u %u %u %u\n", p[0], p[1], p[2], p[3], p[4], p[5]);
    return 0;
}
