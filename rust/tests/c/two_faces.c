/* Draws two faces over a picture of 2 x 2 pixels, the second in front, and prints row, column, face number and depth
 * bits of each pixel. Compile as C11 or C++17 with include/ in the include path, and link libpaqelzim.a. */
#include "paqelzim.h"

#include <inttypes.h>
#include <stdio.h>
#include <string.h>

int main(void) {
    const float identity[16] = {1, 0, 0, 0, 0, 1, 0, 0, 0, 0, 1, 0, 0, 0, 0, 1};
    const uint32_t tri2vtx[6] = {0, 1, 2, 3, 4, 5};
    const float vtx2xyz[18] = {-1, -1, 0.25f, 3, -1, 0.25f, -1, 3, 0.25f,
                               -1, -1, 0.50f, 3, -1, 0.50f, -1, 3, 0.50f};
    uint32_t pix2tri[4];
    float pix2depth[4];
    float pix2weights[12];

    uint32_t code = paqelzim_clear(pix2tri, 4, pix2depth, 4, pix2weights, 12, 2, 2);
    if (code == 0)
        code = paqelzim_pix2tri_by_rasterization(pix2tri, 4, pix2depth, 4, pix2weights, 12, tri2vtx, 6, vtx2xyz, 18, 2, 2,
                                                 identity, 0, 0);
    if (code != 0) {
        printf("refused at question %" PRIu32 "\n", code);
        return 1;
    }
    for (int i = 0; i < 4; i++) {
        uint32_t bits;
        memcpy(&bits, &pix2depth[i], sizeof bits);
        printf("(pixel (%d %d) (%" PRIu32 " %08" PRIx32 "))\n", i / 2, i % 2, pix2tri[i], bits);
    }
    return 0;
}
