/* The part x - 2, sampled at x = 0.5, 1.5 and 2.5 on two rows: packed, drawn by tiles, written as a Netpbm bitmap. */
#include "layers.h"
#include <stdio.h>

int main(void)
{
    static const int32_t list[15] = {
        1,  0, 0, 0, 0,      /* x to slot 0 */
        0,  1, 0, 0, 131072, /* the constant 2 to slot 1 */
        10, 0, 0, 1, 0,      /* slot 0 - slot 1 to slot 0 */
    };
    static uint8_t work[LAYERS_WORK];
    uint8_t tape[8 + 10 * 3], picture[2], file[9];
    LayersGrid grid = {.width = 3, .height = 2, .xstep = 65536, .ystep = 65536};

    LayersAnswer answer = layers_pack_tape(2, list, 15, tape, sizeof tape);
    if (answer.number == 0)
        answer = layers_tile_flat(tape, sizeof tape, grid, picture, sizeof picture, work, sizeof work);
    if (answer.number == 0)
        answer = layers_write_bitmap(grid.width, grid.height, picture, sizeof picture, file, sizeof file);
    if (answer.number != 0) {
        fprintf(stderr, "refused %u at %u\n", (unsigned)answer.number, (unsigned)answer.place);
        return 1;
    }
    return fwrite(file, 1, sizeof file, stdout) != sizeof file;
}
