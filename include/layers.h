/*
 * Lezantsiro: the layer core's calls for C.
 *
 * A buffer is a pointer and its length in elements, and stays the caller's: a call keeps no pointer, allocates nothing
 * and uses at most 384 KiB of stack, whatever the tape: the calls with a work buffer up to that, every other call less
 * than 64 KiB.
 *
 * The calls are proved in a language that knows four things of every buffer of a call. C knows none of them, so the
 * caller sees to each, also where the length is 0 and where the call is refused; else nothing that is proved holds:
 *
 *   - it has the length stated behind a pointer that is not null, and can be written where it is not const;
 *   - it is aligned: int32_t at a multiple of 4 bytes, uint16_t at a multiple of 2;
 *   - it overlaps no other buffer of the call, unless both are const: buffers that are only read may overlap;
 *   - during the call nobody else changes it, or reads it where it is not const: no other thread, no signal handler.
 *
 * Calls whose buffers are apart may run at once, in several threads. A call cannot be cancelled, and a small input can
 * ask for minutes.
 *
 * Every call takes any input. It returns number, place and count. number 0: done; the whole output or picture is
 * written, and the whole work buffer is 0. Three kinds of call leave bytes as they were: of a text's tape those behind
 * it, of a plate the tiles that the part cannot touch and the other places, of a shared table all outside the rectangle
 * and the entries that were known. Any other number is a line of the table of refusals: nothing lent has changed, count
 * is 0, and place is the clause at fault for numbers 5 to 9, otherwise 0.
 *
 *    1 tape below 8 bytes
 *    2 head mark, edition or spare bytes wrong
 *    3 slot or clause count out of range, or edition not that of these counts
 *    4 tape length not 8 + 10*clauses; list length not a multiple of 5
 *    5 clause mark wrong, or opcode not 0 to 14
 *    6 a used slot field below 0, or not below the slot count
 *    7 an unused field not 0
 *    8 a used constant of -2,147,483,648
 *    9 a slot read that no earlier clause wrote
 *   10 a size not 1 to 512; a rectangle of tiles that is empty or leaves the grid
 *   11 a step below 1, or an origin, z or last sample outside -2,147,483,647 to 2,147,483,647
 *   12 picture or slope buffer not of the exact length; order list not of every tile one time
 *   13 work buffer below 32,768 bytes
 *   14 packing, unpacking, merging, text or file: output not of the exact length; plate memory not of 524,288 bytes
 *   17 text: the rules of a formula broken
 *   18 text: a bracket, a function's too, that opens inside 32 others
 *   19 text: more than 1,024 clauses or 64 slots needed
 *   20 probe: a coordinate not a number, infinite, or above 32,767 in magnitude
 *   21 merging: a result of more than 6,144 clauses, the minimum counted, or of more than 128 slots
 *   22 plate: a place above 7, taken on adding, or empty on removing
 *   23 reason: a pixel outside the grid
 *   24 table: not 163,936 bytes, not of this tape and grid, a verdict above 3, a kept tape refused or with a wrong copy
 *   25 path: empty, above 4,096 pairs, not in whole pairs, or a sample moved outside -2,147,483,647 to 2,147,483,647
 */
#ifndef LAYERS_H
#define LAYERS_H

#include <stddef.h>
#include <stdint.h>

#ifdef __cplusplus
extern "C" {
#endif

#define LAYERS_WORK 32768
#define LAYERS_TEXT_TAPE 10248
#define LAYERS_POSITIONS 4096
#define LAYERS_PLACE 65536
#define LAYERS_PLATE 524288
#define LAYERS_TABLE 163936

typedef struct {
    uint8_t number;
    uint32_t place;
    uint64_t count;
} LayersAnswer;

/* The answer of unpacking, with the tape's slot count (0 where it is refused). */
typedef struct {
    LayersAnswer answer;
    uint8_t slots;
} LayersListed;

/* A point, for a probe. */
typedef struct {
    double x;
    double y;
    double z;
} LayersPoint;

#define LAYERS_REFUSED 0
#define LAYERS_INSIDE 1
#define LAYERS_OUTSIDE 2
#define LAYERS_SURFACE 3

/* The answer of a probe, the side of the surface that the point lies on, and inside and outside the value (else 0). */
typedef struct {
    LayersAnswer answer;
    uint8_t side;
    double value;
} LayersProbed;

/*
 * The answer for a pixel, and where the walk stopped for it: the side of the region, 64, 8 or 1, also where an edge of
 * the picture cuts it off; both ends of the formula's range there, at side 1 the value twice; and how many clauses the
 * region's tape had. All are 0 where the call is refused.
 */
typedef struct {
    LayersAnswer answer;
    uint32_t side;
    int32_t low;
    int32_t high;
    uint32_t clauses;
} LayersReason;

/*
 * Sample i on an axis is origin + i * step + step / 2, rounded down: each pixel stands for the middle of its cell. A
 * flat drawing reads neither depth nor zstep; its one z is zorigin as it is given.
 */
typedef struct {
    uint32_t width;
    uint32_t height;
    uint32_t depth;
    int32_t xorigin;
    int32_t yorigin;
    int32_t zorigin;
    int32_t xstep;
    int32_t ystep;
    int32_t zstep;
} LayersGrid;

/* A rectangle of the 64-tiles of a flat grid: its first column and row of tiles, counted from 0, and how many of each. */
typedef struct {
    uint32_t column;
    uint32_t row;
    uint32_t columns;
    uint32_t rows;
} LayersRectangle;

/*
 * A list, five numbers to a clause (opcode, out, left, right, constant), to a tape of 8 + 10 bytes a clause, and back.
 * The tape is of edition 01 if it has at most 64 slots and 1,024 clauses, otherwise of edition 02.
 */
LayersAnswer layers_pack_tape(uint32_t slots, const int32_t *list, size_t list_len, uint8_t *out, size_t out_len);
LayersListed layers_unpack_tape(const uint8_t *tape, size_t tape_len, int32_t *out, size_t out_len);

/*
 * Two tapes into one of 8 + 10 bytes for each clause of both and for one more, a minimum: the smaller of the two values
 * at every sample. The first's clauses, the second's with the slots that they use raised by the first's slot count, then
 * the minimum of both results, the first's at left, into the first's result slot; of edition 01 or 02 by its counts, as
 * above. The place is the clause in whichever tape failed, the first being checked first; 21 comes before 14. A tape may
 * be lent as both.
 */
LayersAnswer layers_merge_tapes(const uint8_t *first, size_t first_len, const uint8_t *second, size_t second_len,
                                uint8_t *out, size_t out_len);

/*
 * A formula as text, such as max(root(sqr(x) + sqr(y)) - 12.5, abs(z) - 2), to a tape; docs/FORMATS.md has the
 * rules. out has LAYERS_TEXT_TAPE bytes. The tape goes to its front, the bytes behind it stay, and its length is
 * 8 + 10 * (out[4] + 256 * out[5]).
 */
LayersAnswer layers_read_text(const uint8_t *text, size_t text_len, uint8_t *out, size_t out_len);

/* The full drawings: a flat picture has (width + 7) / 8 bytes a row, a solid one 16-bit height a pixel. */
LayersAnswer layers_draw_flat(const uint8_t *tape, size_t tape_len, LayersGrid grid, uint8_t *picture, size_t picture_len);
LayersAnswer layers_draw_solid(const uint8_t *tape, size_t tape_len, LayersGrid grid, uint16_t *picture, size_t picture_len);

/*
 * The same pictures, drawn by tiles. work has at least LAYERS_WORK bytes, whatever the tape: a short tape is kept there
 * as two bits a clause beside the tape as given. What it held before does not matter, and after the call it is 0.
 */
LayersAnswer layers_tile_flat(const uint8_t *tape, size_t tape_len, LayersGrid grid, uint8_t *picture, size_t picture_len,
                              uint8_t *work, size_t work_len);
LayersAnswer layers_tile_solid(const uint8_t *tape, size_t tape_len, LayersGrid grid, uint16_t *picture, size_t picture_len,
                               uint8_t *work, size_t work_len);

/*
 * The picture of layers_tile_solid with its 64-tiles drawn in an order of the caller's own, which changes no height: order
 * has each tile's number one time. The tiles are numbered from 0, those with the greatest z first, in each layer of tiles
 * row by row. The count is that of the walk in this order.
 */
LayersAnswer layers_tile_solid_in_order(const uint8_t *tape, size_t tape_len, LayersGrid grid, const uint16_t *order,
                                        size_t order_len, uint16_t *picture, size_t picture_len, uint8_t *work,
                                        size_t work_len);

/*
 * The picture and the count of layers_tile_solid, and three slopes a pixel, x, y and z of one and then of the next: how
 * much the formula grows along each axis at the visible sample, in units of 1/65,536 for each 1; 0 where the height is 0.
 */
LayersAnswer layers_tile_slopes(const uint8_t *tape, size_t tape_len, LayersGrid grid, uint16_t *picture, size_t picture_len,
                                int32_t *slopes, size_t slopes_len, uint8_t *work, size_t work_len);

/*
 * Why the pixel in column x and row y of layers_tile_flat's picture has material or has none. Of the region that decided
 * it, high is below 0 or low is not. No picture is lent; the count is 0.
 */
LayersReason layers_explain_pixel(const uint8_t *tape, size_t tape_len, LayersGrid grid, uint32_t x, uint32_t y,
                                  uint8_t *work, size_t work_len);

/*
 * What a part sweeps that moves along a path: pairs of numbers, the offsets of x and y at up to LAYERS_POSITIONS
 * positions. A pixel of the flat grid is covered at a position if the formula is below 0 at the pixel's sample less the
 * offsets. picture has one number a pixel: 1 + the number of the first position that covers it, counted from 0, or 0 if
 * none does. It is drawn by tiles; the count is 0. layers_write_heights makes its file.
 */
LayersAnswer layers_tile_swept(const uint8_t *tape, size_t tape_len, LayersGrid grid, const int32_t *path, size_t path_len,
                               uint16_t *picture, size_t picture_len, uint8_t *work, size_t work_len);

/*
 * Parts that come and go on a plate, and one flat picture on one grid, material where any part has it. memory has
 * LAYERS_PLATE bytes: places 0 to 7 of LAYERS_PLACE each, all zero where empty, else beginning with an accepted tape; what
 * is behind the tape is free. Begin with memory and picture all zero, and call with the same grid. Adding stores the tape
 * and zeros behind it, removing zeros the place. The bytes of a 64-tile where the part's range is 0 or more are not
 * touched; all others are drawn afresh from the parts present. The count is 0. 14 is checked first; then the lowest place
 * that is neither empty nor a tape gives its tape's number and clause; then 22, on adding the tape, and 10 to 13.
 */
LayersAnswer layers_plate_add(uint8_t *memory, size_t memory_len, uint32_t place, const uint8_t *tape, size_t tape_len,
                              LayersGrid grid, uint8_t *picture, size_t picture_len, uint8_t *work, size_t work_len);
LayersAnswer layers_plate_remove(uint8_t *memory, size_t memory_len, uint32_t place, LayersGrid grid, uint8_t *picture,
                                 size_t picture_len, uint8_t *work, size_t work_len);

/*
 * Rectangles of whole 64-tiles of one flat picture, drawn by turns: each user has a picture of its own, and all share a
 * table of LAYERS_TABLE bytes. It holds the tape, zeros up to byte 65,536, the program's grid record with depth and third
 * step 0, then for 64 tiles, row by row, a verdict (0 unknown, 1 full, 2 empty, 3 its short tape) and 1,536 bytes, for 3 two
 * bits a clause, else 0. layers_table_begin writes all of it, each tile unknown; its count is 0. layers_table_draw draws the
 * rectangle's tiles, writes the verdict of those that were unknown, and touches no byte of the picture outside the
 * rectangle. From a table begun, in any order of turns, the rectangle's pixels are layers_tile_flat's; the count is the
 * walk's over these tiles, without the region of side 64 where the verdict was known. 24 is checked behind 11 and before 12.
 * Any other table is refused with 24, or its bytes alone tell picture and count. Only one user calls at a time.
 */
LayersAnswer layers_table_begin(const uint8_t *tape, size_t tape_len, LayersGrid grid, uint8_t *table, size_t table_len);
LayersAnswer layers_table_draw(const uint8_t *tape, size_t tape_len, LayersGrid grid, LayersRectangle rectangle,
                               uint8_t *table, size_t table_len, uint8_t *picture, size_t picture_len, uint8_t *work,
                               size_t work_len);

/* Netpbm files. */
LayersAnswer layers_write_bitmap(uint32_t width, uint32_t height, const uint8_t *picture, size_t picture_len, uint8_t *out,
                                 size_t out_len);
LayersAnswer layers_write_heights(uint32_t width, uint32_t height, const uint16_t *picture, size_t picture_len, uint8_t *out,
                                  size_t out_len);

/*
 * The formula at a point, each coordinate rounded down to a unit of 1/65,536; the value is exact. The floating-point
 * state is as the ABI has it at a program's start: where flush-to-zero or denormals-are-zero is set, as by gcc -Ofast,
 * -1e-310 is not rounded down but taken for 0.
 */
LayersProbed layers_probe(const uint8_t *tape, size_t tape_len, LayersPoint point);

#ifdef __cplusplus
}
#endif

#endif
