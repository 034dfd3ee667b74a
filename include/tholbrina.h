/* Tholbrina: the surface of the metal in an X-ray volume, proved.
 *
 * What every call has in common:
 *
 * A room is memory that the caller lends for the length of the call: a pointer, and as its length the number of elements. No pointer may be null,
 * not even with length 0. A room that is written (one without const, and every count or number behind a pointer) must overlap no other; rooms
 * that are only read may overlap each other. Nothing past a length is read or written.
 *
 * Every call checks everything else itself. All but the first two answer a number: 0 if granted, else the number of the refusal that comes first
 * in the order given with the call. A refusal leaves every result room as it was and sets every count to 0. A result room is one that is written and
 * is not the work room; what becomes of the work room is said with each call. What the work room holds before a call does not matter.
 *
 * No call allocates memory or keeps anything, so calls on different rooms may run at once.
 *
 * Places are in units: a unit is 1/256 of a voxel, and a voxel the distance of two neighbouring samples. */
#ifndef THOLBRINA_H
#define THOLBRINA_H

/* The version of the library, the header and the programs. A change of a call, a record or a text raises the second number. */
#define THOLBRINA_VERSION "0.6.0"

#include <stddef.h>
#include <stdint.h>

#ifdef __cplusplus
extern "C" {
#endif

/* The bounds. */
enum {
  tholbrina_least_side = 2,
  tholbrina_most_side = 64,
  tholbrina_most_points = 250000,
  tholbrina_most_triangles = 500000,
  tholbrina_most_coordinate = 16128,
  tholbrina_most_rounds = 100,
  tholbrina_most_weight = 256
};

/* How many triangles a case of the cube has: 0 to 5. Bit c of the case number is set when corner c = x + 2y + 4z of the cube is above. */
uint8_t tholbrina_case_count(uint8_t case_number);

/* The cube edge at a place of a case: places 3t, 3t + 1 and 3t + 2 are the corners of triangle t, 0 to 4. It is 0 where the case has no such triangle,
 * and at any place over 14. Edges along x have the number y + 2z, along y 4 + x + 2z, along z 8 + x + 2y. */
uint8_t tholbrina_case_edge(uint8_t case_number, uint32_t place);

/* At least as many points and triangles as a grid of these sides can give, within the bounds. With room for so many, refusals 4 and 5 come only
 * where a bound is exceeded. */
static inline size_t tholbrina_grid_points(size_t nx, size_t ny, size_t nz) {
  size_t edges = 3 * nx * ny * nz;
  return edges < tholbrina_most_points ? edges : (size_t)tholbrina_most_points;
}
static inline size_t tholbrina_grid_triangles(size_t nx, size_t ny, size_t nz) {
  size_t triangles = 5 * nx * ny * nz;
  return triangles < tholbrina_most_triangles ? triangles : (size_t)tholbrina_most_triangles;
}

/* The length of the extractor's work room for a grid of these sides. */
static inline size_t tholbrina_extract_work(size_t nx, size_t ny, size_t nz) {
  return 3 * nx * ny * nz;
}

/* The mesh of a grid of nx * ny * nz samples at one grey value. Sample (x, y, z) is samples[s] with s = x + nx * (y + ny * z). A sample is above if it
 * is at least the grey value, else below. A point stands on each grid edge between a sample above and one below, where the grey value is met on the
 * straight line between the two, to the nearest unit, halves up.
 *
 * Fills from the front, and leaves the rest of each room as it was:
 *   points     three coordinates a point, in units: x, y, z
 *   edges      the grid edge of each point, in rising order: 3s + a for the edge that leaves sample s along axis a (0 is x, 1 is y, 2 is z)
 *   marks      1 for a point whose grid edge lies on an outer face of the grid, else 0
 *   triangles  three point numbers a triangle, cube by cube, x fastest, then y, then z; counterclockwise as seen from the side below, save where
 *              points share a place or a loop is bent
 * No two triangles run from one point to another the same way, and where two points that are joined by a triangle side do not lie on one outer face of
 * the grid, one triangle runs each way: a structure of half edges takes the mesh as it is, and has edges without a twin on outer faces only.
 * A room for points or triangles counts its whole threes. *point_count and *triangle_count say how many of each there are. A mesh may be empty: grey
 * value 0 gives an empty one, since all samples are at least 0.
 *
 * Refusals, in this order:
 *   1  a side is below 2 or above 64
 *   2  samples_len is not nx * ny * nz
 *   3  work_len is not 3 * nx * ny * nz
 *   4  there are more than 250,000 points, or more than the least of the point, edge and mark rooms holds
 *   5  there are more than 500,000 triangles, or more than their room holds
 * 1, 2 and 3 leave the work room as it was; 4, 5 and a granted call leave it all zero. */
uint32_t tholbrina_extract(uint32_t nx, uint32_t ny, uint32_t nz, uint16_t grey,
                           const uint16_t *samples, size_t samples_len,
                           uint32_t *points, size_t points_len,
                           uint32_t *edges, size_t edges_len,
                           uint8_t *marks, size_t marks_len,
                           uint32_t *triangles, size_t triangles_len,
                           uint32_t *work, size_t work_len,
                           uint32_t *point_count, uint32_t *triangle_count);

/* A volume layer by layer, as a scanner delivers it. A run is an opening, nz layers in their order, and a closing. It holds two layers and no more: the
 * one that is handed in, and the one before it, which the state keeps.
 *
 * A layer has nx * ny samples; sample (x, y) of it is layer[x + nx * y]. A granted layer hands out what it finishes: the points of the layer below, on
 * the grid edges that leave a sample of that layer, those along z up to the new layer too, and the triangles of the cubes between the two. The first
 * layer hands out nothing. The closing hands out the points of the last layer.
 *
 * Points are named by their grid edges, in triangles too. A corner of a triangle may lie in the new layer: its point is handed out by the next call.
 * The edges that a run hands out rise, in a call and from call to call. So a point's number is the rank of its edge, and all that a run hands out, put
 * together in order, with point numbers for the edges in the triangles, is the mesh of tholbrina_extract.
 *
 * A refused call leaves the state as it was, and the run can go on from there: with larger rooms after 4 or 5, for instance. */

/* The length of the room for a run's state. What stands in it is the library's own: a call is lent the state that the last granted call left. With any
 * other numbers in it no call goes wrong; each is granted or refused by what it finds there. */
enum { tholbrina_layers_state = 4104 };

/* At least as many points and triangles as one call of a run with these sides can hand out. With room for so many, refusals 4 and 5 come only where the
 * run's totals exceed a bound. */
static inline size_t tholbrina_layer_points(size_t nx, size_t ny) {
  return tholbrina_grid_points(nx, ny, 1);
}
static inline size_t tholbrina_layer_triangles(size_t nx, size_t ny) {
  return tholbrina_grid_triangles(nx, ny, 1);
}

/* Opens a run of nz layers of nx * ny samples at one grey value, and writes the whole room of its state. There is no work room.
 *
 * Refusals, in this order:
 *   1  a side is below 2 or above 64
 *   3  state_len is not 4,104 */
uint32_t tholbrina_layers_open(uint32_t nx, uint32_t ny, uint32_t nz, uint16_t grey,
                               uint32_t *state, size_t state_len);

/* Takes the next layer. Fills from the front, and leaves the rest of each room as it was: points, edges and marks as tholbrina_extract does, and
 * triangles with three grid edges a triangle, cube by cube, x fastest, then y. A room for points or triangles counts its whole threes. *point_count and
 * *triangle_count say how many of each this call hands out. There is no work room.
 *
 * Refusals, in this order:
 *   3   state_len is not 4,104
 *   1   the state, which no call left, has a side below 2 or above 64 or a grey value above 65,535
 *   17  layer_len is not nx * ny, or the layer is one too many: nz layers or more were taken, or the run is closed
 *   4   the run's points with this call's are more than 250,000, or this call's are more than the least of the point, edge and mark rooms holds
 *   5   the run's triangles with this call's are more than 500,000, or this call's are more than their room holds */
uint32_t tholbrina_layers_next(const uint16_t *layer, size_t layer_len,
                               uint32_t *state, size_t state_len,
                               uint32_t *points, size_t points_len,
                               uint32_t *edges, size_t edges_len,
                               uint8_t *marks, size_t marks_len,
                               uint32_t *triangles, size_t triangles_len,
                               uint32_t *point_count, uint32_t *triangle_count);

/* Closes a run whose layers were all taken, and hands out the points of the last one: into points, edges and marks from the front, as
 * tholbrina_layers_next does. *point_count says how many they are. There is no work room.
 *
 * Refusals, in this order:
 *   3   state_len is not 4,104
 *   1   the state, which no call left, has a side below 2 or above 64 or a grey value above 65,535
 *   18  fewer than nz layers were taken, or the run was closed before
 *   4   the run's points with this call's are more than 250,000, or this call's are more than the least of the point, edge and mark rooms holds */
uint32_t tholbrina_layers_close(uint32_t *state, size_t state_len,
                                uint32_t *points, size_t points_len,
                                uint32_t *edges, size_t edges_len,
                                uint8_t *marks, size_t marks_len,
                                uint32_t *point_count);

/* Many grey values, tried on one volume. A summary of the samples is kept beside them. It tells block by block where the surface can be at a grey
 * value, so that triangles are looked for only there. The mesh is that of tholbrina_extract.
 *
 * Cube (x, y, z) has its corners at samples x to x + 1, y to y + 1 and z to z + 1, and is in the grid if all of these are. The whole block has 64 cubes
 * a side and begins at cube (0, 0, 0). It is halved along each axis down to single cubes: level k, 0 to 6, has 2^k blocks a side, of 64 / 2^k cubes
 * each. A block has two numbers, the least and the greatest sample among the corners of those of its cubes that are in the grid, and 65,535 and 0 if
 * none is.
 *
 * What a query cannot save: no call keeps anything, and refusal 19 is exact, so every query reads all samples and the whole summary, and none is done
 * sooner than that. What it saves is the search for triangles where there are none. */

/* The length of a summary, whatever the sides of the grid are. It has two numbers a block, the least first, from the whole block down, level by level;
 * in a level x goes fastest, then y, then z. Block (x, y, z) of level k has its least at 2 * ((8^k - 1) / 7 + x + 2^k * (y + 2^k * z)). */
enum { tholbrina_summary_length = 599186 };

/* Builds the summary of the samples of a grid, which stand as for tholbrina_extract, and writes the whole room. There is no work room.
 *
 * Refusals, in this order, which leave the room as it was:
 *   1  a side is below 2 or above 64
 *   2  samples_len is not nx * ny * nz
 *   3  summary_len is not 599,186 */
uint32_t tholbrina_summary(uint32_t nx, uint32_t ny, uint32_t nz,
                           const uint16_t *samples, size_t samples_len,
                           uint16_t *summary, size_t summary_len);

/* The mesh of a grid at one grey value by the summary of its samples, as tholbrina_summary builds it. The summary is only read, so that its length is a
 * matter of 19 and not of 3. A granted query leaves points, edges, marks, triangles, the work room, *point_count and *triangle_count exactly as
 * tholbrina_extract does for the same grid, grey value and rooms.
 *
 * A query looks at the whole block, and at the eight halves of every block that it opens. A block that it looks at is opened if its least is below the
 * grey value and its greatest is not, but for a single cube, which is never opened: of it this says that it has a corner above and a corner below, and
 * triangles are made for such cubes only. *block_count says how many blocks were looked at. They are at most 1 + 48c where c cubes are such. At grey
 * value 0 it is one block, and the mesh is empty.
 *
 * Refusals, in this order:
 *   1   a side is below 2 or above 64
 *   2   samples_len is not nx * ny * nz
 *   3   work_len is not 3 * nx * ny * nz
 *   19  the summary is not that of the samples: summary_len is not 599,186, or any one number differs
 *   4   there are more than 250,000 points, or more than the least of the point, edge and mark rooms holds
 *   5   there are more than 500,000 triangles, or more than their room holds
 * 1, 2 and 3 leave the work room as it was; 19, 4, 5 and a granted call leave it all zero. */
uint32_t tholbrina_query(uint32_t nx, uint32_t ny, uint32_t nz, uint16_t grey,
                         const uint16_t *samples, size_t samples_len,
                         const uint16_t *summary, size_t summary_len,
                         uint32_t *points, size_t points_len,
                         uint32_t *edges, size_t edges_len,
                         uint8_t *marks, size_t marks_len,
                         uint32_t *triangles, size_t triangles_len,
                         uint32_t *work, size_t work_len,
                         uint32_t *point_count, uint32_t *triangle_count, uint32_t *block_count);

/* The calls on a mesh take what the extractor gives or any other mesh that passes their checks: three coordinates a point, three point numbers a
 * triangle, a mark a point. V is marks_len, and T a third of triangles_len. The mesh is never written. */

/* The length of the smoothing work room for a mesh of so many points and triangles. */
static inline size_t tholbrina_smooth_work(size_t points, size_t triangles) {
  return 6 * triangles + 5 * points + 1;
}

/* Rounds of smoothing. In a round every point with mark 0 that has a neighbour (a different point that shares a triangle side with it) moves
 * towards the mean of its neighbours' places of the round before, by weight / 256 of the way, each coordinate to the nearest unit, halves up. All other
 * points stay. The places after the last round fill the second point list, smoothed, of exactly 3V numbers; 0 rounds copy the points.
 *
 * Refusals, in this order:
 *   6   points_len is not 3V, triangles_len is not a multiple of three, V is over 250,000 or T over 500,000
 *   7   a triangle names a point at or above V, or one point twice
 *   8   a coordinate is over 16,128
 *   9   a mark is over 1
 *   10  rounds is over 100 or weight over 256
 *   3   smoothed_len is not 3V, or work_len is not 6T + 5V + 1
 * Each leaves the work room as it was; a granted call leaves it all zero. */
uint32_t tholbrina_smooth(const uint32_t *points, size_t points_len,
                          const uint32_t *triangles, size_t triangles_len,
                          const uint8_t *marks, size_t marks_len,
                          uint32_t rounds, uint32_t weight,
                          uint32_t *smoothed, size_t smoothed_len,
                          uint32_t *work, size_t work_len);

/* One point's coordinates, into *x, *y and *z, out of the raw list of points (second 0) or the smoothed one (any other value). There is no work room.
 *
 * Refusals, in this order:
 *   6   raw_len is not smoothed_len, or not a multiple of three
 *   14  point is not below the third of that length */
uint32_t tholbrina_show(const uint32_t *raw, size_t raw_len,
                        const uint32_t *smoothed, size_t smoothed_len,
                        uint32_t second, uint32_t point,
                        uint32_t *x, uint32_t *y, uint32_t *z);

/* A shell's record, of 48 bytes. The six numbers at its end are its box, in units, 256 a voxel. The box is that of the places in the list of points
 * that is lent to the call: the raw list gives the raw box, the smoothed list the smoothed one. The box of a point in no triangle is its own place,
 * each least equal to its greatest. */
typedef struct tholbrina_shell {
  uint32_t low;        /* its lowest point */
  uint32_t points;     /* how many points it has */
  uint32_t triangles;  /* how many triangles it has */
  uint32_t touches;    /* 1 if any of its points is marked, else 0 */
  int64_t volume;      /* six times its volume in cubic units: the sum over its triangles of the determinant of the three points as rows. A void inside
                        * metal counts negative, save where rounding or smoothing lets its points fall together. A shell that touches an outer face
                        * may be open there, and the sum is then no volume of a body. */
  uint32_t least_x;    /* the least x of its points */
  uint32_t greatest_x; /* the greatest x of its points */
  uint32_t least_y;    /* the least y of its points */
  uint32_t greatest_y; /* the greatest y of its points */
  uint32_t least_z;    /* the least z of its points */
  uint32_t greatest_z; /* the greatest z of its points */
} tholbrina_shell;

/* A record has no padding, which the library counts on. Before C11 and C++11 there is no way to say so. */
#if defined(__cplusplus) && __cplusplus >= 201103L
static_assert(sizeof(tholbrina_shell) == 48, "a shell's record has 48 bytes");
#elif defined(__STDC_VERSION__) && __STDC_VERSION__ >= 201112L
_Static_assert(sizeof(tholbrina_shell) == 48, "a shell's record has 48 bytes");
#endif

/* The length of the work room for the shells of so many points. */
static inline size_t tholbrina_shells_work(size_t points) {
  return 2 * points;
}

/* The shells of a mesh. Two points are in one shell exactly when triangle sides lead from one to the other; a point in no triangle is a shell by
 * itself. Shells are numbered from 0 in rising order of their lowest point. numbers, of exactly V numbers, gets each point's shell; records gets from
 * the front a record a shell, record n of shell n, and the rest of it stays. *shell_count says how many shells there are. There are never more
 * than V.
 *
 * Refusals, in this order: 6, 7, 8, 9 as for tholbrina_smooth, then
 *   3   numbers_len is not V, or work_len is not 2V
 *   11  there are more shells than records_len
 * All but 11 leave the work room as it was; 11 and a granted call leave it all zero. */
uint32_t tholbrina_shells(const uint32_t *points, size_t points_len,
                          const uint32_t *triangles, size_t triangles_len,
                          const uint8_t *marks, size_t marks_len,
                          uint32_t *numbers, size_t numbers_len,
                          tholbrina_shell *records, size_t records_len,
                          uint32_t *work, size_t work_len,
                          uint32_t *shell_count);

/* So many bytes hold the text of any mesh of so many points, triangles and shells. With room for so many, tholbrina_write never refuses with 3. */
static inline size_t tholbrina_text_room(size_t points, size_t triangles, size_t shells) {
  return 35 + 57 * points + 35 * triangles + 133 * shells;
}

/* The text of a mesh with its grid edges and its shells, as the tool's --mesh and the program for small grids write it. text gets it from the front,
 * with no byte 0 behind it, and the rest of the room stays: the room may be longer than the text. *length says how many bytes the text has, 0 after
 * a refusal. There is no work room.
 *
 * A line is a letter and decimal numbers without needless zeros, parted by tabs, and a line feed ends it. In this order:
 *   M  how many points, triangles and records there are
 *   V  a line a point: its grid edge, its x, y and z, and its mark
 *   T  a line a triangle: the numbers of its three points
 *   S  a line a record: low, points, triangles, touches, volume, which has a minus sign where it is negative, least_x, greatest_x, least_y,
 *      greatest_y, least_z, greatest_z
 *
 * Only lengths are checked. What the lists hold is written as it stands, a mark of 255 or a volume of -2^63 too; that the records are the mesh's own
 * is for whoever reads the text to judge, and tholbrina_read does. Those of tholbrina_shells are.
 *
 * Refusals, in this order:
 *   6  points_len is not 3V, edges_len is not V, triangles_len is not a multiple of three, V is over 250,000, T over 500,000, or records_len over
 *      250,000
 *   3  the text is longer than text_len */
uint32_t tholbrina_write(const uint32_t *points, size_t points_len,
                         const uint32_t *edges, size_t edges_len,
                         const uint8_t *marks, size_t marks_len,
                         const uint32_t *triangles, size_t triangles_len,
                         const tholbrina_shell *records, size_t records_len,
                         uint8_t *text, size_t text_len,
                         size_t *length);

/* What line 1 of a mesh's text says, so that a caller knows what rooms to lend to tholbrina_read: *points, *triangles and *shells say how many of each
 * the text has. What follows line 1 is not looked at, and each may be any number below 2^32; no text is granted that has more than 250,000 points,
 * 500,000 triangles, or more shells than points, so more need not be lent. There is no work room.
 *
 * Refusal:
 *   15  line 1 is not M and three numbers, as said with tholbrina_read */
uint32_t tholbrina_read_counts(const uint8_t *text, size_t text_len,
                               uint32_t *points, uint32_t *triangles, uint32_t *shells);

/* The length of the reader's work room for a text of so many points and triangles. */
static inline size_t tholbrina_read_work(size_t points, size_t triangles) {
  return 6 * points + 3 * triangles;
}

/* A mesh read back from its text. The reader takes exactly what tholbrina_write writes for some mesh that passes 7 to 9 below, with edge numbers that
 * rise from point to point and with its own records, those that tholbrina_shells gives. So a mesh that is written and read is the same mesh, and a
 * text that is read and written is the same bytes.
 *
 * Fills from the front, and leaves the rest of each room as it was: points, edges, marks and triangles as tholbrina_extract does, and records as
 * tholbrina_shells does. *point_count, *triangle_count and *shell_count say how many of each there are. A room for points or triangles counts its
 * whole threes. The shell of each point is not handed out; tholbrina_shells gives it.
 *
 * The form of a text is that of tholbrina_write: line 1 is M, then come as many lines V, T and S as line 1 says, in this order, and nothing follows
 * the last. A line is its letter and its numbers, with one tab before each number, and a line feed ends it, the last line too. A number has no sign and
 * no needless zero and is below 2^32, but for a volume: it has a minus sign if it is negative and no sign else, so that -0 is none, and is at most
 * 4,195,092,529,152,000,000 in size, which is 1,000,000 times the cube of 16,128. Lines are counted from 1. A line that is missing, or stops before its
 * line feed, is bad at the number that it has or would have, and bytes after the last line are bad at the number after it.
 *
 * *line says which line is refused with 15, and is 0 after every other answer.
 *
 * Refusals, in this order, with V points, T triangles and S shells as line 1 says:
 *   15  line 1 is bad: it is not M and three numbers; *line is 1
 *   4   V is over 250,000, or more than the least of the point, edge and mark rooms holds
 *   5   T is over 500,000, or more than the triangles' room holds
 *   11  S is over records_len
 *   3   work_len is not 6V + 3T
 *   15  a later line is bad: it has another letter or another form than is due, it is missing, bytes follow the last line, or the edge number of a
 *       point is not above the one before; *line is the first of these
 *   7   a triangle names a point at or above V, or one point twice
 *   8   a coordinate is over 16,128
 *   9   a mark is over 1
 *   16  the S lines are not the mesh's own records: their number or any number in them differs
 * Each of 7, 8 and 9 is looked for in the whole mesh before the next. 15 at line 1, 4, 5, 11 and 3 leave the work room as it was; every later refusal
 * and a granted call leave it all zero. */
uint32_t tholbrina_read(const uint8_t *text, size_t text_len,
                        uint32_t *points, size_t points_len,
                        uint32_t *edges, size_t edges_len,
                        uint8_t *marks, size_t marks_len,
                        uint32_t *triangles, size_t triangles_len,
                        tholbrina_shell *records, size_t records_len,
                        uint32_t *work, size_t work_len,
                        uint64_t *line,
                        uint32_t *point_count, uint32_t *triangle_count, uint32_t *shell_count);

/* Corner areas and mean curvature of a mesh. areas, of exactly V numbers, gets each point's area in square units; vectors, of exactly 3V, the
 * x, y and z of each point's mean curvature vector, whose length is the mean curvature per unit: 256 times that is per voxel. All three are
 * +0.0 where the mark is 1 or the area 0. There is no work room.
 *
 * Refusals, in this order: 6, 7, 8, 9 as for tholbrina_smooth, then
 *   3   areas_len is not V, or vectors_len is not 3V */
uint32_t tholbrina_curvature(const uint32_t *points, size_t points_len,
                             const uint32_t *triangles, size_t triangles_len,
                             const uint8_t *marks, size_t marks_len,
                             double *areas, size_t areas_len,
                             double *vectors, size_t vectors_len);

/* The kinds of an answer: a point with mark 1 is open and has an area; any other with area 0 is flat and has nothing; all others are bent and have an
 * area and a vector. */
enum { tholbrina_open = 0, tholbrina_flat = 1, tholbrina_bent = 2 };

/* One point's answer, read back from the marks and both rooms of tholbrina_curvature: its kind, its area and its vector x, y, z. What a kind does
 * not have is told as +0.0. V is marks_len. There is no work room.
 *
 * Refusals, in this order:
 *   6   areas_len is not V, or vectors_len is not 3V
 *   14  point is not below V
 *   9   that point's mark is over 1 */
uint32_t tholbrina_answer(const uint8_t *marks, size_t marks_len,
                          const double *areas, size_t areas_len,
                          const double *vectors, size_t vectors_len,
                          uint32_t point, uint32_t *kind, double *area,
                          double *x, double *y, double *z);

#ifdef __cplusplus
}
#endif

#endif
