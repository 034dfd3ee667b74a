/* From a volume to a spoken list: a block of metal with two voids, 12 samples a side, said in plain sentences. Then the mesh is written as a text, as
 * it is sent to somebody, and read back. The mesh is made layer by layer too, as a scanner delivers them, and by a summary of the samples, as one tries
 * many grey values. */
#include <inttypes.h>
#include <stdio.h>
#include <stdlib.h>
#include <string.h>
#include <tholbrina.h>

enum { side = 12, samples = side * side * side };

/* A room, or the end of the program. */
static void *room(size_t count, size_t size) {
  void *lent = calloc(count, size);
  if (!lent) {
    puts("There is not enough memory.");
    exit(1);
  }
  return lent;
}

static void granted(const char *call, uint32_t number) {
  if (number) {
    printf("%s was refused with number %" PRIu32 ".\n", call, number);
    exit(1);
  }
}

/* Metal, with a void of one sample and one of three by three by three. */
static void cast(uint16_t *volume) {
  for (int s = 0; s < samples; s++) {
    int x = s % side, y = s / side % side, z = s / (side * side);
    int small = x == 2 && y == 2 && z == 2;
    int large = x >= 6 && x <= 8 && y >= 6 && y <= 8 && z >= 6 && z <= 8;
    volume[s] = small || large ? 100 : 1000;
  }
}

/* A shell as a plain sentence: what it is, its size and its box, both in voxels. */
static void say(uint32_t n, const tholbrina_shell *shell) {
  double sixfold = shell->volume < 0 ? -(double)shell->volume : (double)shell->volume;
  printf("Shell %" PRIu32 " is %s of %.3f voxels", n, shell->volume < 0 ? "a void" : "an island", sixfold / (6.0 * 256 * 256 * 256));
  printf(", from %.3f to %.3f along x", shell->least_x / 256.0, shell->greatest_x / 256.0);
  printf(", %.3f to %.3f along y", shell->least_y / 256.0, shell->greatest_y / 256.0);
  printf(" and %.3f to %.3f along z", shell->least_z / 256.0, shell->greatest_z / 256.0);
  printf("%s.\n", shell->touches ? ", and touches the outer face" : "");
}

/* A mesh with its grid edges and a record a shell. */
typedef struct {
  uint32_t v, t, count;
  uint32_t *points, *edges, *triangles;
  uint8_t *marks;
  tholbrina_shell *shells;
} mesh;

/* Rooms for so many points, triangles and shells, and one more of each: calloc may answer null where nothing is asked for. */
static mesh rooms(size_t v, size_t t, size_t count) {
  mesh m = {0};
  m.points = room(3 * v + 1, sizeof *m.points), m.edges = room(v + 1, sizeof *m.edges);
  m.marks = room(v + 1, sizeof *m.marks);
  m.triangles = room(3 * t + 1, sizeof *m.triangles);
  m.shells = room(count + 1, sizeof *m.shells);
  return m;
}

static void leave(mesh m) {
  free(m.points), free(m.edges), free(m.marks), free(m.triangles), free(m.shells);
}

/* The mesh of the volume, whose shells are not listed. */
static mesh extracted(void) {
  size_t most_points = tholbrina_grid_points(side, side, side), most_triangles = tholbrina_grid_triangles(side, side, side);
  size_t work_len = tholbrina_extract_work(side, side, side);
  uint16_t *volume = room(samples, sizeof *volume);
  uint32_t *work = room(work_len, sizeof *work);
  mesh m = rooms(most_points, most_triangles, most_points);
  cast(volume);
  granted("Extraction", tholbrina_extract(side, side, side, 550, volume, samples, m.points, 3 * most_points, m.edges, most_points,
                                          m.marks, most_points, m.triangles, 3 * most_triangles, work, work_len, &m.v, &m.t));
  free(work), free(volume);
  return m;
}

/* The place of an edge in a list that rises. */
static uint32_t rank(const uint32_t *edges, uint32_t count, uint32_t edge) {
  uint32_t low = 0;
  while (count > 1) {
    uint32_t half = count / 2;
    if (edges[low + half] <= edge)
      low += half;
    count -= half;
  }
  return low;
}

/* The same mesh from one layer after the other. Each call is lent room for what it can hand out, behind what is there. */
static mesh layered(void) {
  size_t more_points = tholbrina_layer_points(side, side), more_triangles = tholbrina_layer_triangles(side, side);
  uint16_t *volume = room(samples, sizeof *volume);
  uint32_t *state = room(tholbrina_layers_state, sizeof *state), v = 0, t = 0;
  mesh m = rooms(tholbrina_grid_points(side, side, side) + more_points, tholbrina_grid_triangles(side, side, side) + more_triangles, 0);
  cast(volume);
  granted("Opening", tholbrina_layers_open(side, side, side, 550, state, tholbrina_layers_state));
  for (size_t z = 0; z < side; z++, m.v += v, m.t += t)
    granted("A layer", tholbrina_layers_next(volume + z * side * side, side * side, state, tholbrina_layers_state, m.points + 3 * (size_t)m.v,
                                             3 * more_points, m.edges + m.v, more_points, m.marks + m.v, more_points,
                                             m.triangles + 3 * (size_t)m.t, 3 * more_triangles, &v, &t));
  granted("Closing", tholbrina_layers_close(state, tholbrina_layers_state, m.points + 3 * (size_t)m.v, 3 * more_points, m.edges + m.v,
                                            more_points, m.marks + m.v, more_points, &v));
  m.v += v;
  for (size_t corner = 0; corner < 3 * (size_t)m.t; corner++)
    m.triangles[corner] = rank(m.edges, m.v, m.triangles[corner]);
  free(state), free(volume);
  return m;
}

/* The same mesh by a summary of the samples, and how many blocks were looked at. The summary is kept while other grey values are tried. */
static mesh queried(uint32_t *blocks) {
  size_t most_points = tholbrina_grid_points(side, side, side), most_triangles = tholbrina_grid_triangles(side, side, side);
  size_t work_len = tholbrina_extract_work(side, side, side);
  uint16_t *volume = room(samples, sizeof *volume), *summary = room(tholbrina_summary_length, sizeof *summary);
  uint32_t *work = room(work_len, sizeof *work);
  mesh m = rooms(most_points, most_triangles, 0);
  cast(volume);
  granted("The summary", tholbrina_summary(side, side, side, volume, samples, summary, tholbrina_summary_length));
  for (uint16_t grey = 250; grey <= 550; grey += 100)
    granted("A query", tholbrina_query(side, side, side, grey, volume, samples, summary, tholbrina_summary_length, m.points, 3 * most_points,
                                       m.edges, most_points, m.marks, most_points, m.triangles, 3 * most_triangles, work, work_len, &m.v, &m.t,
                                       blocks));
  free(work), free(summary), free(volume);
  return m;
}

static void smooth(mesh *m) {
  size_t v = m->v, t = m->t, work_len = tholbrina_smooth_work(v, t);
  uint32_t *smoothed = room(3 * v + 1, sizeof *smoothed), *work = room(work_len, sizeof *work);
  granted("Smoothing", tholbrina_smooth(m->points, 3 * v, m->triangles, 3 * t, m->marks, v, 2, 64, smoothed, 3 * v, work, work_len));
  free(work), free(m->points);
  m->points = smoothed;
}

static void list(mesh *m) {
  size_t v = m->v, t = m->t, work_len = tholbrina_shells_work(v);
  uint32_t *numbers = room(v + 1, sizeof *numbers), *work = room(work_len + 1, sizeof *work);
  granted("The shell list", tholbrina_shells(m->points, 3 * v, m->triangles, 3 * t, m->marks, v, numbers, v, m->shells, v, work, work_len,
                                             &m->count));
  free(work), free(numbers);
}

/* The text of a mesh, and how many bytes it has. */
static uint8_t *written(const mesh *m, size_t *length) {
  size_t v = m->v, t = m->t, text_len = tholbrina_text_room(v, t, m->count);
  uint8_t *text = room(text_len, sizeof *text);
  granted("Writing", tholbrina_write(m->points, 3 * v, m->edges, v, m->marks, v, m->triangles, 3 * t, m->shells, m->count, text, text_len,
                                     length));
  return text;
}

/* The mesh of a text, in rooms for what its first line says. More than the bounds allow, or more shells than points, is refused whatever is lent. */
static mesh read_back(const uint8_t *text, size_t length) {
  uint32_t v = 0, t = 0, count = 0;
  uint64_t line = 0;
  granted("Line 1", tholbrina_read_counts(text, length, &v, &t, &count));
  v = v < tholbrina_most_points ? v : tholbrina_most_points;
  t = t < tholbrina_most_triangles ? t : tholbrina_most_triangles;
  count = count < v ? count : v;
  size_t work_len = tholbrina_read_work(v, t);
  uint32_t *work = room(work_len + 1, sizeof *work);
  mesh m = rooms(v, t, count);
  uint32_t number = tholbrina_read(text, length, m.points, 3 * (size_t)v, m.edges, v, m.marks, v, m.triangles, 3 * (size_t)t, m.shells, count,
                                   work, work_len, &line, &m.v, &m.t, &m.count);
  if (line)
    printf("Line %" PRIu64 " of the text is not that of a mesh.\n", line);
  granted("Reading", number);
  free(work);
  return m;
}

static int same(const mesh *a, const mesh *b) {
  return a->v == b->v && a->t == b->t && a->count == b->count &&
         !memcmp(a->points, b->points, 3 * (size_t)a->v * sizeof *a->points) && !memcmp(a->edges, b->edges, a->v * sizeof *a->edges) &&
         !memcmp(a->marks, b->marks, a->v) && !memcmp(a->triangles, b->triangles, 3 * (size_t)a->t * sizeof *a->triangles) &&
         !memcmp(a->shells, b->shells, a->count * sizeof *a->shells);
}

int main(void) {
  uint32_t blocks = 0;
  mesh m = extracted(), by_layers = layered(), by_query = queried(&blocks);
  int is_same_by_layers = same(&m, &by_layers), is_same_by_query = same(&m, &by_query);
  leave(by_layers), leave(by_query);
  smooth(&m);
  list(&m);
  printf("%" PRIu32 " shells.\n", m.count);
  for (uint32_t n = 0; n < m.count; n++)
    say(n, &m.shells[n]);

  size_t length = 0;
  uint8_t *text = written(&m, &length);
  mesh again = read_back(text, length);
  int is_same = same(&m, &again);
  printf("The mesh has %zu bytes as a text, and is %s when it is read back.\n", length, is_same ? "the same" : "another");
  printf("Layer by layer the raw mesh is %s.\n", is_same_by_layers ? "the same" : "another");
  printf("By a summary it is %s, and %" PRIu32 " blocks are looked at.\n", is_same_by_query ? "the same" : "another", blocks);
  leave(again), free(text), leave(m);
  return !is_same || !is_same_by_layers || !is_same_by_query;
}
