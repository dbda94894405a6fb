/* Calls each function of include/paqelzim.h, as C11 and as C++17. Prints what differs; ends with 0 where
 * nothing does. */
#include "paqelzim.h"

#include <stdint.h>
#include <stdio.h>
#include <string.h>

static int wrong = 0;

static uint32_t bits_of(float x) {
    uint32_t bits;
    memcpy(&bits, &x, sizeof bits);
    return bits;
}

static float float_of(uint32_t bits) {
    float x;
    memcpy(&x, &bits, sizeof x);
    return x;
}

static uint64_t wide_bits_of(double x) {
    uint64_t bits;
    memcpy(&bits, &x, sizeof bits);
    return bits;
}

static double double_of(uint64_t bits) {
    double x;
    memcpy(&x, &bits, sizeof x);
    return x;
}

static void expect(int holds, const char *what) {
    if (!holds) {
        printf("not so: %s\n", what);
        wrong += 1;
    }
}

static int is_nan(float x) { return x != x; }

static void float_tools(void) {
    expect(bits_of(paqelzim_sqrt_f32(2.0f)) == 0x3fb504f3u, "root of 2");
    expect(bits_of(paqelzim_sqrt_f32(float_of(1))) == 0x1a3504f3u, "root of the smallest subnormal");
    expect(bits_of(paqelzim_sqrt_f32(float_of(0x80000000u))) == 0x80000000u, "root of -0");
    expect(is_nan(paqelzim_sqrt_f32(-1.0f)), "root of -1");
    expect(bits_of(paqelzim_sqrt_f32(float_of(0x7f800000u))) == 0x7f800000u, "root of infinity");
    expect(wide_bits_of(paqelzim_sqrt_f64(2.0)) == UINT64_C(0x3ff6a09e667f3bcd), "f64 root of 2");
    expect(wide_bits_of(paqelzim_sqrt_f64(double_of(1))) == UINT64_C(0x1e60000000000000), "f64 root of the smallest subnormal");
    expect(bits_of(paqelzim_narrow_f64_to_f32(double_of(UINT64_C(0x47effffff0000000)))) == 0x7f800000u, "overflow at the tie");
    expect(bits_of(paqelzim_narrow_f64_to_f32(double_of(UINT64_C(0x47efffffefffffff)))) == 0x7f7fffffu, "below the tie");
    expect(bits_of(paqelzim_narrow_f64_to_f32(double_of(UINT64_C(0x3690000000000000)))) == 0u, "half the smallest subnormal");
    expect(bits_of(paqelzim_narrow_f64_to_f32(double_of(UINT64_C(0x3690000000000001)))) == 1u, "just above it");
    expect(bits_of(paqelzim_hypot_f32(3.0f, 4.0f)) == 0x40a00000u, "hypot of 3 and 4");
}

/* Quiet and signalling NaNs of both signs, each payload digit alone. */
static void nans(void) {
    int place, sign;
    for (sign = 0; sign < 2; sign += 1) {
        for (place = 0; place < 23; place += 1) {
            float x = float_of((uint32_t)sign << 31 | 0x7f800000u | (uint32_t)1 << place);
            expect(is_nan(paqelzim_sqrt_f32(x)), "root of a NaN");
            expect(is_nan(paqelzim_hypot_f32(x, 0.0f)), "hypot of a NaN and 0");
            expect(is_nan(paqelzim_hypot_f32(1.0f, x)), "hypot of 1 and a NaN");
        }
        for (place = 0; place < 52; place += 1) {
            double x = double_of((uint64_t)sign << 63 | UINT64_C(0x7ff0000000000000) | (uint64_t)1 << place);
            double root = paqelzim_sqrt_f64(x);
            expect(root != root, "f64 root of a NaN");
            expect(is_nan(paqelzim_narrow_f64_to_f32(x)), "a NaN narrowed");
        }
    }
}

static int all_are(const float *x, size_t count, uint32_t bits) {
    size_t i;
    for (i = 0; i < count; i += 1) {
        if (bits_of(x[i]) != bits) {
            return 0;
        }
    }
    return 1;
}

static void fill(float *x, size_t count, uint32_t bits) {
    size_t i;
    for (i = 0; i < count; i += 1) {
        x[i] = float_of(bits);
    }
}

/* 2 x 1: a NaN beside a number, and a depth below the right one. The weights go with the depth, payloads too. */
static void layers(void) {
    uint32_t left[2] = {5, 6}, right[2] = {7, 8};
    float left_depth[2], right_depth[2], left_weights[6], right_weights[6];
    left_depth[0] = float_of(0x7fa00001u);
    left_depth[1] = 0.25f;
    right_depth[0] = 1.0f;
    right_depth[1] = 0.5f;
    fill(left_weights, 6, 0xffa00003u);
    fill(right_weights, 6, 0x7fa00005u);
    expect(paqelzim_join(left, 2, left_depth, 2, left_weights, 6, right, 2, right_depth, 1, right_weights, 6, 2, 1) == 4,
           "a right depth short");
    expect(paqelzim_join(left, 2, left_depth, 2, left_weights, 5, right, 2, right_depth, 2, right_weights, 6, 2, 1) == 4,
           "a left weight short");
    expect(paqelzim_join(left, 2, left_depth, 2, left_weights, 6, right, 2, right_depth, 2, right_weights, 2, 2, 1) == 4,
           "a right weight for each pixel");
    expect(left[1] == 6 && left_depth[1] == 0.25f, "a refused join writes nothing");
    expect(all_are(left_weights, 6, 0xffa00003u), "nor any weight");
    expect(paqelzim_join(left, 2, left_depth, 2, left_weights, 6, right, 2, right_depth, 2, right_weights, 6, 2, 1) == 0, "joined");
    expect(left[0] == 5 && bits_of(left_depth[0]) == 0x7fa00001u, "a NaN stays, with its number and payload");
    expect(all_are(left_weights, 3, 0xffa00003u), "and its weights, with theirs");
    expect(left[1] == 8 && left_depth[1] == 0.5f, "the greater depth is taken");
    expect(all_are(left_weights + 3, 3, 0x7fa00005u), "and its weights");
    expect(paqelzim_clear(left, 2, left_depth, 2, left_weights, 6, 4097, 1) == 1, "too wide");
    expect(paqelzim_clear(left, 2, left_depth, 2, left_weights, 2, 1, 2) == 4, "a weight for each pixel");
    expect(left[1] == 8 && left_depth[1] == 0.5f && all_are(left_weights + 3, 3, 0x7fa00005u), "a refusal writes nothing");
    expect(paqelzim_clear(left, 2, left_depth, 2, left_weights, 6, 1, 2) == 0, "cleared");
    expect(left[0] == 4294967295u && bits_of(left_depth[1]) == 0xff800000u, "empty");
    expect(all_are(left_weights, 6, 0u), "six zeros, none of them -0");
}

static const uint32_t face[3] = {0, 1, 2};
/* T(0.25) */
static const float corners[9] = {-1.0f, -1.0f, 0.25f, 3.0f, -1.0f, 0.25f, -1.0f, 3.0f, 0.25f};
static const float identity[16] = {1, 0, 0, 0, 0, 1, 0, 0, 0, 0, 1, 0, 0, 0, 0, 1};

/* Vertex values 0, 8, 16 on 2 x 2: pixel 0 is 7. */
static void values(void) {
    const uint32_t map[4] = {0, 0, 0, 4294967295u};
    const float vertex_values[3] = {0.0f, 8.0f, 16.0f};
    float pixels[4] = {-1.0f, -1.0f, -1.0f, 0.0f};
    pixels[3] = float_of(0x7fa00001u);
    expect(paqelzim_interpolate(2, 2, map, 4, face, 3, corners, 9, 0, vertex_values, 3, identity, pixels, 4) == 2, "no channels");
    expect(paqelzim_interpolate(2, 2, map, 4, face, 3, corners, 9, 1, vertex_values, 3, identity, pixels, 4) == 0, "interpolated");
    expect(pixels[0] == 7.0f, "pixel 0 is 7");
    expect(bits_of(pixels[3]) == 0x7fa00001u, "an empty pixel keeps its bits");
}

/* 2 x 1, one channel, values 1 and 0, incoming 1 and 1: map 0 and empty, then both empty. */
static void edges(void) {
    uint32_t map[2] = {0, 4294967295u};
    const float pixels[2] = {1.0f, 0.0f}, incoming[2] = {1.0f, 1.0f};
    uint8_t none_type[1] = {9}, type[1] = {9};
    float none_dldr[1] = {9.0f}, dldr[1] = {9.0f};
    expect(paqelzim_edge_gradient_and_type(face, 3, corners, 9, identity, 2, 1, map, 2, 1, pixels, 2, incoming, 2,
                                           none_type, 0, none_dldr, 0, type, 1, dldr, 1) == 0, "edges");
    expect(type[0] == 1 && dldr[0] == 1.0f, "type 1, dldr 1");
    map[0] = 4294967295u;
    expect(paqelzim_edge_gradient_and_type(face, 3, corners, 9, identity, 2, 1, map, 2, 1, pixels, 2, incoming, 2,
                                           none_type, 0, none_dldr, 0, type, 1, dldr, 1) == 0, "edges of an empty map");
    expect(type[0] == 0 && dldr[0] == 1.0f, "type 0, dldr 1");
    expect(none_type[0] == 9 && none_dldr[0] == 9.0f, "nothing beside the slices is written");
}

/* The same beside a wall on a floor's edge, seen edge on: neither contains the other's centre, and nothing is added. */
static void seen_edge_on(void) {
    const uint32_t faces[6] = {0, 1, 2, 0, 1, 3}, map[2] = {0, 1};
    const float corner[12] = {0, 0, 0, 1, 0, 0, 0, 1, 0, 0, 0, 1};
    const float pixels[2] = {1.0f, 0.0f}, incoming[2] = {1.0f, 1.0f};
    uint8_t none_type[1] = {9}, type[1] = {9};
    float none_dldr[1] = {9.0f}, dldr[1] = {9.0f}, sums[12] = {0, 0, 0, 0, 0, 0, 0, 0, 0, 0, 0, 0};
    expect(paqelzim_edge_gradient_and_type(faces, 6, corner, 12, identity, 2, 1, map, 2, 1, pixels, 2, incoming, 2,
                                           none_type, 0, none_dldr, 0, type, 1, dldr, 1) == 0, "a face seen edge on");
    expect(type[0] == 0 && dldr[0] == 1.0f, "type 0, dldr 1, beside a face without weights");
    expect(paqelzim_bwd(faces, 6, corner, 12, sums, 12, identity, 2, 1, map, 2, 1, pixels, 2, incoming, 2) == 0, "its backward");
    for (int i = 0; i < 12; i++) expect(sums[i] == 0.0f, "a pair of type 0 adds nothing");
}

/* 3 x 1: the face ends between pixels 1 and 2, and the gradient 1 goes to its corners by the weights of pixel 1's
 * centre, 0, 5/8 and 3/8. */
static void edges_backward(void) {
    const uint32_t map[3] = {0, 0, 4294967295u};
    const float pixels[3] = {1.0f, 1.0f, 0.0f}, incoming[3] = {1.0f, 1.0f, 1.0f};
    float sums[9] = {0, 0, 0, 0, 0, 0, 0, 0, 0};
    expect(paqelzim_bwd(face, 3, corners, 9, sums, 8, identity, 3, 1, map, 3, 1, pixels, 3, incoming, 3) == 4, "sums one short");
    expect(paqelzim_bwd(face, 3, corners, 9, sums, 9, identity, 3, 1, map, 3, 1, pixels, 3, incoming, 3) == 0, "edges backward");
    expect(sums[0] == 0.0f && sums[3] == 0.625f && sums[6] == 0.375f, "shares 0, 5/8, 3/8 along x");
    expect(sums[1] == 0.0f && sums[4] == 0.0f && sums[8] == 0.0f, "nothing along y and z");
}

/* 3 x 3, a face in the left and middle columns, value 1, and an edge. */
static const uint32_t left_map[9] = {0, 7, 4294967295u, 0, 7, 4294967295u, 0, 7, 4294967295u};
static const float left_values[9] = {1, 1, 0, 1, 1, 0, 1, 1, 0};
static const float of_two[9] = {2, 2, 2, 2, 2, 2, 2, 2, 2};

/* The lengths are those of the edge, its ends, the map, the values, the smoothed values or their gradients, and the sums. The one
 * with that number is told one short; 6 is none of them. */
typedef struct {
    uint32_t edge[2];
    float ends[6];
    size_t img_w;
    int one_short;
} Outline;

static uint32_t smoothed(const Outline *o, const float *matrix, float *pixels) {
    size_t n[7] = {2, 6, 9, 9, 9, 6, 1};
    n[o->one_short] -= 1;
    return paqelzim_antialias(o->edge, n[0], o->ends, n[1], matrix, o->img_w, 3, left_map, n[2], left_values, n[3], pixels, n[4]);
}

static uint32_t smoothed_back(const Outline *o, const float *matrix, float *sums) {
    size_t n[7] = {2, 6, 9, 9, 9, 6, 1};
    n[o->one_short] -= 1;
    return paqelzim_bwd_antialias(o->edge, n[0], o->ends, n[1], sums, n[5], matrix, o->img_w, 3, left_values, n[3], of_two, n[4],
                                  left_map, n[2]);
}

/* Straight down the picture at x. */
static Outline outline(float x) {
    Outline o = {{0, 1}, {0, 0, 0, 0, 3, 0}, 3, 6};
    o.ends[0] = o.ends[3] = x;
    return o;
}

/* Of the nine pixels one is off the border. It gets that value, or none where it is 0; and each end gains that gradient along x. */
static void smooth(float x, float value, float gradient, const char *what) {
    Outline o = outline(x);
    float pixels[9], sums[6];
    int i;
    fill(pixels, 9, 0x7fa00001u);
    fill(sums, 6, 0u);
    expect(smoothed(&o, identity, pixels) == 0, what);
    for (i = 0; i < 9; i += 1) {
        int is_written = i == 4 && value != 0.0f;
        expect(is_written ? pixels[i] == value : bits_of(pixels[i]) == 0x7fa00001u, what);
    }
    expect(smoothed_back(&o, identity, sums) == 0, what);
    for (i = 0; i < 6; i += 1) {
        expect(sums[i] == (i % 3 == 0 ? gradient : 0.0f), what);
    }
}

static void no_smoothing(const Outline *o, const float *matrix, uint32_t code, uint32_t back, const char *what) {
    float pixels[9], sums[6];
    fill(pixels, 9, 0x7fa00001u);
    fill(sums, 6, 0xffa00003u);
    expect(smoothed(o, matrix, pixels) == code && smoothed_back(o, matrix, sums) == back, what);
    expect(code == 0 || all_are(pixels, 9, 0x7fa00001u), what);
    expect(back == 0 || all_are(sums, 6, 0xffa00003u), what);
}

static void smoothing(void) {
    static const float nowhere[16] = {1, 0, 0, 0, 0, 1, 0, 0, 0, 0, 1, 0, 0, 0, 0, 0};
    Outline o = outline(1.75f);
    int k;
    smooth(1.75f, 0.75f, 1.0f, "a quarter of the way");
    smooth(1.5f, 0.5f, 1.0f, "through the shown centre");
    smooth(1.25f, 0.0f, 0.0f, "before the shown centre");
    smooth(2.25f, 0.0f, 0.0f, "in a column of the border");
    smooth(float_of(0x7fc00000u), 0.0f, 0.0f, "nowhere");
    o.img_w = 4097;
    no_smoothing(&o, identity, 1, 1, "too wide");
    o.img_w = 3;
    for (k = 0; k < 2; k += 1) {
        o.one_short = k;
        no_smoothing(&o, identity, 3, 3, "edges or vertices one short");
    }
    for (k = 2; k < 6; k += 1) {
        o.one_short = k;
        no_smoothing(&o, identity, k < 5 ? 4 : 0, 4, "a map or a buffer one short; the sums are of the backward call alone");
    }
    o.edge[1] = 2;
    no_smoothing(&o, nowhere, 10, 4, "a vertex that is not there, and the sums one short");
    o.one_short = 6;
    no_smoothing(&o, nowhere, 10, 10, "a vertex that is not there");
    o.edge[1] = 1;
    no_smoothing(&o, nowhere, 8, 8, "a divisor of 0");
}

/* 2 x 2, every edge with velocity 3: so has a point anywhere; a width of 1 is refused. */
static void velocities(void) {
    const float along[2] = {3.0f, 3.0f}, point[2] = {1.25f, -7.0f};
    float velocity[2] = {0.0f, 0.0f};
    expect(paqelzim_interpolate_from_edges(1, 2, along, 1, along, 0, point, 2, velocity, 2) == 1, "a width of 1");
    expect(paqelzim_interpolate_from_edges(2, 2, along, 2, along, 2, point, 2, velocity, 2) == 0, "velocities");
    expect(velocity[0] == 3.0f && velocity[1] == 3.0f, "velocity 3");
}

static int weights_are(const float *x, float b0, float b1, float b2) { return x[0] == b0 && x[1] == b1 && x[2] == b2; }

/* Of a face with the corners of T(0.25), at each pixel of 2 x 2. */
static const float of_corners[12] = {0.5f, 0.125f, 0.375f, 0.25f, 0.375f, 0.375f,
                                     0.75f, 0.125f, 0.125f, 0.5f, 0.375f, 0.125f};

/* A layer of 2 x 2. */
typedef struct {
    uint32_t tri[4];
    float depth[4];
    float weights[12];
} Layer;

static void cleared(Layer *layer) {
    expect(paqelzim_clear(layer->tri, 4, layer->depth, 4, layer->weights, 12, 2, 2) == 0, "cleared");
}

/* Draws faces with the corners of T(0.25). */
static uint32_t drawn(Layer *layer, const uint32_t *tri2vtx, size_t tri2vtx_len, uint32_t first, uint32_t facing) {
    return paqelzim_pix2tri_by_rasterization(layer->tri, 4, layer->depth, 4, layer->weights, 12, tri2vtx, tri2vtx_len,
                                             corners, 9, 2, 2, identity, first, facing);
}

/* T(0.25) on a clear layer; a face that names vertex 3 of three; weights one short. */
static void drawing(void) {
    const uint32_t bad[3] = {0, 1, 3}, turned[3] = {1, 2, 0};
    Layer layer;
    int p;
    cleared(&layer);
    expect(drawn(&layer, bad, 3, 0, 0) == 6, "names 3");
    expect(paqelzim_pix2tri_by_rasterization(layer.tri, 4, layer.depth, 4, layer.weights, 11, face, 3,
                                             corners, 9, 2, 2, identity, 0, 0) == 4, "weights one short");
    expect(layer.tri[0] == 4294967295u && all_are(layer.weights, 12, 0u), "a refused drawing writes nothing");
    expect(drawn(&layer, face, 3, 7, 0) == 0, "drawn");
    for (p = 0; p < 4; p += 1) {
        expect(layer.tri[p] == 7 && layer.depth[p] == 0.25f, "four pixels");
    }
    expect(memcmp(layer.weights, of_corners, sizeof of_corners) == 0, "weights of each pixel");
    /* the same corners in another order bring an equal depth, which is not greater */
    expect(drawn(&layer, turned, 3, 8, 0) == 0, "drawn once more");
    expect(layer.tri[0] == 7 && weights_are(layer.weights, 0.5f, 0.125f, 0.375f), "an equal depth leaves the weights");
}

/* One face on a clear layer of 2 x 1, seen by a camera that looks along -z from its near plane at z = -1 on. */
static void cut_face(const uint32_t *corner, const float *vtx2xyz, float *pix2weights) {
    const float camera[16] = {1, 0, 0, 0, 0, 1, 0, 0, 0, 0, -3, -1, 0, 0, -4, 0};
    uint32_t pix2tri[2];
    float pix2depth[2];
    expect(paqelzim_clear(pix2tri, 2, pix2depth, 2, pix2weights, 6, 2, 1) == 0, "cleared");
    expect(paqelzim_pix2tri_by_rasterization(pix2tri, 2, pix2depth, 2, pix2weights, 6, corner, 3, vtx2xyz, 9, 2, 1,
                                             camera, 0, 0) == 0, "a cut face drawn");
    expect(pix2tri[0] == 0 && pix2tri[1] == 0, "on both pixels");
}

/* Edges are cut halfway. Vertex 0 alone is beyond the plane, whichever corner of the face it is: one piece, with vertex 0
 * first. Over the vertices themselves the first pixel's weights would be 29/32, 1/32 and 2/32. Then vertices 0 and 1 are
 * beyond it: two pieces, with a pixel in each. */
static void cut(void) {
    const float one[9] = {-1.5f, -1.5f, -1.5f, 7.5f, -0.5f, -0.5f, -0.5f, 7.5f, -0.5f};
    const float two[9] = {-3.75f, -1.5f, -1.5f, 2.25f, -1.5f, -1.5f, -0.25f, 3.5f, -0.5f};
    const uint32_t lone[3][3] = {{0, 1, 2}, {1, 0, 2}, {1, 2, 0}};
    float pix2weights[6];
    int k;
    for (k = 0; k < 3; k += 1) {
        cut_face(lone[k], one, pix2weights);
        expect(weights_are(pix2weights, 0.625f, 0.125f, 0.25f), "of the one piece's corners");
        expect(weights_are(pix2weights + 3, 0.375f, 0.375f, 0.25f), "of the one piece's corners, at the second pixel");
    }
    cut_face(face, two, pix2weights);
    expect(weights_are(pix2weights, 0.0625f, 0.4375f, 0.5f), "of the first piece's corners");
    expect(weights_are(pix2weights + 3, 0.5f, 0.25f, 0.25f), "of the second piece's corners");
}

/* The face alone on a clear layer, which it covers or leaves clear. */
static void faced(const uint32_t *corner, uint32_t facing, int shows, const char *what) {
    Layer layer;
    int p;
    cleared(&layer);
    expect(drawn(&layer, corner, 3, 7, facing) == 0, what);
    for (p = 0; p < 4; p += 1) {
        expect(layer.tri[p] == (shows ? 7u : 4294967295u), what);
        expect(bits_of(layer.depth[p]) == (shows ? 0x3e800000u : 0xff800000u), what);
    }
    /* vertex 0 comes first in either order */
    expect(layer.weights[0] == (shows ? 0.5f : 0.0f) && layer.weights[6] == (shows ? 0.75f : 0.0f), what);
}

/* T(0.25) runs counter-clockwise, and clockwise with two corners exchanged: all faces, and front pieces by two numbers. Of
 * both at one depth, the front one is drawn though it comes second. A facing changes no code. */
static void facing(void) {
    const uint32_t back[3] = {0, 1, 2}, front[3] = {0, 2, 1}, both[6] = {0, 1, 2, 0, 2, 1}, bad[3] = {0, 2, 3};
    Layer layer = {{5, 5, 5, 5}, {0.125f, 0.125f, 0.125f, 0.5f}, {0}};
    fill(layer.weights, 12, 0x7fa00001u);
    faced(front, 0, 1, "a front face with all faces");
    faced(back, 0, 1, "a back face with all faces");
    faced(front, 1, 1, "a front face with facing 1");
    faced(back, 1, 0, "a back face with facing 1");
    faced(front, 4294967295u, 1, "a front face with facing 4294967295");
    faced(back, 4294967295u, 0, "a back face with facing 4294967295");
    expect(drawn(&layer, bad, 3, 0, 1) == 6, "names 3, facing 1");
    expect(paqelzim_pix2tri_by_rasterization(layer.tri, 4, layer.depth, 3, layer.weights, 12, both, 6,
                                             corners, 9, 2, 2, identity, 0, 4294967295u) == 4, "one depth short, facing 4294967295");
    expect(layer.tri[0] == 5 && layer.depth[0] == 0.125f, "a refused drawing of front pieces writes nothing");
    expect(all_are(layer.weights, 12, 0x7fa00001u), "nor any weight");
    expect(drawn(&layer, both, 6, 0, 1) == 0, "both, facing 1");
    expect(layer.tri[0] == 1 && layer.depth[0] == 0.25f, "the front one of two");
    expect(weights_are(layer.weights, 0.5f, 0.375f, 0.125f), "with its weights");
    expect(layer.tri[3] == 5 && layer.depth[3] == 0.5f, "a pixel that holds a greater depth");
    expect(all_are(layer.weights + 9, 3, 0x7fa00001u), "keeps its weights");
}

/* T(0.25) and a face with a corner nowhere on 2 x 2; refused, every field but the code is 0. */
static void load(void) {
    const uint32_t faces[6] = {0, 1, 2, 0, 1, 3}, bad[3] = {0, 1, 4};
    float corner[12] = {-1.0f, -1.0f, 0.25f, 3.0f, -1.0f, 0.25f, -1.0f, 3.0f, 0.25f, 0.0f, 0.0f, 0.0f};
    paqelzim_DrawingLoad answer;
    corner[9] = float_of(0x7f800000u);
    answer = paqelzim_drawing_load(faces, 6, corner, 12, 2, 2, identity);
    expect(answer.code == 0 && answer.pieces == 2 && answer.pixels == 4, "two pieces, four pixels");
    answer = paqelzim_drawing_load(bad, 3, corner, 12, 2, 2, identity);
    expect(answer.code == 6 && answer.pieces == 0 && answer.pixels == 0, "a load refused with 6");
    answer = paqelzim_drawing_load(faces, 5, corner, 12, 2, 2, identity);
    expect(answer.code == 3 && answer.pieces == 0 && answer.pixels == 0, "a load refused with 3");
    answer = paqelzim_drawing_load(faces, 6, corner, 12, 2, 4097, identity);
    expect(answer.code == 1 && answer.pieces == 0 && answer.pixels == 0, "a load refused with 1");
}

/* T(0.25) and T(0.5) with these marks, on two layers of 2 x 2, or as wide as is said. Of the nine lengths, those of the faces,
 * the vertices, the marks and the two layers, the one with that number is told one short; 9 is none of them. */
static paqelzim_RemovalPreview previewed(Layer *full, Layer *left, const uint32_t *faces, const uint8_t *marks, size_t img_w,
                                         int one_short) {
    static const float corner[18] = {-1.0f, -1.0f, 0.25f, 3.0f, -1.0f, 0.25f, -1.0f, 3.0f, 0.25f,
                                     -1.0f, -1.0f, 0.50f, 3.0f, -1.0f, 0.50f, -1.0f, 3.0f, 0.50f};
    size_t n[10] = {6, 18, 2, 4, 4, 12, 4, 4, 12, 1};
    size_t p;
    n[one_short] -= 1;
    for (p = 0; p < 4; p += 1) {
        full->tri[p] = left->tri[p] = 5;
    }
    fill(full->depth, 4, 0x7fa00001u);
    fill(left->depth, 4, 0x7fa00001u);
    fill(full->weights, 12, 0xffa00003u);
    fill(left->weights, 12, 0xffa00003u);
    return paqelzim_preview_removal(faces, n[0], corner, n[1], img_w, 2, identity, marks, n[2],
                                    full->tri, n[3], full->depth, n[4], full->weights, n[5],
                                    left->tri, n[6], left->depth, n[7], left->weights, n[8]);
}

static int counts_are(const paqelzim_RemovalPreview *answer, size_t emptied, size_t renamed, size_t kept) {
    return answer->emptied == emptied && answer->renamed == renamed && answer->kept == kept;
}

static int is_full_of(const Layer *layer, uint32_t number, uint32_t depth_bits) {
    int p, same = all_are(layer->depth, 4, depth_bits);
    for (p = 0; p < 4; p += 1) {
        same = same && layer->tri[p] == number;
    }
    return same;
}

/* The four pixels have one fate. The full layer shows that face at 0.5; what is left shows that one, so deep, or nothing. */
static void preview(const uint32_t *faces, uint8_t mark0, uint8_t mark1, const size_t *counts, uint32_t shown, uint32_t number,
                    uint32_t depth_bits, const char *what) {
    const uint8_t marks[2] = {mark0, mark1};
    Layer full, left;
    paqelzim_RemovalPreview answer = previewed(&full, &left, faces, marks, 2, 9);
    expect(answer.code == 0 && counts_are(&answer, counts[0], counts[1], counts[2]), what);
    expect(is_full_of(&full, shown, 0x3f000000u) && is_full_of(&left, number, depth_bits), what);
    expect(memcmp(full.weights, of_corners, sizeof of_corners) == 0, what);
    expect(number == 4294967295u ? all_are(left.weights, 12, 0u) : memcmp(left.weights, of_corners, sizeof of_corners) == 0, what);
}

/* Every field but the code is 0, and nothing is written. */
static void no_preview(const uint32_t *faces, size_t img_w, int one_short, uint32_t code, const char *what) {
    const uint8_t marks[2] = {1, 0};
    Layer full, left;
    paqelzim_RemovalPreview answer = previewed(&full, &left, faces, marks, img_w, one_short);
    expect(answer.code == code && counts_are(&answer, 0, 0, 0), what);
    expect(is_full_of(&full, 5, 0x7fa00001u) && is_full_of(&left, 5, 0x7fa00001u), what);
    expect(all_are(full.weights, 12, 0xffa00003u) && all_are(left.weights, 12, 0xffa00003u), what);
}

static void removal(void) {
    static const uint32_t faces[6] = {0, 1, 2, 3, 4, 5}, front_first[6] = {3, 4, 5, 0, 1, 2}, bad[6] = {0, 1, 6, 3, 4, 5};
    const uint8_t mark[3] = {1, 2, 255};
    const size_t emptied[3] = {4, 0, 0}, renamed[3] = {0, 4, 0}, kept[3] = {0, 0, 4};
    int k;
    preview(faces, 0, 0, kept, 1, 1, 0x3f000000u, "nothing is removed");
    for (k = 0; k < 3; k += 1) {
        preview(faces, mark[k], 0, kept, 1, 0, 0x3f000000u, "the hidden face is removed, and the shown one numbered anew");
        preview(faces, 0, mark[k], renamed, 1, 0, 0x3e800000u, "the shown face is removed");
        preview(faces, mark[k], 255, emptied, 1, 4294967295u, 0xff800000u, "both are removed");
        preview(front_first, mark[k], 0, renamed, 0, 0, 0x3e800000u, "the shown face is removed, and the next has its number");
        preview(front_first, 0, mark[k], kept, 0, 0, 0x3f000000u, "the hidden face is removed after the shown one");
    }
    no_preview(faces, 4097, 9, 1, "a preview refused with 1");
    no_preview(faces, 2, 0, 3, "faces one short");
    no_preview(faces, 2, 1, 3, "vertices one short");
    for (k = 2; k < 9; k += 1) {
        no_preview(faces, 2, k, 4, "marks or a buffer one short");
        no_preview(bad, 2, k, 4, "and a vertex that is not there");
    }
    no_preview(bad, 2, 9, 6, "a vertex that is not there, of a face that is removed");
}

/* As many faces as there may be, and one more. */
static uint32_t long_table[1048577];

/* Labels a map of 3 x 2, or as wide as is said, by a table so long, into a picture that holds 5 and has a place before and after
 * it. The one of the two lengths of pixels with that number is told one over or one short; 2 is neither. */
static uint32_t labelled(const uint32_t *map, const uint32_t *table, size_t faces, size_t img_w, int which, int by,
                         uint32_t *picture) {
    size_t n[3] = {6, 6, 0};
    int p;
    n[which] = (size_t)((int)n[which] + by);
    for (p = 0; p < 8; p += 1) {
        picture[p] = 5;
    }
    return paqelzim_label_picture(map, n[0], table, faces, img_w, 2, picture + 1, n[1]);
}

static void labels_are(const uint32_t *map, const uint32_t *table, size_t faces, const uint32_t *bodies, const char *what) {
    uint32_t picture[8];
    expect(labelled(map, table, faces, 3, 2, 0, picture) == 0, what);
    expect(memcmp(picture + 1, bodies, 6 * sizeof *bodies) == 0, what);
    expect(picture[0] == 5 && picture[7] == 5, "nothing beside the picture is written");
}

static void no_labels(const uint32_t *map, const uint32_t *table, size_t faces, size_t img_w, int which, int by, uint32_t code,
                      const char *what) {
    uint32_t picture[8];
    int p;
    expect(labelled(map, table, faces, img_w, which, by, picture) == code, what);
    for (p = 0; p < 8; p += 1) {
        expect(picture[p] == 5, what);
    }
}

/* Faces 0 and 2 of body 7, face 1 of body 4294967295; the same bodies by other numbers; the longest table. Each map has one more
 * entry than there are pixels, so that all are there that a call is told of. */
static void labels(void) {
    const uint32_t empty = 4294967295u;
    const uint32_t map[7] = {0, 1, empty, 2, 2, 1, 0}, table[3] = {7, empty, 7};
    const uint32_t other[7] = {4, 0, empty, 3, 4, 0, 0}, other_table[5] = {empty, 9, 9, 7, 7};
    const uint32_t blank[7] = {empty, empty, empty, empty, empty, empty, empty};
    const uint32_t last[7] = {1048575, 0, 1048575, 0, 0, 0, 0}, past[7] = {0, 0, 0, 0, 0, 1048577, 0};
    const uint32_t bodies[6] = {7, empty, empty, 7, 7, empty}, ends[6] = {9, 8, 9, 8, 8, 8};
    int which, by;
    long_table[0] = 8;
    long_table[1048575] = 9;
    labels_are(map, table, 3, bodies, "two bodies, one called as an empty pixel is");
    labels_are(other, other_table, 5, bodies, "the same bodies by other numbers");
    labels_are(blank, table, 0, blank, "empty pixels, and no faces");
    labels_are(last, long_table, 1048576, ends, "the longest table, to its last face");
    no_labels(map, table, 3, 0, 2, 0, 1, "a width of 0");
    no_labels(past, long_table, 1048577, 4097, 0, 1, 1, "too wide, and all else wrong too");
    no_labels(past, long_table, 1048577, 3, 1, -1, 3, "too many faces, and a picture one short");
    no_labels(last, long_table, 1048577, 3, 2, 0, 3, "too many faces");
    for (which = 0; which < 2; which += 1) {
        for (by = -1; by < 2; by += 2) {
            no_labels(map, table, 3, 3, which, by, 4, "a map or a picture one short or one over");
            no_labels(past, table, 3, 3, which, by, 4, "and a face that is not there");
        }
    }
    no_labels(map, table, 2, 3, 2, 0, 7, "a face that is not there");
    no_labels(past, long_table, 1048576, 3, 2, 0, 7, "nor in the longest table");
}

int main(void) {
    float_tools();
    nans();
    layers();
    values();
    edges();
    seen_edge_on();
    edges_backward();
    smoothing();
    velocities();
    drawing();
    cut();
    facing();
    load();
    removal();
    labels();
    return wrong == 0 ? 0 : 1;
}
