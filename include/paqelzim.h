/* The calls of libpaqelzim.a, for C and C++.
 *
 * Make the archive by `tools/staticlib` of the repository (target/staticlib/libpaqelzim.a)
 * and link it; it needs no other library. Each call is proved to give what the definitions in crates/<name>/specs
 * say, for every argument.
 *
 * A slice is a pointer and the count of its elements (not bytes). The pointer is aligned for its elements and
 * reaches that many of them, also where a call then refuses; of an empty slice it is not null all the same. Slices
 * that a call writes overlap no other of its slices.
 *
 * A call that can refuse answers a code, alone or as the first field of a struct: 0 where it is accepted, else the number of the first of its questions, in the
 * order of its comment, that is answered no, and then nothing has been written. An accepted call writes the places that its
 * comment names; every other place keeps its bits. Nothing is stored there, but by paqelzim_join, which stores what it held
 * again. That a NaN keeps its payload is tested and not proved: to the proofs there is one NaN.
 *   1  are width and height from 1 to 4,096?
 *   2  are channels per pixel from 1 to 16?
 *   3  are vertex and face slices multiples of 3, for at most 1,048,576 vertices and as many faces? Outline edges go by twos, at
 *      most 3,145,728 of them.
 *   4  has every other buffer the exact length?
 *   5  is first number plus face count at most 1,048,576?
 *   6  is every vertex number in every face below the vertex count?
 *   7  is every map entry below the face count, or empty (4294967295)?
 *   8  has every projection that the call needs an answer?
 *   9  has every point that the call needs weights?
 *  10  is every vertex number in every outline edge below the vertex count? Asked after 6.
 *
 * An image has img_w * img_h pixels, row by row from the top. A layer is three slices side by side: a map, the number of a
 * face or empty for each pixel; a depth for each pixel; and three weights for each pixel, those of pixel p at 3 * p,
 * 3 * p + 1 and 3 * p + 2.
 *
 * The float tools have no bad input: every bit pattern has its answer. What is a NaN among the answers is only
 * promised to be a NaN, not which.
 */
#ifndef PAQELZIM_H
#define PAQELZIM_H

#include <stddef.h>
#include <stdint.h>

#ifdef __cplusplus
extern "C" {
#endif

/* Clears a layer: depth -infinity, the number 4294967295, called empty, and three zeros, none of them -0, at every pixel.
 * Writes: every place of the three slices.
 * Questions: 1; 4: pix2tri and pix2depth have img_w * img_h elements, pix2weights three times as many. */
uint32_t paqelzim_clear(uint32_t *pix2tri, size_t pix2tri_len,
                        float *pix2depth, size_t pix2depth_len,
                        float *pix2weights, size_t pix2weights_len,
                        size_t img_w, size_t img_h);

/* Draws the faces of tri2vtx (three vertex numbers each) on a layer, in list order, numbered from first on. Vertices
 * are three numbers each in vtx2xyz; transform_world2ndc has sixteen, column by column. A depth is written, with the
 * face's number and three weights, where it is greater than the stored one: an equal depth or a NaN never is, and a stored
 * NaN stays.
 *
 * The weights are those of the piece drawn, over its corners in its order: where in the piece the pixel's centre lies on the
 * picture, the depth being the corners' depths so weighted. A face that is not cut is one piece, and its corners are the
 * face's. A piece of a face that the near plane cuts has other corners than the face. Where l is the face's corner that is
 * alone on its side of the plane, p and q the others in rising order, and lp and lq the points where the edges from l cross
 * the plane, the pieces are (l, lp, lq) where l alone is beyond the plane, and (p, q, lp), then (q, lq, lp), where p and q are.
 *
 * facing is 0 for all faces; any other number draws front pieces only. A face is front where its corners run clockwise on
 * the picture:
 *
 *          p0                    p0
 *         /  \                  /  \
 *        /    \                /    \
 *      p2 <--- p1             p1 ---> p2
 *
 *        front                  back
 *
 * It is asked of each piece at each pixel: the doubled signed area of the piece's corners, as the corner weights at the
 * pixel's centre sum it in pixels, rows running down, is above 0. Where a face is cut and its vertex 1 is taken as the one
 * alone on its side of the near plane, the pieces list their corners turned round, and it is below 0. With front pieces
 * only, any other piece brings the pixel no depth and covers nothing.
 * A body whose faces run counter-clockwise as seen from outside, under a matrix that does not mirror the picture, shows the
 * faces that are turned away; exchange two corners of each face to see those turned to the camera. A matrix that mirrors
 * the picture turns front and back round.
 * Writes: pix2tri, pix2depth and pix2weights, at the pixels to which a face brings a greater depth.
 * Questions: 1; 3; 4: pix2tri and pix2depth have img_w * img_h elements, pix2weights three times as many; 5; 6. No facing is
 * refused. */
uint32_t paqelzim_pix2tri_by_rasterization(uint32_t *pix2tri, size_t pix2tri_len,
                                           float *pix2depth, size_t pix2depth_len,
                                           float *pix2weights, size_t pix2weights_len,
                                           const uint32_t *tri2vtx, size_t tri2vtx_len,
                                           const float *vtx2xyz, size_t vtx2xyz_len,
                                           size_t img_w, size_t img_h,
                                           const float *transform_world2ndc, uint32_t first, uint32_t facing);

/* What paqelzim_drawing_load answers: its code; the pieces of all faces after clipping, none, one or two for each; and
 * the pixels that the scans of these pieces offer, a pixel as often as it is offered. Both are 0 where the call refuses. */
typedef struct {
    uint32_t code;
    uint64_t pieces;
    uint64_t pixels;
} paqelzim_DrawingLoad;

/* Tells how much work it is to draw the faces of tri2vtx, without drawing them and without a layer: what
 * paqelzim_pix2tri_by_rasterization clips and scans for the same mesh, size and matrix, with either facing: a piece that
 * is not front is scanned all the same. A piece is scanned at the pixels whose centre lies in the closed box of its
 * corners; one with a corner not finite in pixels counts as a piece, and is offered none. A face costs its projection, its
 * clipping and its boxes, however many pixels they hold.
 * Writes: nothing.
 * Questions: 1; 3; 6. */
paqelzim_DrawingLoad paqelzim_drawing_load(const uint32_t *tri2vtx, size_t tri2vtx_len,
                                           const float *vtx2xyz, size_t vtx2xyz_len,
                                           size_t img_w, size_t img_h,
                                           const float *transform_world2ndc);

/* What paqelzim_preview_removal answers: its code, and three counts of pixels. emptied: a face gives way to none; renamed: a
 * face gives way to another; kept: the face stays, or there was none. They sum to img_w * img_h, and are 0 where the call
 * refuses. */
typedef struct {
    uint32_t code;
    size_t emptied;
    size_t renamed;
    size_t kept;
} paqelzim_RemovalPreview;

/* Tells what taking faces out of a mesh does to its picture, before it is done. removed has a byte for each face of tri2vtx:
 * where it is 0 the face stays, where it is anything else the face is taken out. The full scratch layer is cleared and drawn
 * with every face, the short one is cleared and drawn with those that stay, both as by paqelzim_pix2tri_by_rasterization with
 * first 0 and facing 0; then the pixels of the two are counted.
 *
 * In the short layer a face has a new number: how many of those that stay come before it. A pixel is kept where it shows the
 * same face by its new number, and renamed where it shows another, even if the number is the one that the full layer has
 * there. Where no face that is taken out holds a pixel of the full layer, all pixels are kept.
 *
 * Mesh and marks are only read, and no shortened list is made. The cost is that of two clears, two drawings and a walk over
 * the pixels.
 * Writes: every place of the six scratch slices, which may hold anything before.
 * Questions: 1; 3; 4: removed has one element for each face, both maps and both depths have img_w * img_h, both weights three
 * times as many; 6: of every face, also those that are taken out. */
paqelzim_RemovalPreview paqelzim_preview_removal(const uint32_t *tri2vtx, size_t tri2vtx_len,
                                                 const float *vtx2xyz, size_t vtx2xyz_len,
                                                 size_t img_w, size_t img_h,
                                                 const float *transform_world2ndc,
                                                 const uint8_t *removed, size_t removed_len,
                                                 uint32_t *full_pix2tri, size_t full_pix2tri_len,
                                                 float *full_pix2depth, size_t full_pix2depth_len,
                                                 float *full_pix2weights, size_t full_pix2weights_len,
                                                 uint32_t *short_pix2tri, size_t short_pix2tri_len,
                                                 float *short_pix2depth, size_t short_pix2depth_len,
                                                 float *short_pix2weights, size_t short_pix2weights_len);

/* Joins two layers: where the right layer's depth is greater, that depth, its number and its weights go into the left. A
 * NaN is never greater, and nothing is greater than a NaN.
 * Writes: the left layer, where the right depth is greater. Its other pixels are stored again, with what they held.
 * Questions: 1; 4: both maps and both depths have img_w * img_h elements, both weights three times as many. */
uint32_t paqelzim_join(uint32_t *left_pix2tri, size_t left_pix2tri_len,
                       float *left_pix2depth, size_t left_pix2depth_len,
                       float *left_pix2weights, size_t left_pix2weights_len,
                       const uint32_t *right_pix2tri, size_t right_pix2tri_len,
                       const float *right_pix2depth, size_t right_pix2depth_len,
                       const float *right_pix2weights, size_t right_pix2weights_len,
                       size_t img_w, size_t img_h);

/* Gives each pixel the number of its body. tri2body has one for each face: its length is the face count. An empty pixel has
 * 4294967295 in the picture as in the map. Nothing forbids a body to have that number too; its pixels then look like empty ones.
 *
 * The call is lent neither depths nor weights. Two layers, each accepted with a table of its own, that are empty at the same
 * pixels and have the same bodies at all others give the same picture, whatever the numbers of their faces, the lengths of the
 * tables, the depths and the weights. So a mesh without some of the faces that hold no pixel, its table without their entries,
 * drawn in runs and joined, has the label picture of the whole. The code depends on width, height, the lengths and the map, and
 * never on what the table holds.
 * Writes: every place of pix2body, which may hold anything before.
 * Questions: 1; 3: tri2body has at most 1,048,576 elements, and need not be a multiple of 3; 4: pix2tri and pix2body have
 * img_w * img_h elements; 7. */
uint32_t paqelzim_label_picture(const uint32_t *pix2tri, size_t pix2tri_len,
                                const uint32_t *tri2body, size_t tri2body_len,
                                size_t img_w, size_t img_h,
                                uint32_t *pix2body, size_t pix2body_len);

/* Gives each pixel the values of its face's vertices (vtx2val, num_vdim a vertex), weighted where the ray through the
 * pixel's centre meets the plane of the face. transform_ndc2world has sixteen numbers, column by column.
 * Writes: pix2val, num_vdim numbers a pixel, at the pixels whose entry in the map pix2tri is not empty.
 * Questions: 1; 2; 3; 4: pix2tri has img_w * img_h elements, vtx2val num_vdim for each vertex, pix2val num_vdim for each
 * pixel; 6; 7; 8: both points of the ray of each pixel that is not empty. */
uint32_t paqelzim_interpolate(size_t img_w, size_t img_h,
                              const uint32_t *pix2tri, size_t pix2tri_len,
                              const uint32_t *tri2vtx, size_t tri2vtx_len,
                              const float *vtx2xyz, size_t vtx2xyz_len,
                              size_t num_vdim,
                              const float *vtx2val, size_t vtx2val_len,
                              const float *transform_ndc2world,
                              float *pix2val, size_t pix2val_len);

/* Goes back through paqelzim_interpolate: adds what the gradient dldw_pix2val of the pixels' values brings the vertices
 * and their values, pixels in rising number.
 * Writes: adds to dldw_vtx2xyz and dldw_vtx2val, at the corners of the faces that the map names.
 * Questions: 1; 2; 3; 4: lengths as above, dldw_pix2val as pix2val there, dldw_vtx2xyz as vtx2xyz, dldw_vtx2val as
 * vtx2val; 6; 7; 8: as above. */
uint32_t paqelzim_interpolate_bwd(size_t img_w, size_t img_h,
                                  const uint32_t *pix2tri, size_t pix2tri_len,
                                  const uint32_t *tri2vtx, size_t tri2vtx_len,
                                  const float *vtx2xyz, size_t vtx2xyz_len,
                                  size_t num_vdim,
                                  const float *vtx2val, size_t vtx2val_len,
                                  const float *transform_ndc2world,
                                  const float *dldw_pix2val, size_t dldw_pix2val_len,
                                  float *dldw_vtx2xyz, size_t dldw_vtx2xyz_len,
                                  float *dldw_vtx2val, size_t dldw_vtx2val_len);

/* Gives every pair of neighbouring pixels a type and a gradient: hedges between a pixel and the one below it, vedges
 * between a pixel and the one to its right. Where the map's entries are equal the type is 0, else 1 where one centre
 * at least lies inside the other's face, its weights there all >= 0. A face seen edge on has no weights and contains no
 * point; an empty neighbour contains every point. The test is that of paqelzim_bwd, where a pair of type 0 adds nothing.
 * The gradient is that of the edge moved right or down: over the channels, the mean of the two incoming gradients
 * times the difference of the values.
 * Writes: every place of the four edge slices.
 * Questions: 1; 2; 3; 4: pix2tri has img_w * img_h elements, pix2val and dldw_pix2val num_vdim for each pixel, the hedge
 * slices (img_h - 1) * img_w, the vedge slices img_h * (img_w - 1); 6; 7; 8: the corners of both faces of each pair of
 * unequal entries. */
uint32_t paqelzim_edge_gradient_and_type(const uint32_t *tri2vtx, size_t tri2vtx_len,
                                         const float *vtx2xyz, size_t vtx2xyz_len,
                                         const float *transform_world2pix,
                                         size_t img_w, size_t img_h,
                                         const uint32_t *pix2tri, size_t pix2tri_len,
                                         size_t num_vdim,
                                         const float *pix2val, size_t pix2val_len,
                                         const float *dldw_pix2val, size_t dldw_pix2val_len,
                                         uint8_t *hedge2type, size_t hedge2type_len,
                                         float *hedge2dldr, size_t hedge2dldr_len,
                                         uint8_t *vedge2type, size_t vedge2type_len,
                                         float *vedge2dldr, size_t vedge2dldr_len);

/* Goes back through the edges: adds what each pair of unequal entries brings the corners of its faces: of the face in
 * front, or of both where they cross. Pairs go column by column from the left and each from the top, first the
 * hedges, then the vedges.
 * Writes: adds to dldw_vtx2xyz, at the corners of faces that the map names.
 * Questions: 1; 2; 3; 4: dldw_vtx2xyz is as long as vtx2xyz, pix2tri has img_w * img_h elements, pix2val and dldw_pix2val
 * num_vdim for each pixel; 6; 7; 8: as above; 9: each point that a share is taken from. */
uint32_t paqelzim_bwd(const uint32_t *tri2vtx, size_t tri2vtx_len,
                      const float *vtx2xyz, size_t vtx2xyz_len,
                      float *dldw_vtx2xyz, size_t dldw_vtx2xyz_len,
                      const float *transform_world2pix,
                      size_t img_w, size_t img_h,
                      const uint32_t *pix2tri, size_t pix2tri_len,
                      size_t num_vdim,
                      const float *pix2val, size_t pix2val_len,
                      const float *dldw_pix2val, size_t dldw_pix2val_len);

/* Smooths the outline: where an edge of cedge2vtx (two vertex numbers each) crosses the line between the centres of a pixel that
 * shows a face and of an empty neighbour, the nearer of the two gets a mix of both values. Edges go in their order, and each along
 * the pixels that it covers, in rising number: those whose closed square it meets on the picture; one with a coordinate that is NaN
 * covers none. Pixels on the image border are passed over. A covered pixel is paired with its left and right neighbour where the
 * edge goes farther down than across, else with its upper and lower one. Where the edge, ends included, crosses at a share rc of
 * the way from the shown centre to the empty one, from 0 up to but not including 1, the shown pixel gets 0.5 + rc parts of its own
 * value and the rest of the empty one's if rc is below 0.5; else the empty pixel gets rc - 0.5 parts of the shown value and the
 * rest of its own. Of the map only its empty entries count: which faces the others name is all one, and not asked.
 * Writes: pix2vout, at the pixels that a crossing gives a mix; the last in the order stands. All others keep what they held: for a
 * whole picture, let pix2vout begin as a copy of pix2vin.
 * Questions: 1; 3: cedge2vtx is a multiple of 2, for at most 3,145,728 edges, vtx2xyz of 3; 4: pix2tri, pix2vin and pix2vout have
 * img_w * img_h elements; 10; 8: both ends of each edge. */
uint32_t paqelzim_antialias(const uint32_t *cedge2vtx, size_t cedge2vtx_len,
                            const float *vtx2xyz, size_t vtx2xyz_len,
                            const float *transform_world2pix,
                            size_t img_w, size_t img_h,
                            const uint32_t *pix2tri, size_t pix2tri_len,
                            const float *pix2vin, size_t pix2vin_len,
                            float *pix2vout, size_t pix2vout_len);

/* Goes back through paqelzim_antialias: adds what each of its crossings brings the two ends of its edge, in the same order, that of
 * vertex 0 first. pix2val is the pix2vin of the forward call, dldw_pix2val the gradient of its pix2vout. A crossing adds though a
 * later one wrote over its pixel, and as often as it is met: twice where the edge covers both pixels of the pair. The ends may gain
 * gradient though no face that the map names has them.
 * Writes: adds to dldw_vtx2xyz, at the ends of edges with a crossing. A vertex of no outline edge keeps its gradient.
 * Questions: 1; 3: as above; 4: dldw_vtx2xyz is as long as vtx2xyz, pix2val, dldw_pix2val and pix2tri have img_w * img_h elements;
 * 10; 8: both ends of each edge. */
uint32_t paqelzim_bwd_antialias(const uint32_t *cedge2vtx, size_t cedge2vtx_len,
                                const float *vtx2xyz, size_t vtx2xyz_len,
                                float *dldw_vtx2xyz, size_t dldw_vtx2xyz_len,
                                const float *transform_world2pix,
                                size_t img_w, size_t img_h,
                                const float *pix2val, size_t pix2val_len,
                                const float *dldw_pix2val, size_t dldw_pix2val_len,
                                const uint32_t *pix2tri, size_t pix2tri_len);

/* Gives each point of vtx2xy (two numbers, in pixels) the velocity between the edges of its cell: x from the vedges, y
 * from the hedges.
 * Writes: every place of vtx2velo.
 * Questions: 1: width and height from 2; 3: vtx2xy is a multiple of 2, for at most 1,048,576 points; 4: hedge2vy has
 * (img_h - 1) * img_w elements, vedge2vx img_h * (img_w - 1), vtx2velo as many as vtx2xy. */
uint32_t paqelzim_interpolate_from_edges(size_t img_w, size_t img_h,
                                         const float *hedge2vy, size_t hedge2vy_len,
                                         const float *vedge2vx, size_t vedge2vx_len,
                                         const float *vtx2xy, size_t vtx2xy_len,
                                         float *vtx2velo, size_t vtx2velo_len);

/* IEEE 754-2019 squareRoot, to nearest, ties to even. The root of -0 is -0, of a negative number NaN, of
 * +infinity +infinity, of NaN NaN. */
float paqelzim_sqrt_f32(float x);
double paqelzim_sqrt_f64(double x);

/* The nearest float, ties to even; subnormal results and overflow to infinity included, NaN to NaN. */
float paqelzim_narrow_f64_to_f32(double x);

/* Both widened, a*a + b*b in double, the root in double, narrowed: each step rounds to nearest even. */
float paqelzim_hypot_f32(float a, float b);

#ifdef __cplusplus
}
#endif

#endif
