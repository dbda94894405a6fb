//! The library's calls beside the listed Rust, which is built over stand-ins for the crates that it calls, unchanged
//! and changed where 01 and 02 decide otherwise, and beside the questions of 01, read into Rust a second time.

#[cfg(listed)]
include!(concat!(env!("OUT_DIR"), "/listed.rs"));

#[cfg(listed)]
pub mod reference;

pub mod crossings;
pub mod cut;
pub mod expected;
pub mod labels;
pub mod layer;
pub mod margins;
pub mod meshes;
pub mod outlines;
pub mod pairs;
pub mod pass;
pub mod random;
pub mod removal;
pub mod scene;
pub mod stored;
pub mod timing;

/// What `pix2tri_by_raycast`, which is not carried over, names.
#[cfg(listed)]
#[allow(dead_code)]
mod search_bvh3 {
    pub struct TriMesh3WithBvhRef<'a, Index> {
        pub tri2vtx: &'a [[Index; 3]],
        pub vtx2xyz: &'a [[f32; 3]],
        pub bvhnode2tri_btree: &'a [[Index; 3]],
        pub bvhnode2aabb: &'a [[f32; 6]],
    }

    pub fn first_intersection_ray<Index>(
        _ray_org: &[f32; 3],
        _ray_dir: &[f32; 3],
        _trimesh3: &TriMesh3WithBvhRef<Index>,
        _i_bvhnode: usize,
        _dis: f32,
    ) -> Option<(f32, usize, [f32; 3])> {
        unimplemented!("casting rays is not carried over")
    }
}
