//! Writes the stored cases rust/tests/stored/passes and outlines: `asked`, the arguments of each call, and `answered`, its answer,
//! by the listed Rust where they are accepted, and by the questions (`expected`) elsewhere. Run at the root of the
//! repository by `cargo run --release --offline --manifest-path rust/Cargo.toml -p comparison --example
//! pass_answers`. A number after `--` gives another count for each call than 80.

#[cfg(not(listed))]
fn main() {
    panic!("the listed Rust was not found: set DEL_MSH_SRC");
}

#[cfg(listed)]
fn main() -> std::io::Result<()> {
    let count = comparison::stored::count_or(80);
    let mut cases = comparison::stored::Cases::default();
    passes::over_a_map(&mut cases, count);
    passes::from_edges(&mut cases, count);
    cases.write("passes")?;
    let mut cases = comparison::stored::Cases::default();
    passes::of_outlines(&mut cases, count / 2);
    cases.write("outlines")
}

#[cfg(listed)]
mod passes {
    use comparison::crossings::crossings;
    use comparison::expected::{
        antialias_code, bwd_antialias_code, bwd_code_to_8, edge_gradient_and_type_code,
        interpolate_bwd_code, interpolate_code, interpolate_from_edges_code,
    };
    use comparison::outlines::{outline, Outline};
    use comparison::pass::{pass, velocities, Pass};
    use comparison::reference;
    use comparison::stored::{answer_bytes, answer_floats, bytes, floats, line, numbers, Cases};

    /// The longest slice that is stored.
    const ROOM: usize = 128;
    /// Images beyond this would only make the files long.
    const PIXELS: usize = 20;

    fn fits(pass: &Pass) -> bool {
        let values = [
            &pass.vtx2val,
            &pass.pix2val,
            &pass.dldw_pix2val,
            &pass.dldw_vtx2val,
        ];
        pass.img_w <= 4097
            && pass.img_h <= 4097
            && pass.num_vdim <= 17
            && pass.pix2tri.len() <= PIXELS
            && values.iter().all(|v| v.len() <= ROOM)
    }

    /// Question 9 is no where the listed Rust panics and 8 was answered yes.
    fn bwd_code(pass: &Pass) -> u32 {
        match bwd_code_to_8(pass) {
            0 if reference::bwd(pass).is_none() => 9,
            code => code,
        }
    }

    /// Calls 4 to 7 in turn; of eight one that is refused.
    pub fn over_a_map(cases: &mut Cases, count: usize) {
        for call in 4..=7 {
            let mut left = [count * 7 / 8, count / 8];
            for pass in (0..).map(pass).filter(fits) {
                if left == [0; 2] {
                    break;
                }
                let code = match call {
                    4 => interpolate_code(&pass),
                    5 => interpolate_bwd_code(&pass),
                    7 => bwd_code(&pass),
                    _ => edge_gradient_and_type_code(&pass),
                };
                let kind = usize::from(code != 0);
                // maps of one entry show little
                let dull = code == 0 && pass.pix2tri.iter().all(|&e| e == pass.pix2tri[0]);
                if left[kind] == 0 || dull && left[0] % 8 != 0 {
                    continue;
                }
                left[kind] -= 1;
                add(cases, call, &pass, code);
            }
        }
    }

    fn add(cases: &mut Cases, call: u32, pass: &Pass, code: u32) {
        let transform = if call >= 6 {
            &pass.transform_world2pix
        } else {
            &pass.transform_ndc2world
        };
        let mut asked = vec![
            line(transform.map(f32::to_bits)),
            numbers(&pass.pix2tri),
            numbers(&pass.tri2vtx),
            floats(&pass.vtx2xyz),
        ];
        asked.extend(match call {
            4 => vec![floats(&pass.vtx2val), floats(&pass.pix2val)],
            5 => vec![
                floats(&pass.vtx2val),
                floats(&pass.dldw_pix2val),
                floats(&pass.dldw_vtx2xyz),
                floats(&pass.dldw_vtx2val),
            ],
            7 => vec![
                floats(&pass.pix2val),
                floats(&pass.dldw_pix2val),
                floats(&pass.dldw_vtx2xyz),
            ],
            _ => vec![
                floats(&pass.pix2val),
                floats(&pass.dldw_pix2val),
                bytes(&pass.hedge2type),
                floats(&pass.hedge2dldr),
                bytes(&pass.vedge2type),
                floats(&pass.vedge2dldr),
            ],
        });
        let head = [
            call,
            pass.img_w as u32,
            pass.img_h as u32,
            pass.num_vdim as u32,
        ];
        cases.add(&head, &asked, code, &after(call, pass, code));
    }

    /// The written buffers: as they were where the call is refused.
    fn after(call: u32, pass: &Pass, code: u32) -> Vec<String> {
        let ran = "the listed Rust runs where the questions are answered yes";
        let mut left = pass.clone();
        if code == 0 {
            match call {
                4 => left.pix2val = reference::interpolate(pass).expect(ran),
                5 => {
                    [left.dldw_vtx2xyz, left.dldw_vtx2val] =
                        reference::interpolate_bwd(pass).expect(ran)
                }
                7 => left.dldw_vtx2xyz = reference::bwd(pass).expect(ran),
                _ => {
                    (
                        [left.hedge2type, left.vedge2type],
                        [left.hedge2dldr, left.vedge2dldr],
                    ) = reference::edge_gradient_and_type(pass).expect(ran)
                }
            }
        }
        match call {
            4 => vec![answer_floats(&left.pix2val)],
            5 => vec![
                answer_floats(&left.dldw_vtx2xyz),
                answer_floats(&left.dldw_vtx2val),
            ],
            7 => vec![answer_floats(&left.dldw_vtx2xyz)],
            _ => vec![
                answer_bytes(&left.hedge2type),
                answer_floats(&left.hedge2dldr),
                answer_bytes(&left.vedge2type),
                answer_floats(&left.vedge2dldr),
            ],
        }
    }

    pub fn from_edges(cases: &mut Cases, count: usize) {
        let small = |v: &comparison::pass::Velocities| v.img_w <= 4097 && v.img_h <= 4097;
        for v in (0..).map(velocities).filter(small).take(count) {
            let code = interpolate_from_edges_code(&v);
            let after = if code == 0 {
                reference::interpolate_from_edges(&v).expect("the listed Rust runs")
            } else {
                v.vtx2velo.clone()
            };
            let asked = [&v.hedge2vy, &v.vedge2vx, &v.vtx2xy, &v.vtx2velo].map(|s| floats(s));
            let head = [8, v.img_w as u32, v.img_h as u32];
            cases.add(&head, &asked, code, &[answer_floats(&after)]);
        }
    }
    /// Calls 12 and 13, each of the same arguments; of eight one that is refused. Those accepted have a crossing.
    pub fn of_outlines(cases: &mut Cases, count: usize) {
        let mut left = [count * 7 / 8, count / 8];
        for outline in (0..).map(outline).filter(outline_fits) {
            if left == [0; 2] {
                break;
            }
            let codes = [antialias_code(&outline), bwd_antialias_code(&outline)];
            let kind = usize::from(codes != [0; 2]);
            if left[kind] == 0 || kind == 0 && crossings(&outline).is_empty() {
                continue;
            }
            left[kind] -= 1;
            add_outline(cases, &outline, codes);
        }
    }

    fn outline_fits(outline: &Outline) -> bool {
        let sides = [outline.img_w, outline.img_h];
        sides.iter().all(|&side| side <= 4097)
            && outline.pix2tri.len() <= 2 * PIXELS
            && outline.vtx2xyz.len().max(outline.cedge2vtx.len()) <= ROOM
    }

    fn add_outline(cases: &mut Cases, outline: &Outline, codes: [u32; 2]) {
        let ran = "the listed Rust runs where the questions are answered yes";
        let mut left = outline.clone();
        if codes[0] == 0 {
            left.pix2vout = reference::antialias(outline).expect(ran);
        }
        if codes[1] == 0 {
            left.dldw_vtx2xyz = reference::bwd_antialias(outline).expect(ran);
        }
        let common = || {
            vec![
                line(outline.transform_world2pix.map(f32::to_bits)),
                numbers(&outline.cedge2vtx),
                floats(&outline.vtx2xyz),
                numbers(&outline.pix2tri),
                floats(&outline.pix2val),
            ]
        };
        let head = |call: u32| [call, outline.img_w as u32, outline.img_h as u32];
        let forward = [common(), vec![floats(&outline.pix2vout)]].concat();
        let smoothed = [answer_floats(&left.pix2vout)];
        cases.add(&head(12), &forward, codes[0], &smoothed);
        let gradients = [&outline.dldw_pix2val, &outline.dldw_vtx2xyz].map(|s| floats(s));
        let backward = [common(), gradients.to_vec()].concat();
        let sums = [answer_floats(&left.dldw_vtx2xyz)];
        cases.add(&head(13), &backward, codes[1], &sums);
    }
}
