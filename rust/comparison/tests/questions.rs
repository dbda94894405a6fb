//! Questions 8 and 9 are no exactly where the listed Rust would panic, and every question is reached by the
//! arguments that the other tests use.
#![cfg(listed)]
use comparison::expected::{
    bwd_code_to_8, edge_gradient_and_type_code, interpolate_bwd_code, interpolate_code,
    interpolate_from_edges_code,
};
use comparison::pass::{pass, velocities, Pass};
use comparison::reference;

const PASSES: u64 = 30_000;

/// How often each code was met. Of the codes 0 and 8 the listed Rust is asked too.
fn met(code: impl Fn(&Pass) -> u32, runs: impl Fn(&Pass) -> bool) -> [usize; 10] {
    let mut seen = [0; 10];
    for seed in 0..PASSES {
        let pass = pass(seed);
        let code = code(&pass);
        seen[code as usize] += 1;
        if code == 0 || code == 8 {
            assert_eq!(runs(&pass), code == 0, "{pass:?}");
        }
    }
    seen
}

fn reached(seen: [usize; 10], questions: &[usize]) {
    println!("{seen:?}");
    for &question in questions {
        assert!(
            seen[question] > 50,
            "question {question} was hardly met: {seen:?}"
        );
    }
}

#[test]
fn of_values() {
    let seen = met(interpolate_code, |p| reference::interpolate(p).is_some());
    reached(seen, &[0, 1, 2, 3, 4, 6, 7, 8]);
}

#[test]
fn of_values_backward() {
    let seen = met(interpolate_bwd_code, |p| {
        reference::interpolate_bwd(p).is_some()
    });
    reached(seen, &[0, 1, 2, 3, 4, 6, 7, 8]);
}

#[test]
fn of_edge_types() {
    let runs = |p: &Pass| reference::edge_gradient_and_type(p).is_some();
    reached(
        met(edge_gradient_and_type_code, runs),
        &[0, 1, 2, 3, 4, 6, 7, 8],
    );
}

#[test]
fn of_edges_backward() {
    let (mut ninth, mut differ) = (0, 0);
    for pass in (0..PASSES).map(pass) {
        let code = bwd_code_to_8(&pass);
        if code != 0 && code != 8 {
            continue;
        }
        let (ours, listed) = (reference::bwd(&pass), reference::bwd_as_listed(&pass));
        assert_eq!(ours.is_some(), listed.is_some());
        assert!(code == 0 || ours.is_none(), "{pass:?}");
        ninth += usize::from(code == 0 && ours.is_none());
        let bits = |x: &Vec<f32>| x.iter().map(|x| x.to_bits()).collect::<Vec<_>>();
        differ += usize::from(ours.as_ref().map(bits) != listed.as_ref().map(bits));
    }
    println!("question 9 is no {ninth} times; the listed line gives other bits {differ} times");
    assert!(ninth > 50 && differ > 50);
}

#[test]
fn of_velocities() {
    let mut seen = [0; 10];
    for v in (0..PASSES).map(velocities) {
        let code = interpolate_from_edges_code(&v);
        seen[code as usize] += 1;
        if code == 0 {
            assert!(reference::interpolate_from_edges(&v).is_some(), "{v:?}");
        }
    }
    reached(seen, &[0, 1, 3, 4]);
}
