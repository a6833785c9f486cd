//! Generated cases: the library held against the model and against the laws of document 01.
//!
//! `FACETGROVE_CASES` sets how many, `FACETGROVE_SEED` from which seed, `FACETGROVE_CASE` repeats a single one.

mod case;
mod faulty;
mod generate;
mod laws;
#[path = "../library/mod.rs"]
mod library;
mod micro_text;
mod random;
mod recorder;
mod show;
mod shrink;

use case::Case;
use facetgrove_model::Functions;
use faulty::Faulty;
use library::{Raw, Safe};
use recorder::Recorder;
use std::time::Instant;

/// Fixed, so that every run of the gate is the same.
const SEED: u64 = 20_250_101;
const CASES: u64 = 1_200_000;

#[test]
fn the_library_agrees_with_the_model() {
    let start = Instant::now();
    let seed = setting("FACETGROVE_SEED").unwrap_or(SEED);
    let cases = match setting("FACETGROVE_CASE") {
        Some(one) => one..one + 1,
        None => 0..setting("FACETGROVE_CASES").unwrap_or(CASES),
    };
    let cores = std::thread::available_parallelism().map_or(1, |cores| cores.get());
    std::thread::scope(|scope| {
        let share = |core| cases.clone().skip(core).step_by(cores);
        let threads: Vec<_> = (0..cores).map(|core| scope.spawn(move || check_all(seed, share(core)))).collect();
        for thread in threads {
            thread.join().expect("the difference is shown above");
        }
    });
    println!("seed {seed}: {} cases in {:.1?}", cases.end - cases.start, start.elapsed());
}

/// Cases that never reach an answer would show nothing about it. 17 cannot be reached: no listing is over 2,816 bytes.
#[test]
fn every_answer_is_reached() {
    let recorder = Recorder::default();
    for number in 0..40_000 {
        let agrees = generate::case(SEED, number).difference(&recorder).is_none();
        assert!(agrees, "the model differs from itself");
    }
    let expected: [(&str, &[u32]); 7] = [
        ("engine_run", &[0, 1, 2, 3, 4, 5]),
        ("press", &[0, 1, 2, 3, 4, 5]),
        ("interpreter_run", &[0, 1, 2, 3, 5]),
        ("micro_assemble", &[0, 1, 10, 11, 12, 13, 14, 15]),
        ("micro_list", &[0, 1, 4, 16]),
        ("image_read", &[0, 1, 20, 21, 22, 23]),
        ("image_write", &[0, 1, 24]),
    ];
    for (function, answers) in expected {
        assert_eq!(recorder.answers(function), answers, "{function}");
    }
}

fn setting(name: &str) -> Option<u64> {
    let value = std::env::var(name).ok()?;
    Some(value.parse().unwrap_or_else(|_| panic!("{name} is {value}, which is no number")))
}

fn check_all(seed: u64, numbers: impl Iterator<Item = u64>) {
    for number in numbers {
        let case = generate::case(seed, number);
        for (name, tested) in [("safe functions", &Safe as &dyn Functions), ("C interface", &Raw)] {
            if case.difference(tested).is_some() {
                panic!("seed {seed} case {number}, {name}, made small:\n{}", report(case, tested));
            }
        }
    }
}

/// The small case and what differs in it.
fn report(case: Case, tested: &dyn Functions) -> String {
    let small = shrink::shrink(case, |smaller| smaller.difference(tested).is_some());
    let difference = small.difference(tested).expect("a small case still differs");
    format!("{small}\n{difference}")
}

/// The first differing case with a planted fault, made small.
fn found_and_made_small(fault: Faulty, kind: fn(&Case) -> bool) -> Case {
    let differs = |case: &Case| case.difference(&fault).is_some();
    let mut cases = (0..20_000).map(|number| generate::case(SEED, number)).filter(kind);
    shrink::shrink(cases.find(differs).expect("the fault is found"), differs)
}

#[test]
fn a_subl_turned_round_is_found_and_made_small() {
    let small = found_and_made_small(Faulty::SublTurned, |case| matches!(case, Case::Interpreter { .. }));
    let Case::Interpreter { cpu, instructions } = &small else { panic!("{small}") };
    assert_eq!(*instructions, 1, "{small}");
    assert!(words_not_0(&cpu.plant.memory) <= 2 && cpu.plant.log.is_empty(), "{small}");
}

#[test]
fn an_n_taken_from_ac_is_found_and_made_small() {
    let small = found_and_made_small(Faulty::NegativeFromAc, |case| matches!(case, Case::Engine { .. }));
    let Case::Engine { machine, cycles } = &small else { panic!("{small}") };
    assert_eq!(*cycles, 1, "{small}");
    assert!(words_not_0(&machine.store) <= 1 && words_not_0(&machine.registers) <= 1, "{small}");
    assert!(words_not_0(&machine.plant.memory) == 0, "{small}");
}

#[test]
fn a_refused_target_63_is_found_and_made_small() {
    let small = found_and_made_small(Faulty::Target63Refused, |case| matches!(case, Case::Assemble { .. }));
    let Case::Assemble { text, .. } = &small else { panic!("{small}") };
    assert_eq!(text.escape_ascii().to_string(), "0:goto63", "{small}");
}

#[test]
fn a_word_left_out_of_images_is_found_and_made_small() {
    let small = found_and_made_small(Faulty::LastWordLeftOut, |case| matches!(case, Case::ImageWrite { .. }));
    let Case::ImageWrite { memory, .. } = &small else { panic!("{small}") };
    assert_eq!(words_not_0(memory), 1, "{small}");
}

fn words_not_0<T: Copy + Default + PartialEq>(words: &[T]) -> usize {
    words.iter().filter(|&&word| word != T::default()).count()
}
