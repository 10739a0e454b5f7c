//! The stored cases of the crate `amd_replay`, through this package.

use num_traits::{cast, PrimInt};
use rimopaku_amd::{columns_within, order_holding, try_order, Control, Fault, Info, Status};
use std::collections::HashMap;
use std::fmt::{Display, Write};
use std::fs;

type Case<'a> = HashMap<&'a str, Vec<i128>>;

fn read(name: &str) -> String {
    let path = format!("{}/../../crates/amd_replay/{name}", env!("CARGO_MANIFEST_DIR"));
    fs::read_to_string(&path).unwrap_or_else(|error| panic!("{path}: {error}"))
}

/// The cases of a text, each with the numbers of its lines by their keyword.
fn cases(text: &str) -> Vec<Case<'_>> {
    let mut cases = Vec::new();
    for line in text.lines().filter(|line| !line.starts_with('#')) {
        let mut words = line.split_whitespace();
        match words.next() {
            Some("CASE") => cases.push(Case::new()),
            Some("END") | None => {}
            Some(keyword) => {
                let numbers = words.map(|word| word.parse().expect("a number")).collect();
                cases.last_mut().expect("a line CASE").insert(keyword, numbers);
            }
        }
    }
    cases
}

/// The numbers in a type, if it has all of them.
fn numbers<I: PrimInt>(from: &[i128]) -> Option<Vec<I>> {
    from.iter().map(|&number| cast(number)).collect()
}

fn write_list<D: Display>(out: &mut String, keyword: &str, numbers: impl IntoIterator<Item = D>) {
    out.push_str(keyword);
    for number in numbers {
        write!(out, " {number}").expect("a string takes all");
    }
    out.push('\n');
}

fn written_order<I: PrimInt + Display>(p: &[I], p_inv: &[I], info: &Info) -> String {
    let mut out = match info.status {
        Status::OkButJumbled => String::from("STATUS OkButJumbled\n"),
        _ => String::from("STATUS OK\n"),
    };
    write_list(&mut out, "P", p);
    write_list(&mut out, "PINV", p_inv);
    let symmetry = usize::from(info.n != 0 && info.is_symmetric());
    let figures = [info.n, info.nz, symmetry, info.nz_diag, info.nz_a_plus_at, info.n_dense, info.lnz, info.n_div];
    let steps = [info.n_mult_subs_ldl, info.n_mult_subs_lu, info.d_max];
    write_list(&mut out, "INFO", figures.into_iter().chain(steps));
    out
}

fn written_factor<I: PrimInt + Display>(n: I, a_p: &[I], a_i: &[I], p: &[I], room: usize) -> String {
    let mut out = String::new();
    let (fault, ptr, rows, parents) = match columns_within(n, a_p, a_i, p, room) {
        Ok(factor) => {
            let parents = factor.parent.iter().map(|place| place.map_or(-1, |it| it.to_i64().expect("a place")));
            ("Ok", factor.ptr, factor.rows, parents.collect())
        }
        Err(Fault::NotPermutation) => ("NotPermutation", vec![], vec![], vec![]),
        Err(Fault::RoomTooSmall) => ("RoomTooSmall", vec![], vec![], vec![]),
        Err(Fault::Invalid) => ("NotColumnForm", vec![], vec![], vec![]),
        Err(fault) => panic!("{fault}"),
    };
    writeln!(out, "FAULT {fault}").expect("a string takes all");
    write_list(&mut out, "PTR", ptr);
    write_list(&mut out, "ROWS", rows);
    write_list(&mut out, "PARENT", parents);
    out
}

/// What the package returns for a case, if the type has all of its numbers.
fn answer<I: PrimInt + Display>(case: &Case) -> Option<String> {
    // A case without a line has the default.
    let one = |keyword: &str, default: i128| case.get(keyword).map_or(default, |numbers| numbers[0]);
    let n: I = cast(case["N"][0])?;
    let (a_p, a_i) = (numbers(&case["AP"])?, numbers(&case["AI"])?);
    if let Some(p) = case.get("PERM") {
        let room = usize::try_from(case["ROOM"][0]).expect("a length");
        return Some(written_factor(n, &a_p, &a_i, &numbers(p)?, room));
    }
    let control = Control { dense: one("T", 10_000) as f64 / 1000.0, aggressive: one("AGG", 1) != 0 };
    let ordering = match case.get("HOLD") {
        Some(marks) => {
            let hold: Vec<bool> = marks.iter().map(|&mark| mark != 0).collect();
            order_holding(n, &a_p, &a_i, &control, &hold)
        }
        None => try_order(n, &a_p, &a_i, &control),
    };
    Some(match ordering {
        Ok((p, p_inv, info)) => written_order(&p, &p_inv, &info),
        Err(Fault::Invalid) => String::from("STATUS Invalid\n"),
        Err(fault) => panic!("{fault}"),
    })
}

/// Runs all cases in a type; returns how many it has the numbers of.
fn replay<I: PrimInt + Display>() -> usize {
    let (questions, answers) = (read("stdin"), read("stdout"));
    let cases = cases(&questions);
    let stored: Vec<&str> = answers.split("END\n").filter(|answer| !answer.trim().is_empty()).collect();
    assert_eq!(cases.len(), stored.len());
    let mut ran = 0;
    for (number, (case, stored)) in cases.iter().zip(&stored).enumerate() {
        if let Some(answer) = answer::<I>(case) {
            assert_eq!(format!("CASE {number}\n{answer}"), *stored);
            ran += 1;
        }
    }
    ran
}

#[test]
fn in_64_bits() {
    assert!(replay::<i64>() >= 825);
}

#[test]
fn in_32_bits() {
    assert!(replay::<i32>() >= 825);
}

#[test]
fn in_other_types() {
    assert!(replay::<i128>() >= 825);
    assert!(replay::<isize>() >= 825);
    for ran in [
        replay::<u8>(),
        replay::<u16>(),
        replay::<u32>(),
        replay::<u64>(),
        replay::<u128>(),
        replay::<usize>(),
        replay::<i8>(),
        replay::<i16>(),
    ] {
        assert!(ran >= 100, "{ran}");
    }
}
