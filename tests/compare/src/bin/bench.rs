//! Carries out one call of a workload again and again, to be measured from outside:
//!
//! ```text
//! bench reference|lean|library WORKLOAD sheet|check|run|view|round|runs REPEATS
//! bench reference|lean|library LABEL-WORKLOAD sheet|groups REPEATS
//! ```
//!
//! The workloads are those of `workload.rs`; `round` is 32 times the script of one in one round, and
//! `runs` the same in 32 runs. Those of a label are in `workload/groups.rs`. Answers are checked.
//! `library` is there where the package was built with the feature of that name.

use compare::implementation::{Implementation, ALL};
use compare::workload::groups::LabelWorkload;
use compare::workload::{self, Workload};
use std::hint::black_box;
use std::process::ExitCode;

const USAGE: &str =
    "usage: bench reference|lean|library WORKLOAD sheet|check|run|view|round|runs REPEATS
       bench reference|lean|library LABEL-WORKLOAD sheet|groups REPEATS";

fn main() -> ExitCode {
    let arguments: Vec<String> = std::env::args().skip(1).collect();
    match carry_out(&arguments) {
        Ok(()) => ExitCode::SUCCESS,
        Err(message) => {
            eprintln!("{message}\n{USAGE}");
            ExitCode::FAILURE
        }
    }
}

fn carry_out(arguments: &[String]) -> Result<(), String> {
    let [implementation, workload, call, repeats] = arguments else {
        return Err("four arguments are needed".to_string());
    };
    let implementation = ALL
        .iter()
        .find(|i| i.name == implementation)
        .ok_or(format!("no implementation {implementation} is linked"))?;
    let repeats: u32 = repeats.parse().map_err(|_| format!("{repeats} is no number"))?;
    let of_a_script = workload::all().into_iter().find(|w| w.name == *workload);
    let of_a_label = workload::groups::all().into_iter().find(|w| w.name == workload);
    match (of_a_script, of_a_label) {
        (Some(workload), _) => carry_out_script(implementation, &workload, call, repeats),
        (_, Some(workload)) => carry_out_label(implementation, &workload, call, repeats),
        (None, None) => Err(format!("no workload {workload}")),
    }
}

fn carry_out_script(
    implementation: &Implementation,
    workload: &Workload,
    call: &str,
    repeats: u32,
) -> Result<(), String> {
    let scripts = workload.scripts();
    let (mut memory, mut view) = (vec![0; workload.words()], vec![0; workload.words()]);
    workload.run(implementation, &mut memory);
    for _ in 0..repeats {
        let implementation = black_box(implementation);
        match call {
            "sheet" => workload.sheet(implementation),
            "check" => workload.check(implementation),
            "run" => workload.run(implementation, &mut memory),
            "view" => workload.view(implementation, &memory, &mut view),
            "round" => workload.round(implementation, &scripts, &mut memory),
            "runs" => workload.runs(implementation, &mut memory),
            _ => return Err(format!("no call {call}")),
        }
        black_box((&mut memory, &mut view));
    }
    Ok(())
}

fn carry_out_label(
    implementation: &Implementation,
    workload: &LabelWorkload,
    call: &str,
    repeats: u32,
) -> Result<(), String> {
    let mut places = vec![0; workload.places()];
    for _ in 0..repeats {
        let implementation = black_box(implementation);
        match call {
            "sheet" => workload.sheet(implementation),
            "groups" => workload.groups(implementation, &mut places),
            _ => return Err(format!("no call {call}")),
        }
        black_box(&mut places);
    }
    Ok(())
}
