//! The workloads of the benchmark, on every implementation.

use compare::implementation::ALL;
use compare::workload::{self, groups};

#[test]
fn every_workload_has_its_outcome_and_one_view() {
    for workload in workload::all() {
        let views = ALL.iter().map(|i| {
            let (mut memory, mut view) = (vec![0; workload.words()], vec![0; workload.words()]);
            workload.sheet(i);
            workload.check(i);
            workload.run(i, &mut memory);
            workload.view(i, &memory, &mut view);
            (memory, view)
        });
        let views: Vec<(Vec<u32>, Vec<u32>)> = views.collect();
        assert!(views[0].1.iter().any(|&word| word != 0), "{}", workload.name);
        assert!(views.iter().all(|view| *view == views[0]), "{}", workload.name);
    }
}

#[test]
fn every_workload_leaves_the_same_by_a_round_and_by_its_runs() {
    for workload in workload::all() {
        for i in ALL {
            let (mut round, mut runs) = (vec![0; workload.words()], vec![0; workload.words()]);
            workload.round(i, &workload.scripts(), &mut round);
            workload.runs(i, &mut runs);
            assert_eq!(round, runs, "{}: {}", i.name, workload.name);
        }
    }
}

#[test]
fn every_workload_of_a_label_has_the_same_groups() {
    for workload in groups::all() {
        let listed = ALL.iter().map(|i| {
            let mut places = vec![0; workload.places()];
            workload.sheet(i);
            workload.groups(i, &mut places);
            places
        });
        let listed: Vec<Vec<u16>> = listed.collect();
        assert!(listed.iter().all(|groups| *groups == listed[0]), "{}", workload.name);
    }
}
