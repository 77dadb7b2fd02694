//! The report on a job (specification, §9).

use crate::job::{self, Job};
use crate::level;
use crate::reference::{self, ARCS};

pub fn text(bytes: &[u8]) -> String {
    match job::read(bytes, [ARCS; 4]) {
        Ok(job) => accepted(&job),
        Err(r) => format!("refused {} at {}\n", r.number, r.place),
    }
}

fn joined(members: &[usize]) -> String {
    let numbers: Vec<String> = members.iter().map(usize::to_string).collect();
    numbers.join(" ")
}

/// A line where the total is off, then one where a group is found; else a pass.
fn audit(job: &Job) -> String {
    let mut lines = String::new();
    let difference = reference::check_total(job.tree(), &job.proposals).unwrap();
    if difference != 0 {
        lines += &format!("audit total {difference}\n");
    }
    let found = reference::find_group(job.tree(), &job.proposals).unwrap();
    if let Some((amount, group)) = found {
        lines += &format!("audit group {amount} of {}: ", group.len());
        lines += &format!("{}\n", joined(&group));
    }
    if lines.is_empty() {
        lines += "audit pass\n";
    }
    lines
}

/// The level split's line, and what each member's line says of it. A job of
/// version 1 has no floors.
fn level(job: &Job, members: usize) -> (String, Vec<String>) {
    match level::split_level(job.tree(), &job.caps, &vec![0; members], members) {
        Ok(shares) => ("ok".into(), shares.iter().map(u64::to_string).collect()),
        Err(r) => {
            let line = format!("refused {} at {} short {}", r.number, r.place, r.shortfall);
            (line, vec!["-".into(); members])
        }
    }
}

fn accepted(job: &Job) -> String {
    let tree = job.tree().unwrap();
    let members = tree.members.len();
    let by_arc = tree.by_arc();
    let (line, level) = level(job, members);
    let mut text = format!("cost {} members {members}\n", tree.whole());
    text += &format!("{}level {line}\n", audit(job));
    for (j, vertex) in tree.members.iter().enumerate() {
        text += &format!("{j} at {vertex}: proposed {} ", job.proposals[j]);
        text += &format!("by-arc {} level {}\n", by_arc[j], level[j]);
    }
    text
}
