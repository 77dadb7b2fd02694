//! The check of a tree.

use super::VERTICES;
use crate::reference::{refuse, Answer, ARCS, COST};

/// The number where there is no arc, or more than so many.
pub fn check_count(arcs: usize, most: usize, number: u32) -> Answer<()> {
    if arcs == 0 || arcs > most {
        return refuse(number, 0);
    }
    Ok(())
}

/// 1 and 2; `lengths` are those of the lists beside the parents.
pub fn check_lengths(parents: &[u16], lengths: &[usize]) -> Answer<()> {
    let arcs = parents.len();
    check_count(arcs, ARCS, 1)?;
    if lengths.iter().any(|&length| length != arcs) {
        return refuse(2, 0);
    }
    Ok(())
}

/// 3 at an arc.
pub fn check_parent(arc: usize, parent: u16) -> Answer<()> {
    if usize::from(parent) >= arc {
        return refuse(3, arc);
    }
    Ok(())
}

/// 3 and 4 at an arc.
pub fn check_arc(arc: usize, parent: u16, cost: u32) -> Answer<()> {
    check_parent(arc, parent)?;
    if cost > COST {
        return refuse(4, arc);
    }
    Ok(())
}

/// By vertex: whether some parent entry names it. Entries past the last vertex
/// are passed over.
pub fn find_named(parents: &[u16]) -> [bool; VERTICES] {
    let mut named = [false; VERTICES];
    for &parent in parents {
        if usize::from(parent) < VERTICES {
            named[usize::from(parent)] = true;
        }
    }
    named
}

/// 16 and 17 at an arc.
fn check_mark(arc: usize, mark: u16, named: bool) -> Answer<()> {
    if mark > 1 {
        return refuse(16, arc);
    }
    if mark == 1 && named {
        return refuse(17, arc);
    }
    Ok(())
}

pub fn check_tree(parents: &[u16], costs: &[u32], marks: &[u16]) -> Answer<()> {
    check_lengths(parents, &[costs.len(), marks.len()])?;
    let named = find_named(parents);
    let mut marked = false;
    for i in 0..parents.len() {
        check_arc(i + 1, parents[i], costs[i])?;
        check_mark(i + 1, marks[i], named[i + 1])?;
        marked |= marks[i] == 1;
    }
    if marked {
        Ok(())
    } else {
        refuse(18, 0)
    }
}
