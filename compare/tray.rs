//! The story of crates/tray, played by the Rust: colours, buckets and positions are rapier3d's own
//! code, and what it prints is the expected output of our program. What the Rust has no answer for
//! (it would panic, or go on with a wrong position) is printed by the rule of docs/RULES.md.
//!
//! rustc --edition 2024 -O compare/tray.rs -o /tmp/tray && /tmp/tray | diff - crates/tray/stdout
#![allow(dead_code, unexpected_cfgs)]

extern crate alloc;

mod alloc_prelude {
    pub(crate) use alloc::vec::Vec;
}
#[path = "rapier3d/solver_color.rs"]
mod geometry;
#[path = "rapier3d/solver_contact_graph.rs"]
mod solver_contact_graph;

use geometry::contact_pair::{ContactPair, SOLVER_COLOR_UNCOLORED};
use geometry::{assign_pair_solver_color, clear_pair_solver_color};
use solver_contact_graph::{ContactRef, GraphPos, SolverContactGraph};

const NAMES: [&str; 5] = ["tray", "gripper", "screw", "washer", "nut"];
const TRAY: u32 = 0;
const GRIPPER: u32 = 1;
const SCREW: u32 = 2;
const WASHER: u32 = 3;
const NUT: u32 = 4;

struct Contact {
    name: String,
    pair: ContactPair,
    pos: GraphPos,
}

fn word(pos: GraphPos) -> u32 {
    // The field is private: its two parts are what the Rust shows of it.
    ((pos.bucket() as u32) << 22) | pos.local()
}

fn show(number: usize, contact: &Contact) -> String {
    let pos = contact.pos;
    if pos.is_some() {
        format!("{number} {}: bucket {} place {} (position {})", contact.name, pos.bucket(), pos.local(), word(pos))
    } else {
        format!("{number} {}: out", contact.name)
    }
}

fn body(id: u32) -> Option<(u32, bool)> {
    Some((id, id == TRAY))
}

fn take_in(graph: &mut SolverContactGraph, masks: &mut Vec<u128>, contacts: &mut Vec<Contact>, a: u32, b: u32) {
    let number = contacts.len();
    let mut pair = ContactPair { solver_color: SOLVER_COLOR_UNCOLORED, solver_color_bodies: [u32::MAX; 2] };
    assign_pair_solver_color(masks, &mut pair, body(a), body(b));
    let pos = graph.insert(pair.solver_color, ContactRef { edge: number as u32, manifold: 0 });
    let name = format!("{}-{}", NAMES[a as usize], NAMES[b as usize]);
    contacts.push(Contact { name, pair, pos });
    println!("in  {}", show(number, &contacts[number]));
}

fn strike_out(graph: &mut SolverContactGraph, masks: &mut [u128], contacts: &mut [Contact], number: usize) {
    let pos = contacts[number].pos;
    print!("out {number} {}: ", contacts[number].name);
    if !pos.is_some() {
        println!("no 12");
        return;
    }
    let moved = graph.remove(pos);
    contacts[number].pos = GraphPos::NONE;
    clear_pair_solver_color(masks, &mut contacts[number].pair);
    match moved {
        None => println!("it was the last of its bucket, nothing moved"),
        Some(moved) => {
            let moved = moved.edge as usize;
            contacts[moved].pos = pos;
            println!("into the gap moved {}", show(moved, &contacts[moved]));
        }
    }
}

fn main() {
    let mut graph = SolverContactGraph::new();
    let mut masks = Vec::new();
    let mut contacts = Vec::new();
    for (a, b) in [(SCREW, TRAY), (WASHER, TRAY), (GRIPPER, TRAY), (GRIPPER, SCREW), (GRIPPER, NUT), (SCREW, NUT), (TRAY, WASHER)] {
        take_in(&mut graph, &mut masks, &mut contacts, a, b);
    }
    for number in [0, 3, 0] {
        strike_out(&mut graph, &mut masks, &mut contacts, number);
    }
    take_in(&mut graph, &mut masks, &mut contacts, NUT, WASHER);
    for (color, refs) in graph.buckets() {
        let refs: Vec<String> = refs.iter().map(|r| r.edge.to_string()).collect();
        println!("bucket {color}: {}", refs.join(" "));
    }
    for (number, contact) in contacts.iter().enumerate() {
        println!("{}", show(number, contact));
    }
    // In a release build the Rust does not look whether the place fits; the rule is to refuse by 12.
    for (who, local) in [("gripper", 3), ("screw", 4194307)] {
        let packed = word(GraphPos::new(5, local));
        let answer = if local < 4194304 { format!("position {packed}") } else { "no 12".to_string() };
        println!("{who} at bucket 5 place {local}: packed unseen {packed}, {answer}");
    }
}
