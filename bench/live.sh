#!/bin/sh
# How many nodes per second `liveness` takes, in a program built as a release is.
#
# Usage: bench/live.sh [FOLDER]. The folder, a temporary one by default, gets a copy of the crates that liveness stands on and a program that
# makes graphs and finds which locals are live where: straight code of several lengths, so that one sees whether time is linear; a procedure of
# 131,072 tokens with 1,024 variables and loops in loops; and many small procedures. Nothing of it belongs to the repository.
set -eu
. "$(dirname "$0")/copy_crates.sh"
work=${1:-$(mktemp -d)}
copy_crates "$work" live_speed cmm_live cmm_graph cmm_program cmm_words cmm_items
cat >"$work/crates/live_speed/src/main.rt" <<'PROGRAM'
//! Finds which locals of graphs are live where, and prints how long that takes.
#![tactic(auto)]

ghost use Rattle.std.specs.Prelude.{◌≡◌, ◌<◌, ◌^◌, IfOk};

use std::alloc::{AllocError, Global};
use std::io;
use std::rt::Clock;
use std::time::Instant;

use cmm_graph::{Comparison, Destination, Graph, Local, Node, NodeId, NodeKind, Operand, Rvalue, Variable};
use cmm_items::Items;
use cmm_live::liveness;
use cmm_program::Target;
use cmm_words::{Cmp, Op2, Width};

/// A number below `variables`, if there is one.
fn within(number: u32, variables: u32) -> u32 {
    if variables == 0 { 0 } else { number % variables }
}

fn variable(number: u32, variables: u32) -> Operand {
    let number = within(number, variables);
    Operand::Local(Local::Variable(Variable { number }))
}

/// The sum of two variables, put into a third: six tokens as a statement.
fn sum(k: u32, variables: u32) -> Node {
    let value = Rvalue::Binary {
        operator: Op2::Add,
        width: Width::W64,
        left: variable(k.wrapping_mul(7), variables),
        right: variable(k.wrapping_mul(31).wrapping_add(5), variables),
    };
    Node {
        tokens: 6,
        kind: NodeKind::Assign {
            to: Destination::Target(Target::Variable(within(k, variables), Width::W64)),
            value,
            next: NodeId { number: k.wrapping_add(1) },
        },
    }
}

/// Back to a node, or on.
fn branch(k: u32, back: u32, variables: u32) -> Node {
    let test = Comparison {
        operator: Cmp::Ltu,
        width: Width::W64,
        left: variable(k.wrapping_mul(3), variables),
        right: variable(k.wrapping_mul(5), variables),
    };
    Node {
        tokens: 8,
        kind: NodeKind::Branch {
            test,
            then: NodeId { number: k.wrapping_sub(back) },
            otherwise: NodeId { number: k.wrapping_add(1) },
        },
    }
}

/// A loop of 16 nodes in one of 256 in one of 4,096, over and over; or none.
fn node(k: u32, loops: bool, variables: u32) -> Node {
    if !loops {
        return sum(k, variables);
    }
    if k % 4096 == 4095 {
        branch(k, 4095, variables)
    } else if k % 256 == 255 {
        branch(k, 255, variables)
    } else if k % 16 == 15 {
        branch(k, 15, variables)
    } else {
        sum(k, variables)
    }
}

/// So many nodes, and a return.
fn graph(alloc: Global, count: u32, loops: bool, variables: u32) -> Result<Graph, AllocError>
    requires { variables < 2 ^ 31 }
    ensures { IfOk result (λ g. (g.variables ≡ variables) × (g.temporaries ≡ 0)) }
{
    let mut nodes = Items::new(alloc);
    for k in 0..count {
        nodes.push(node(k, loops, variables))?;
    }
    nodes.push(Node {
        tokens: 1,
        kind: NodeKind::Return {
            exit: 0,
            alternates: 0,
            results: Items::new(alloc),
        },
    })?;
    Ok(Graph {
        variables,
        temporaries: 0,
        nodes,
        first: NodeId { number: 0 },
        continuations: Items::new(alloc),
    })
}

fn measure(rt: &(impl AllocGlobal + Clock + Print), name: &str, count: u32, loops: bool, variables: u32, times: u32) -> io::Result<()>
    requires { variables < 2 ^ 31 }
{
    let graph = graph(rt.alloc(), count, loops, variables)?;
    let start = Instant::now(rt)?;
    let mut sets = 0;
    for _ in 0..times {
        sets = liveness(rt.alloc(), &graph)?.before.len();
    }
    let all = start.elapsed(rt)?.as_micros();
    println!(rt; "{name}: {times} times {sets} nodes, {variables} variables: {all} microseconds")
}

fn main(rt: HostRuntime) -> io::Result<()> {
    measure(&rt, "straight", 5_000, false, 64, 8)?;
    measure(&rt, "straight", 10_000, false, 64, 8)?;
    measure(&rt, "straight", 20_000, false, 64, 8)?;
    measure(&rt, "straight", 40_000, false, 64, 8)?;
    measure(&rt, "straight", 21_500, false, 1_024, 8)?;
    measure(&rt, "loops in loops", 21_500, true, 64, 4)?;
    measure(&rt, "loops in loops", 21_500, true, 1_024, 4)?;
    measure(&rt, "small procedures", 20, false, 8, 20_000)?;
    measure(&rt, "small loops", 48, true, 8, 10_000)
}
PROGRAM
(cd "$work/crates/live_speed" && rt run)
