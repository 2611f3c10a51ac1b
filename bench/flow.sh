#!/bin/sh
# How many tokens per second `flow` takes, in a program built as a release is.
#
# Usage: bench/flow.sh [FOLDER]. The folder, a temporary one by default, gets a copy of the crates that `flow` stands on and a program that makes
# procedures and their graphs: assignments of sums, so many that the last procedure's text would take 1 MiB, so that one sees whether time is
# linear; the same inside an `if` with two branches each; and many small procedures. Nothing of it belongs to the repository.
set -eu
. "$(dirname "$0")/copy_crates.sh"
work=${1:-$(mktemp -d)}
copy_crates "$work" flow_speed cmm_flow cmm_graph cmm_program cmm_words cmm_items
cat >"$work/crates/flow_speed/src/main.rt" <<'PROGRAM'
//! Makes the graphs of procedures, and prints how long that takes.
#![tactic(auto)]

use std::alloc::{AllocError, Global};
use std::io;
use std::rt::Clock;
use std::time::Instant;

use cmm_flow::flow;
use cmm_items::{Boxed, Items};
use cmm_program::{Condition, Expression, Form, Lvalue, Proc, Statement, Target};
use cmm_words::{Cmp, Name, Op2, Width};

fn variable(alloc: Global, number: u32) -> Result<Boxed<Expression>, AllocError> {
    Boxed::new(alloc, Expression::Variable(number % 64, Width::W64))
}

/// `a = b + c;`, six tokens.
fn sum(alloc: Global, k: u32) -> Result<Statement, AllocError> {
    let left = variable(alloc, k)?;
    let right = variable(alloc, k.wrapping_mul(7))?;
    let mut to = Items::new(alloc);
    to.push(Lvalue::Target(Target::Variable(k % 64, Width::W64)))?;
    let mut values = Items::new(alloc);
    values.push(Expression::Binary(Op2::Add, Width::W64, left, right))?;
    let form = Form::Assign { to, values };
    Ok(Statement { tokens: 6, form })
}

/// Statements that are one sum.
fn block(alloc: Global, k: u32) -> Result<Items<Statement>, AllocError> {
    let mut statements = Items::new(alloc);
    statements.push(sum(alloc, k)?)?;
    Ok(statements)
}

/// `if a < b { .. } else { .. }` round two sums, nine tokens of its own.
fn branch(alloc: Global, k: u32) -> Result<Statement, AllocError> {
    let left = variable(alloc, k)?;
    let right = variable(alloc, k.wrapping_mul(5))?;
    let condition = Condition::Compare(Cmp::Ltu, Width::W64, left, right);
    let then = block(alloc, k)?;
    let otherwise = block(alloc, k.wrapping_add(1))?;
    let form = Form::If { condition, then, otherwise };
    Ok(Statement { tokens: 9, form })
}

/// A procedure of so many sums, or of so many branches.
fn procedure(alloc: Global, count: u32, branches: bool) -> Result<Proc, AllocError> {
    let mut body = Items::new(alloc);
    for k in 0..count {
        let statement = if branches { branch(alloc, k)? } else { sum(alloc, k)? };
        body.push(statement)?;
    }
    Ok(Proc {
        name: Name::from_slice(alloc, b"p")?,
        unit: 0,
        tokens: 1,
        formals: 0,
        vars: Items::new(alloc),
        stack: Items::new(alloc),
        conts: Items::new(alloc),
        sites: Items::new(alloc),
        body,
    })
}

fn measure(rt: &(impl AllocGlobal + Clock + Print), name: &str, count: u32, branches: bool, times: u32) -> io::Result<()> {
    let procedure = procedure(rt.alloc(), count, branches)?;
    let start = Instant::now(rt)?;
    let mut nodes = 0;
    for _ in 0..times {
        nodes = flow(rt.alloc(), &procedure)?.nodes.len();
    }
    let all = start.elapsed(rt)?.as_micros();
    println!(rt; "{name}: {times} times {count} statements, {nodes} nodes: {all} microseconds")
}

fn main(rt: HostRuntime) -> io::Result<()> {
    measure(&rt, "sums", 21_500, false, 16)?;
    measure(&rt, "sums", 43_000, false, 16)?;
    measure(&rt, "sums", 86_000, false, 16)?;
    measure(&rt, "sums", 172_000, false, 16)?;
    measure(&rt, "branches", 25_000, true, 16)?;
    measure(&rt, "branches", 50_000, true, 16)?;
    measure(&rt, "small procedures", 4, false, 200_000)
}
PROGRAM
(cd "$work/crates/flow_speed" && rt run)
