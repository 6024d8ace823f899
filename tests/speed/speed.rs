// The Rust's functions and the bench's, timed in one run on the same modules: tables and vectors are filled before. Every module passes,
// so both do all their work. The bench's times hold its table checks too, since each part called alone asks them.
#[path = "../rust/shared/mod.rs"]
mod shared;
mod timing;
use cutile_ir::bytecode::BytecodeVersion;
use cutile_ir::capabilities::TargetCapabilities;
use cutile_ir::ir::{BlockId, Location, Module, OpId, TileElementType, Type};
use cutile_ir::requirements::{attribute_feature, opcode_requirement, scalar_requirement, target_requirement};
use cutile_ir::toolchain::{oracle::parse_module, verify_operation};
use shared::{bench, cases, large::{nested, nested_module}, rules::*, tables::*};
use std::hint::black_box;
use timing::times;

const SM: u64 = 120;

fn rust_module(x: &Tables) -> Module {
    parse_module(x.text(4, SM).as_bytes()).unwrap().module
}

fn capabilities() -> TargetCapabilities {
    TargetCapabilities::new(BytecodeVersion::V13_4, format!("sm_{SM}"))
}

// ---- the paper's walk through the Rust's functions

fn walk(m: &Module, i: OpId, seen: &mut impl FnMut(OpId) -> bool) -> bool {
    let inside = |b: &BlockId, seen: &mut _| m.block(*b).ops.iter().all(|o| walk(m, *o, seen));
    seen(i) && m.op(i).regions.iter().all(|k| m.region(*k).blocks.iter().all(|b| inside(b, seen)))
}

fn everywhere(m: &Module, mut seen: impl FnMut(OpId) -> bool) -> bool {
    m.functions.iter().all(|f| walk(m, *f, &mut seen))
}

fn rust_requirements(m: &Module, target: &TargetCapabilities) -> bool {
    let nowhere = Location::Unknown;
    let kind = |ty: &Type| match ty.without_pointer_attribute() {
        Type::Tile(t) => Some(match &t.element_type {
            TileElementType::Scalar(s) => *s,
            TileElementType::Pointer(p) => p.pointee,
        }),
        Type::TensorView(v) => Some(v.element_type),
        Type::PartitionView(v) => Some(v.tensor_view.element_type),
        Type::StridedView(v) => Some(v.tensor_view.element_type),
        Type::GatherScatterView(v) => Some(v.tensor_view.element_type),
        _ => None,
    };
    let met = |ty: &Type| kind(ty).is_none_or(|k| scalar_requirement(k).check(target, "kind", &nowhere).is_ok());
    target_requirement(SM as u32).is_some_and(|r| r.check(target, "target", &nowhere).is_ok())
        && everywhere(m, |i| {
            let op = m.op(i);
            opcode_requirement(op.opcode).check(target, "opcode", &nowhere).is_ok()
                && op.attributes.iter().all(|(name, a)| {
                    attribute_feature(op.opcode, name, a).is_none_or(|f| f.requirement().check(target, "attribute", &nowhere).is_ok())
                })
                && op.operands.iter().all(|v| met(m.value_type(*v)))
                && op.result_types.iter().all(met)
        })
}

fn rust_rules(m: &Module, target: &TargetCapabilities) -> bool {
    everywhere(m, |i| verify_operation(m, m.op(i), target).is_ok())
}

fn listed(m: &Module) -> Vec<OpId> {
    let mut ids = vec![];
    everywhere(m, |i| {
        ids.push(i);
        true
    });
    ids
}

// ---- modules

// Operations of every arm that pass the Rust's requirements and rules.
fn passing_operations(r: &mut Random) -> Vec<Op> {
    let target = capabilities();
    let mut ops = vec![];
    for opcode in ARMS.iter().flat_map(|arm| arm.1.to_vec()) {
        let mut found = 0;
        while found < 8 {
            let op = near(opcode, r);
            let x = module_of(&[Op { opcode: 22, ..Op::default() }, op.clone()], 2, r);
            let m = rust_module(&x);
            // without overflow checks the Rust's products wrap, so there are none to leave i64
            let small = op.operands.iter().chain(&op.results).flat_map(|t| &t.dims).all(|d| (-65536..65536).contains(d));
            if small && x.judge() == ACCEPTED && rust_requirements(&m, &target) && rust_rules(&m, &target) {
                ops.push(op);
                found += 1;
            }
        }
    }
    ops
}

// A module of such operations, as many as asked, within the list entries.
fn mixed_module(operations: usize, from: &[Op], r: &mut Random) -> Tables {
    let entries = |op: &Op| op.operands.len() + op.results.len() + op.attributes.iter().map(|a| a.numbers.len()).sum::<usize>();
    loop {
        let mut left = operations * 11 / 4;
        let mut ops = vec![Op { opcode: 22, ..Op::default() }];
        while ops.len() < operations {
            let op = r.one_of(from);
            let share = left / (operations - ops.len());
            if entries(&op) <= share.max(1) * 2 && entries(&op) <= left {
                left -= entries(&op);
                ops.push(op);
            }
        }
        let x = module_of(&ops, operations, r);
        if x.judge() == ACCEPTED {
            return x;
        }
    }
}

// ---- timing

// `checks` is what the bench's table checks take alone; they are in its own time too. The Rust makes none, so the last ratio leaves them out.
fn told(part: &str, x: &Tables, [rust, ours, checks]: [f64; 3]) {
    let n = x.n[OPERATIONS];
    println!(
        "{part:24} {n:5} operations   Rust {:9.2} us   bench {:7.2} us, {:5.1} ns an operation   Rust/bench {:6.2}   table checks {:7.2} us, without them {:6.2}",
        rust * 1e6, ours * 1e6, ours * 1e9 / n as f64, rust / ours, checks * 1e6, rust / (ours - checks)
    );
}

fn checked(x: &Tables) -> bool {
    bench::tables(black_box(x)) == ACCEPTED
}

fn scope(x: &Tables) {
    let m = rust_module(x);
    let dominance = times([&mut || m.verify_dominance().is_ok(), &mut || bench::dominance(black_box(x)) == ACCEPTED, &mut || checked(x)]);
    told("dominance", x, dominance);
    let sheet = shared::sheet::empty();
    let (mut numbers, mut lengths) = (vec![0; 8192], vec![0; 64]);
    let mut ours = || bench::numbering(black_box(x), &sheet, &mut numbers, &mut lengths) == ACCEPTED;
    let numbering = times([&mut || m.verify_bytecode_indices().is_ok(), &mut ours, &mut || checked(x)]);
    told("numbering", x, numbering);
    told("dominance and numbering", x, [0, 1, 2].map(|k| dominance[k] + numbering[k]));
}

fn requirements_and_rules(x: &Tables) {
    let (m, target) = (rust_module(x), capabilities());
    let mut ours = || bench::requirements(black_box(x), 4, SM) == ACCEPTED;
    told("requirements", x, times([&mut || rust_requirements(&m, &target), &mut ours, &mut || checked(x)]));
    let sheet = shared::sheet::of_the_crate();
    let mut ours = || bench::rules(black_box(x), 4, SM, &sheet) == ACCEPTED;
    told("operation rules", x, times([&mut || rust_rules(&m, &target), &mut ours, &mut || checked(x)]));
    // The Rust without its walk; the bench's is in its table checks, so the ratio to read is the last.
    let ids = listed(&m);
    let mut rust = || ids.iter().all(|i| verify_operation(&m, m.op(*i), &target).is_ok());
    told("rules, Rust has a list", x, times([&mut rust, &mut ours, &mut || checked(x)]));
}

// All of the Rust's functions, in the order of the full check.
fn rust_verdict(m: &Module, target: &TargetCapabilities) -> bool {
    m.verify_dominance().is_ok() && m.verify_bytecode_indices().is_ok() && rust_requirements(m, target) && rust_rules(m, target)
}

// Tables to verdict and text to verdict: the full check, and the Rust's functions with the parse of `oracle` before them.
fn verdicts(x: &Tables) {
    let (text, target) = (x.text(4, SM), capabilities());
    assert!(text.len() <= 65536, "the text is within its limit");
    let m = rust_module(x);
    let sheet = shared::sheet::empty();
    let (mut numbers, mut lengths) = (vec![0; 8192], vec![0; 64]);
    let mut ours = || bench::all(black_box(x), 4, SM, &sheet, &mut numbers, &mut lengths) == ACCEPTED;
    told("tables to verdict", x, times([&mut || rust_verdict(&m, &target), &mut ours, &mut || checked(x)]));
    let cells = |k: usize| SIZES[k] as usize * WIDTHS[k];
    let (mut t, mut v, mut l) = (vec![0; cells(TYPES)], vec![0; cells(VALUES)], vec![0; 8192]);
    let [mut o, mut a, mut b, mut r, mut f] = [OPERATIONS, ATTRIBUTES, BLOCKS, REGIONS, FUNCTIONS].map(|k| vec![0; cells(k)]);
    let mut read = vec![0; 320];
    let mut ours = || {
        let mut answer = [1; 3];
        bench::check_texts(
            b"sheet\t1\n", black_box(text.as_bytes()), &mut t, &mut v, &mut o, &mut a, &mut b, &mut r, &mut f, &mut l, &mut read,
            &mut numbers, &mut lengths, &mut answer,
        );
        answer == ACCEPTED
    };
    let mut rust = || rust_verdict(&parse_module(black_box(text.as_bytes())).unwrap().module, &target);
    told("text to verdict", x, times([&mut rust, &mut ours, &mut || checked(x)]));
}

fn main() {
    let mut r = cases::seeded(1);
    println!("nested at most 32 deep, one result and mostly one operand an operation:");
    for operations in [10, 100, 128, 1000, 2048] {
        verdicts(&nested(operations, 32.min(operations / 3), 1, &mut r));
    }
    println!("nested 32 deep, two results and mostly one operand an operation:");
    for operations in [100, 128, 256, 512, 1024, 2048] {
        scope(&nested_module(operations, 32, &mut r));
    }
    println!("operations of every arm, with their attributes:");
    let ops = passing_operations(&mut r);
    for operations in [100, 2048] {
        requirements_and_rules(&mixed_module(operations, &ops, &mut r));
    }
}
