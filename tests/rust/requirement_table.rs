// How crates/requirement_table/stdout was made: built inside the runnable Rust (cutile-ir 0.4.0, unchanged), and what it prints.
// Every requirement, feature and verdict below is the Rust's own; only the layout of the lines is ours.
use cutile_ir::bytecode::BytecodeVersion;
use cutile_ir::capabilities::TargetCapabilities;
use cutile_ir::ir::{Attribute, Bounded, DivBy, Location, SameElements, ScalarType, Type};
use cutile_ir::requirements::{
    attribute_feature, opcode_requirement, scalar_requirement, target_requirement, Architecture, Feature, Requirement, OPCODES,
    TARGETS,
};

const VERSIONS: [BytecodeVersion; 3] = [BytecodeVersion::V13_2, BytecodeVersion::V13_3, BytecodeVersion::V13_4];

const NAMES: [&str; 14] = [
    "any other name", "rounding_mode", "saturating", "inbounds", "fast_acc", "producer", "permutation", "mode",
    "memory_ordering_semantics", "memory_scope", "num_elem", "alignment", "operandSegmentSizes", "flush_to_zero",
];

fn requirement(r: Requirement) -> String {
    let minor = 2 + VERSIONS.iter().position(|v| *v == r.since).unwrap();
    match r.architecture {
        Architecture::Any => format!("13.{minor}\tany"),
        Architecture::AtLeast(sm) => format!("13.{minor}\tat least {sm}"),
        Architecture::Only(sm) => format!("13.{minor}\tonly {sm}"),
    }
}

fn letter(r: Requirement, version: BytecodeVersion, sm: u32) -> char {
    let target = TargetCapabilities::new(version, format!("sm_{sm}"));
    if r.check(&target, "f", &Location::Unknown).is_ok() {
        '+'
    } else if target.require_version("f", r.since, &Location::Unknown).is_err() {
        'v'
    } else {
        'a'
    }
}

// The attribute of a form with one number; a bool is 0 or 1.
fn attribute(form: usize, n: i64) -> Option<Attribute> {
    let i64_type = || Type::Scalar(ScalarType::I64);
    let flag = (n < 2).then_some(n == 1);
    Some(match form {
        0 => Attribute::Integer(n, i64_type()),
        1 => Attribute::Bool(flag?),
        2 => Attribute::Array(vec![Attribute::Integer(n, i64_type())]),
        3 => Attribute::Array(vec![Attribute::Bool(false), Attribute::Bool(flag?)]),
        4 => Attribute::DenseI32Array(vec![n as i32]),
        5 => Attribute::DivBy(DivBy { divisor: n as u64, every: None, along: None }),
        6 => Attribute::SameElements(SameElements { values: vec![n] }),
        7 => Attribute::Bounded(Bounded { lb: Some(n), ub: None }),
        _ => Attribute::String("x".into()),
    })
}

fn main() {
    for (k, feature) in Feature::ALL.iter().enumerate() {
        let r = feature.requirement();
        let verdicts = VERSIONS.map(|v| TARGETS.iter().map(|(sm, _)| letter(r, v, *sm)).collect::<String>());
        println!("feature\t{k}\t{}\t{}", requirement(r), verdicts.join("\t"));
    }
    for sm in 0..140 {
        println!("target\t{sm}\t{}", target_requirement(sm).map_or("none".into(), requirement));
    }
    for (k, op) in OPCODES.iter().enumerate() {
        println!("opcode\t{k}\t{}", requirement(opcode_requirement(*op)));
    }
    use ScalarType::*;
    let kinds = [I1, I4, I8, I16, I32, I64, F16, BF16, F32, TF32, F64, F8E4M3FN, F8E5M2, F8E8M0FNU, F4E2M1FN, F8E5M3FNU];
    for (k, kind) in kinds.iter().enumerate() {
        println!("kind\t{k}\t{}", requirement(scalar_requirement(*kind)));
    }
    for op in [0, 23] {
        for (name, text) in NAMES.iter().enumerate() {
            for form in 0..9 {
                for n in 0..8 {
                    let Some(a) = attribute(form, n) else { continue };
                    let asked = attribute_feature(OPCODES[op], text, &a)
                        .map_or("none".into(), |f| Feature::ALL.iter().position(|g| *g == f).unwrap().to_string());
                    println!("attribute\t{op}\t{name}\t{form}\t{n}\t{asked}");
                }
            }
        }
    }
}
