//! The unmodified Rust (oracle/polars) over shims, its gate open, on document 01's records.

#[allow(dead_code)]
pub mod aexpr;
pub mod c;

pub mod prelude {
    #[derive(Clone, Copy, PartialEq, Debug)]
    pub enum ClosedInterval {
        Both,
        Left,
        Right,
        None,
    }
}

use aexpr::*;
use polars_core::prelude::{AnyValue, DataType, Series, Symbol};
use polars_core::scalar::Scalar;
use polars_utils::arena::{Arena, Node};
use polars_utils::pl_str::PlSmallStr;
use prelude::ClosedInterval;

#[derive(Clone, PartialEq, Debug)]
pub enum Outcome {
    Unchanged,
    NothingPasses,
    Rewritten { root: usize, added: Vec<[u8; 16]> },
}

fn word(r: &[u8], at: usize) -> usize {
    u32::from_le_bytes(r[at..at + 4].try_into().unwrap()) as usize
}

/// The values of lists, and the bytes of symbols.
#[derive(Clone, Copy)]
pub struct Pools<'a> {
    pub values: &'a [i64],
    pub text: &'a [u8],
}

fn symbol(v: i64, text: &[u8]) -> AnyValue {
    let (start, length) = (v as u32, (v as u64 >> 32) as usize);
    AnyValue::String(Symbol { bytes: text[start as usize..start as usize + length].to_vec(), start })
}

fn scalar(ty: u8, v: Option<i64>, text: &[u8]) -> Scalar {
    let dtype = [DataType::Int64, DataType::Date, DataType::Boolean, DataType::String][ty as usize - 1].clone();
    let value = v.map_or(AnyValue::Null, |v| match ty {
        1 => AnyValue::Int64(v),
        2 => AnyValue::Date(v as i32),
        3 => AnyValue::Boolean(v != 0),
        4 => symbol(v, text),
        _ => unreachable!("type"),
    });
    Scalar::new(dtype, value)
}

fn function(inputs: &[usize], f: IRBooleanFunction) -> AExpr {
    AExpr::Function {
        input: inputs.iter().map(|&i| ExprIR(Node(i))).collect(),
        function: IRFunctionExpr::Boolean(f),
        options: (),
    }
}

fn node(r: &[u8], pools: Pools) -> AExpr {
    let (a, b, c) = (word(r, 4), word(r, 8), word(r, 12));
    match r[0] {
        1 => AExpr::Column(PlSmallStr(a as u32)),
        2 => AExpr::Literal(scalar(r[2], Some(i64::from_le_bytes(r[8..16].try_into().unwrap())), pools.text).into()),
        3 => AExpr::Literal(scalar(r[2], None, pools.text).into()),
        4 => AExpr::BinaryExpr { left: Node(a), op: Operator::ALL[r[1] as usize], right: Node(b) },
        5 => function(&[a], IRBooleanFunction::Not),
        6 => function(&[a], IRBooleanFunction::IsNull),
        7 => function(&[a], IRBooleanFunction::IsNotNull),
        8 => {
            use ClosedInterval::*;
            let closed = [Both, Left, Right, None][r[1] as usize];
            function(&[a, b, c], IRBooleanFunction::IsBetween { closed })
        }
        9 => {
            let members = pools.values[a..a + b].iter().map(|&v| Some(v)).chain((r[1] == 1).then_some(None));
            let values: Vec<_> = members.map(|v| scalar(r[2], v, pools.text)).collect();
            let dtype = scalar(r[2], None, pools.text).dtype().clone();
            let series = Series { dtype: dtype.clone(), values: values.iter().map(|s| s.as_any_value()).collect() };
            AExpr::Literal(Scalar::new(DataType::List(Box::new(dtype)), AnyValue::List(series)).into())
        }
        10 => function(&[a, b], IRBooleanFunction::IsIn { nulls_equal: r[1] == 1 }),
        _ => unreachable!("kind"),
    }
}

/// The documented difference, had from the unmodified Rust. On a column that a conjunct requires null,
/// the values of a negated is_in matter only as a value constraint (any other constraint there makes
/// the column impossible by itself), so such a conjunct with nulls_equal is given as a plain opaque node.
fn apply_difference(arena: &mut Arena<AExpr>, root: usize) {
    use IRBooleanFunction as B;
    let conjuncts: Vec<Node> = MintermIter::new(Node(root), arena).collect();
    let boolean = |n: Node| match arena.get(n) {
        AExpr::Function { input, function: IRFunctionExpr::Boolean(f), .. } => Some((input[0].0, f)),
        _ => None,
    };
    let column = |n: Node| match arena.get(n) {
        AExpr::Column(c) => Some(c.clone()),
        _ => None,
    };
    let null: Vec<PlSmallStr> = conjuncts
        .iter()
        .filter_map(|&n| match boolean(n)? {
            (x, B::IsNull) => column(x),
            (x, B::Not) => match boolean(x)? {
                (y, B::IsNotNull) => column(y),
                _ => None,
            },
            _ => None,
        })
        .collect();
    let lenient: Vec<Node> = conjuncts
        .iter()
        .copied()
        .filter(|&n| match boolean(n) {
            Some((x, B::Not)) => match boolean(x) {
                Some((y, B::IsIn { nulls_equal: true })) => column(y).is_some_and(|c| null.contains(&c)),
                _ => false,
            },
            _ => false,
        })
        .collect();
    for n in lenient {
        arena.0[n.0] = AExpr::Len;
    }
}

fn record(ae: &AExpr) -> [u8; 16] {
    let mut r = [0; 16];
    match ae {
        AExpr::Column(PlSmallStr(c)) => {
            r[0] = 1;
            r[4..8].copy_from_slice(&c.to_le_bytes());
        }
        AExpr::Literal(LiteralValue::Scalar(s)) => {
            let (ty, v) = match s.value() {
                AnyValue::Int64(v) => (1, *v),
                AnyValue::Date(v) => (2, *v as i64),
                AnyValue::Boolean(v) => (3, *v as i64),
                AnyValue::String(v) => (4, (v.start as u64 | (v.bytes.len() as u64) << 32) as i64),
                v => unreachable!("added literal {v:?}"),
            };
            r[0] = 2;
            r[2] = ty;
            r[8..16].copy_from_slice(&v.to_le_bytes());
        }
        AExpr::BinaryExpr { left, op, right } => {
            r[0] = 4;
            r[1] = *op as u8;
            r[4..8].copy_from_slice(&(left.0 as u32).to_le_bytes());
            r[8..12].copy_from_slice(&(right.0 as u32).to_le_bytes());
        }
        _ => unreachable!("added node"),
    }
    r
}

/// `records` holds the used records of a checked screen.
pub fn rewrite(records: &[u8], pools: Pools, root: usize, difference: bool) -> Outcome {
    let used = records.len() / 16;
    let mut arena = prepare(records, pools);
    if difference {
        apply_difference(&mut arena, root);
    }
    match filter_constraint::merge_filter_constraints(Node(root), false, &mut arena) {
        None => {
            assert_eq!(arena.0.len(), used, "unchanged, yet nodes added");
            Outcome::Unchanged
        }
        Some(Node(n)) => {
            let added: Vec<_> = arena.0[used..].iter().map(record).collect();
            match arena.get(Node(n)) {
                AExpr::Literal(_) => {
                    assert!(n == used && added.len() == 1, "false literal is the one node added");
                    let mut want = [0; 16];
                    (want[0], want[2]) = (2, 3);
                    assert_eq!(added[0], want);
                    Outcome::NothingPasses
                }
                _ => Outcome::Rewritten { root: n, added },
            }
        }
    }
}

/// How many rounds `propagate_equalities` makes of a checked screen that has an equality; 0 if it is not called. Behind
/// the conjuncts stands one more, the equality of two columns that no screen has: it changes nothing, and is asked for
/// once a round.
pub fn passes(records: &[u8], pools: Pools, root: usize) -> u64 {
    let mut arena = prepare(records, pools);
    let n = arena.0.len();
    arena.0.push(AExpr::Column(PlSmallStr(64)));
    arena.0.push(AExpr::Column(PlSmallStr(65)));
    arena.0.push(AExpr::BinaryExpr { left: Node(n), op: Operator::Eq, right: Node(n + 1) });
    arena.0.push(AExpr::BinaryExpr { left: Node(root), op: Operator::And, right: Node(n + 2) });
    polars_utils::aliases::take_calls_for_last_two();
    merge(&mut arena, n + 3);
    polars_utils::aliases::take_calls_for_last_two()
}

/// For timing: the arena once, then the merging alone.
pub fn prepare(records: &[u8], pools: Pools) -> Arena<AExpr> {
    Arena(records.chunks_exact(16).map(|r| node(r, pools)).collect::<Vec<_>>())
}

pub fn merge(arena: &mut Arena<AExpr>, root: usize) -> Option<usize> {
    filter_constraint::merge_filter_constraints(Node(root), false, arena).map(|n| n.0)
}
