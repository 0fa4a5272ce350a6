//! Shims of the expression types that the two files name; most variants are never made.

pub(crate) use minterm_iter::MintermIter;
use polars_core::prelude::Series;
use polars_core::scalar::Scalar;
use polars_utils::arena::Node;
use polars_utils::pl_str::PlSmallStr;

#[path = "../../../../docs/src/src/plans/aexpr/filter_constraint.rs"]
pub(crate) mod filter_constraint;
#[path = "../../../../docs/src/src/plans/aexpr/minterm_iter.rs"]
mod minterm_iter;

/// The gate, open: it never blocks.
pub mod properties {
    use super::AExpr;
    use polars_utils::arena::Arena;
    pub enum ExprPushdownGroup {
        Pushable,
    }
    impl ExprPushdownGroup {
        pub fn update_with_expr_rec(&mut self, _: &AExpr, _: &Arena<AExpr>, _: Option<()>) {}
        pub fn blocks_pushdown(&self, _maintain_errors: bool) -> bool {
            false
        }
    }
}

#[derive(Clone, Copy, PartialEq, Eq, Debug)]
#[repr(u8)]
pub enum Operator {
    Eq, EqValidity, NotEq, NotEqValidity, Lt, LtEq, Gt, GtEq, Plus, Minus, Multiply,
    RustDivide, TrueDivide, FloorDivide, Modulus, And, Or, Xor, LogicalAnd, LogicalOr,
}

impl Operator {
    pub const ALL: [Operator; 20] = {
        use Operator::*;
        [
            Eq, EqValidity, NotEq, NotEqValidity, Lt, LtEq, Gt, GtEq, Plus, Minus, Multiply,
            RustDivide, TrueDivide, FloorDivide, Modulus, And, Or, Xor, LogicalAnd, LogicalOr,
        ]
    };

    pub fn is_null_propagating_comparison(&self) -> bool {
        matches!(
            self,
            Self::Eq | Self::NotEq | Self::Lt | Self::LtEq | Self::Gt | Self::GtEq
        )
    }

    pub fn swap_operands(self) -> Option<Self> {
        Some(match self {
            Self::Lt => Self::Gt,
            Self::Gt => Self::Lt,
            Self::LtEq => Self::GtEq,
            Self::GtEq => Self::LtEq,
            Self::Minus
            | Self::RustDivide
            | Self::TrueDivide
            | Self::FloorDivide
            | Self::Modulus => return None,
            same => same,
        })
    }

    pub fn negate(self) -> Option<Self> {
        Some(match self {
            Self::Eq => Self::NotEq,
            Self::NotEq => Self::Eq,
            Self::Lt => Self::GtEq,
            Self::LtEq => Self::Gt,
            Self::Gt => Self::LtEq,
            Self::GtEq => Self::Lt,
            Self::EqValidity => Self::NotEqValidity,
            Self::NotEqValidity => Self::EqValidity,
            _ => return None,
        })
    }
}

pub enum LiteralValue {
    Scalar(Scalar),
    Series(Series),
}
impl From<Scalar> for LiteralValue {
    fn from(s: Scalar) -> Self {
        LiteralValue::Scalar(s)
    }
}

pub enum IRBooleanFunction {
    Not,
    IsNull,
    IsNotNull,
    IsBetween { closed: crate::prelude::ClosedInterval },
    IsIn { nulls_equal: bool },
    IsNan,
}
pub enum IRFunctionExpr {
    Boolean(IRBooleanFunction),
    Other,
}
pub struct ExprIR(pub Node);
impl ExprIR {
    pub fn node(&self) -> Node {
        self.0
    }
}

pub enum AExpr {
    Element,
    Explode {},
    Column(PlSmallStr),
    Literal(LiteralValue),
    BinaryExpr { left: Node, op: Operator, right: Node },
    Cast {},
    Sort {},
    Gather {},
    SortBy {},
    Filter {},
    Agg(()),
    Ternary {},
    AnonymousAgg {},
    AnonymousFunction {},
    Eval {},
    Function { input: Vec<ExprIR>, function: IRFunctionExpr, options: () },
    Over {},
    Slice {},
    Len,
}
