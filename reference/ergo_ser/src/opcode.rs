//! Expressions: constants, unparsed trees, and operations with their payloads.

use crate::sigma_type::SigmaType;
use crate::sigma_value::SigmaValue;

#[derive(Clone, PartialEq, Eq, Debug)]
pub enum Expr {
    Const { tpe: SigmaType, val: SigmaValue },
    Unparsed(UnparsedErgoTree),
    Op(IrNode),
}

#[derive(Clone, PartialEq, Eq, Debug)]
pub struct UnparsedErgoTree {
    pub bytes: Vec<u8>,
    /// The number of the failed rule and its arguments; a forest has no place for them.
    pub validation_error: Option<(u16, Vec<u8>)>,
}

#[derive(Clone, PartialEq, Eq, Debug)]
pub struct IrNode {
    pub opcode: u8,
    pub payload: Payload,
}

/// Every variant that the pass matches. `FunDef` has no shape in document 01 and is never made.
#[derive(Clone, PartialEq, Eq, Debug)]
pub enum Payload {
    Zero,
    One(Box<Expr>),
    Two(Box<Expr>, Box<Expr>),
    Three(Box<Expr>, Box<Expr>, Box<Expr>),
    Four(Box<Expr>, Box<Expr>, Box<Expr>, Box<Expr>),
    ValUse {
        id: u32,
    },
    ConstPlaceholder {
        index: u32,
    },
    TaggedVar {
        id: u32,
        tpe: Option<SigmaType>,
    },
    ValDef {
        id: u32,
        tpe: Option<SigmaType>,
        rhs: Box<Expr>,
    },
    FunDef {
        id: u32,
        tpe: Option<SigmaType>,
        tpe_args: Vec<SigmaType>,
        rhs: Box<Expr>,
    },
    BlockValue {
        items: Vec<Expr>,
        result: Box<Expr>,
    },
    FuncValue {
        args: Vec<(u32, Option<SigmaType>)>,
        body: Box<Expr>,
    },
    MethodCall {
        type_id: u8,
        method_id: u8,
        obj: Box<Expr>,
        args: Vec<Expr>,
        type_args: Vec<SigmaType>,
    },
    ConcreteCollection {
        elem_type: SigmaType,
        items: Vec<Expr>,
    },
    BoolCollection {
        bits: Vec<bool>,
    },
    Tuple {
        items: Vec<Expr>,
    },
    SelectField {
        input: Box<Expr>,
        field_idx: u8,
    },
    ExtractRegisterAs {
        input: Box<Expr>,
        reg_id: u8,
        tpe: SigmaType,
    },
    GetVar {
        var_id: u8,
        tpe: SigmaType,
    },
    DeserializeContext {
        id: u8,
        tpe: SigmaType,
    },
    DeserializeRegister {
        reg_id: u8,
        tpe: SigmaType,
        default: Option<Box<Expr>>,
    },
    SigmaCollection {
        items: Vec<Expr>,
    },
    NoneValue {
        tpe: SigmaType,
    },
    ByIndex {
        input: Box<Expr>,
        index: Box<Expr>,
        default: Option<Box<Expr>>,
    },
    NumericCast {
        input: Box<Expr>,
        tpe: SigmaType,
    },
    FuncApply {
        func: Box<Expr>,
        args: Vec<Expr>,
    },
}
