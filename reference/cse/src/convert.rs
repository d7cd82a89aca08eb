//! Trees to the expressions that the pass takes, and back, for each of the 27 shapes.

use ergo_ser::opcode::{Expr, IrNode, Payload, UnparsedErgoTree};
use ergo_ser::sigma_type::SigmaType;
use ergo_ser::sigma_value::SigmaValue;

use crate::forest::{constant_aux, Record, Tree};

/// The expression of an accepted tree.
///
/// # Panics
///
/// If a record does not fit its shape, which check 4 refuses.
pub fn to_expr(tree: &Tree) -> Expr {
    let record = &tree.record;
    let mut literal = Literal(&record.literal);
    let mut children = tree.children.iter().map(to_expr);
    let mut child = || Box::new(children.next().expect("check 4 has counted the children"));
    let payload = match record.shape {
        0 => {
            return Expr::Const {
                tpe: SigmaType::of_class(record.class()).expect("a class is below 7"),
                val: SigmaValue {
                    bytes: record.literal.clone(),
                    mark: record.mark(),
                },
            }
        }
        1 => {
            return Expr::Unparsed(UnparsedErgoTree {
                bytes: record.literal.clone(),
                validation_error: None,
            })
        }
        2 => Payload::Zero,
        3 => Payload::One(child()),
        4 => Payload::Two(child(), child()),
        5 => Payload::Three(child(), child(), child()),
        6 => Payload::Four(child(), child(), child(), child()),
        7 => Payload::ValUse { id: literal.id() },
        8 => Payload::ConstPlaceholder {
            index: literal.id(),
        },
        9 => Payload::TaggedVar {
            id: literal.id(),
            tpe: literal.opt(),
        },
        10 => Payload::ValDef {
            id: literal.id(),
            tpe: literal.opt(),
            rhs: child(),
        },
        11 => {
            let mut items: Vec<Expr> = children.collect();
            let result = items.pop().expect("check 4 has counted the children");
            Payload::BlockValue {
                items,
                result: Box::new(result),
            }
        }
        12 => Payload::FuncValue {
            args: (0..record.aux)
                .map(|_| (literal.id(), literal.opt()))
                .collect(),
            body: child(),
        },
        13 => {
            let (type_id, method_id, count) = (literal.byte(), literal.byte(), literal.byte());
            Payload::MethodCall {
                type_id,
                method_id,
                obj: child(),
                args: children.collect(),
                type_args: (0..count).map(|_| literal.tpe()).collect(),
            }
        }
        14 => Payload::ConcreteCollection {
            elem_type: literal.tpe(),
            items: children.collect(),
        },
        15 => Payload::BoolCollection {
            bits: record.literal.iter().map(|&byte| byte == 1).collect(),
        },
        16 => Payload::Tuple {
            items: children.collect(),
        },
        17 => Payload::SelectField {
            input: child(),
            field_idx: literal.byte(),
        },
        18 => Payload::ExtractRegisterAs {
            input: child(),
            reg_id: literal.byte(),
            tpe: literal.tpe(),
        },
        19 => Payload::GetVar {
            var_id: literal.byte(),
            tpe: literal.tpe(),
        },
        20 => Payload::DeserializeContext {
            id: literal.byte(),
            tpe: literal.tpe(),
        },
        21 => Payload::DeserializeRegister {
            reg_id: literal.byte(),
            tpe: literal.tpe(),
            default: children.next().map(Box::new),
        },
        22 => Payload::SigmaCollection {
            items: children.collect(),
        },
        23 => Payload::NoneValue { tpe: literal.tpe() },
        24 => Payload::ByIndex {
            input: child(),
            index: child(),
            default: children.next().map(Box::new),
        },
        25 => Payload::NumericCast {
            input: child(),
            tpe: literal.tpe(),
        },
        26 => Payload::FuncApply {
            func: child(),
            args: children.collect(),
        },
        shape => panic!("check 4 has refused shape {shape}"),
    };
    Expr::Op(IrNode {
        opcode: record.opcode,
        payload,
    })
}

/// A reader of the parts of a literal that check 4 has accepted.
struct Literal<'a>(&'a [u8]);

impl Literal<'_> {
    fn bytes(&mut self, count: usize) -> &[u8] {
        let (taken, rest) = self.0.split_at(count);
        self.0 = rest;
        taken
    }

    fn byte(&mut self) -> u8 {
        self.bytes(1)[0]
    }

    fn id(&mut self) -> u32 {
        let bytes = self.bytes(4);
        u32::from_le_bytes([bytes[0], bytes[1], bytes[2], bytes[3]])
    }

    fn tpe(&mut self) -> SigmaType {
        let length = usize::from(self.byte());
        SigmaType::Opaque(self.bytes(length).to_vec())
    }

    fn opt(&mut self) -> Option<SigmaType> {
        (self.byte() == 1).then(|| self.tpe())
    }
}

/// The tree of an expression: `to_expr` backwards. A definition that the pass writes has no type,
/// so its literal is the id and a 0.
///
/// # Panics
///
/// On `FunDef`, which has no shape and which the pass never makes; on an unparsed tree with a
/// validation error, or a scalar type inside a literal, which `to_expr` never makes.
pub fn to_tree(expr: &Expr) -> Tree {
    match expr {
        Expr::Const { tpe, val } => {
            let aux = constant_aux(tpe.class(), val.mark);
            leaf(0, 0, aux, val.bytes.clone())
        }
        Expr::Unparsed(tree) => {
            assert!(tree.validation_error.is_none(), "no place for an error");
            leaf(1, 0, 0, tree.bytes.clone())
        }
        Expr::Op(node) => {
            let (shape, aux, literal, children) = parts(&node.payload);
            Tree {
                record: Record {
                    shape,
                    opcode: node.opcode,
                    aux,
                    literal,
                },
                children: children.into_iter().map(to_tree).collect(),
            }
        }
    }
}

fn leaf(shape: u8, opcode: u8, aux: u8, literal: Vec<u8>) -> Tree {
    Tree {
        record: Record {
            shape,
            opcode,
            aux,
            literal,
        },
        children: Vec::new(),
    }
}

/// A payload's shape, aux, literal and children.
fn parts(payload: &Payload) -> (u8, u8, Vec<u8>, Vec<&Expr>) {
    let mut aux = 0;
    let mut literal = Vec::new();
    let (shape, children): (u8, Vec<&Expr>) = match payload {
        Payload::Zero => (2, vec![]),
        Payload::One(a) => (3, vec![a]),
        Payload::Two(a, b) => (4, vec![a, b]),
        Payload::Three(a, b, c) => (5, vec![a, b, c]),
        Payload::Four(a, b, c, d) => (6, vec![a, b, c, d]),
        Payload::ValUse { id } => {
            literal.extend(id.to_le_bytes());
            (7, vec![])
        }
        Payload::ConstPlaceholder { index } => {
            literal.extend(index.to_le_bytes());
            (8, vec![])
        }
        Payload::TaggedVar { id, tpe } => {
            literal.extend(id.to_le_bytes());
            put_opt(&mut literal, tpe);
            (9, vec![])
        }
        Payload::ValDef { id, tpe, rhs } => {
            literal.extend(id.to_le_bytes());
            put_opt(&mut literal, tpe);
            (10, vec![rhs])
        }
        Payload::FunDef { .. } => unreachable!("FunDef has no shape"),
        Payload::BlockValue { items, result } => {
            (11, items.iter().chain([result.as_ref()]).collect())
        }
        Payload::FuncValue { args, body } => {
            aux = args.len() as u8;
            for (id, tpe) in args {
                literal.extend(id.to_le_bytes());
                put_opt(&mut literal, tpe);
            }
            (12, vec![body])
        }
        Payload::MethodCall {
            type_id,
            method_id,
            obj,
            args,
            type_args,
        } => {
            literal.extend([*type_id, *method_id, type_args.len() as u8]);
            for tpe in type_args {
                put_type(&mut literal, tpe);
            }
            (13, [obj.as_ref()].into_iter().chain(args).collect())
        }
        Payload::ConcreteCollection { elem_type, items } => {
            put_type(&mut literal, elem_type);
            (14, items.iter().collect())
        }
        Payload::BoolCollection { bits } => {
            literal.extend(bits.iter().map(|&bit| u8::from(bit)));
            (15, vec![])
        }
        Payload::Tuple { items } => (16, items.iter().collect()),
        Payload::SelectField { input, field_idx } => {
            literal.push(*field_idx);
            (17, vec![input])
        }
        Payload::ExtractRegisterAs { input, reg_id, tpe } => {
            literal.push(*reg_id);
            put_type(&mut literal, tpe);
            (18, vec![input])
        }
        Payload::GetVar { var_id, tpe } => {
            literal.push(*var_id);
            put_type(&mut literal, tpe);
            (19, vec![])
        }
        Payload::DeserializeContext { id, tpe } => {
            literal.push(*id);
            put_type(&mut literal, tpe);
            (20, vec![])
        }
        Payload::DeserializeRegister {
            reg_id,
            tpe,
            default,
        } => {
            literal.push(*reg_id);
            put_type(&mut literal, tpe);
            (21, default.as_deref().into_iter().collect())
        }
        Payload::SigmaCollection { items } => (22, items.iter().collect()),
        Payload::NoneValue { tpe } => {
            put_type(&mut literal, tpe);
            (23, vec![])
        }
        Payload::ByIndex {
            input,
            index,
            default,
        } => {
            let operands = [input.as_ref(), index.as_ref()];
            (24, operands.into_iter().chain(default.as_deref()).collect())
        }
        Payload::NumericCast { input, tpe } => {
            put_type(&mut literal, tpe);
            (25, vec![input])
        }
        Payload::FuncApply { func, args } => {
            (26, [func.as_ref()].into_iter().chain(args).collect())
        }
    };
    (shape, aux, literal, children)
}

fn put_type(literal: &mut Vec<u8>, tpe: &SigmaType) {
    let SigmaType::Opaque(bytes) = tpe else {
        unreachable!("a type inside a literal is opaque");
    };
    literal.push(bytes.len() as u8);
    literal.extend(bytes);
}

fn put_opt(literal: &mut Vec<u8>, tpe: &Option<SigmaType>) {
    match tpe {
        Some(tpe) => {
            literal.push(1);
            put_type(literal, tpe);
        }
        None => literal.push(0),
    }
}
