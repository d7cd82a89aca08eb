//! From trees to text.

use super::{block, definition, lambda, value_use, MAX_ARGUMENTS, WORDS};
use crate::forest::Tree;

/// What is still to be printed, the next part last.
enum Part<'a> {
    Tree(&'a Tree),
    Text(&'static str),
    Binding(u32),
}

/// Adds a tree's text; `None` when a record is outside the notation.
pub(super) fn print_tree(tree: &Tree, out: &mut String) -> Option<()> {
    let mut parts = vec![Part::Tree(tree)];
    while let Some(part) = parts.pop() {
        match part {
            Part::Text(text) => out.push_str(text),
            Part::Binding(id) => out.push_str(&format!("{id}=")),
            Part::Tree(tree) => {
                let mut next = begin(tree, out)?;
                next.reverse();
                parts.append(&mut next);
            }
        }
    }
    Some(())
}

/// Prints a tree's beginning and gives what follows.
fn begin<'a>(tree: &'a Tree, out: &mut String) -> Option<Vec<Part<'a>>> {
    let mut next = Vec::new();
    if let Some(word) = WORDS.iter().find(|word| word.stands_for(tree)) {
        out.push_str(word.name);
        let mark = tree.record.mark();
        if word.is_constant() && mark > 0 {
            out.push_str(&format!(":{mark}"));
        }
        if word.operands == Some(0) {
            return Some(next);
        }
        next.push(Part::Text("("));
        for (i, child) in tree.children.iter().enumerate() {
            if i > 0 {
                next.push(Part::Text(","));
            }
            next.push(Part::Tree(child));
        }
        next.push(Part::Text(")"));
        return Some(next);
    }
    let ids = untyped_ids(&tree.record.literal);
    match (tree.record.shape, &tree.children[..]) {
        (7, []) => {
            let id = u32::from_le_bytes(tree.record.literal[..].try_into().ok()?);
            out.push_str(&id.to_string());
            (tree.record == value_use(id)).then_some(next)
        }
        (11, [definitions @ .., result]) if tree.record == block() => {
            next.push(Part::Text("{"));
            for child in definitions {
                let (&[id], [value]) = (
                    &untyped_ids(&child.record.literal)?[..],
                    &child.children[..],
                ) else {
                    return None;
                };
                if child.record != definition(id) {
                    return None;
                }
                next.extend([Part::Binding(id), Part::Tree(value), Part::Text("; ")]);
            }
            next.extend([Part::Tree(result), Part::Text("}")]);
            Some(next)
        }
        (12, [body]) => {
            let ids = ids?;
            if ids.len() > MAX_ARGUMENTS || tree.record != lambda(&ids) {
                return None;
            }
            let names: Vec<String> = ids.iter().map(u32::to_string).collect();
            out.push_str(&format!("L{}.", names.join(",")));
            next.push(Part::Tree(body));
            Some(next)
        }
        _ => None,
    }
}

/// The ids of a literal that holds only ids without types.
fn untyped_ids(literal: &[u8]) -> Option<Vec<u32>> {
    literal
        .chunks(5)
        .map(|chunk| match *chunk {
            [a, b, c, d, 0] => Some(u32::from_le_bytes([a, b, c, d])),
            _ => None,
        })
        .collect()
}
