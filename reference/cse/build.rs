//! Writes a copy of the pass in which `free_vars` remembers its answers: the same lists, without the time that doubles
//! with each nested thunk. The copy gives up a tree that grows too large. The files of the pass stay as they are; the
//! copy is made of them by the edits below, each of which must find its text.

use std::path::{Path, PathBuf};
use std::{env, fs};

const FILES: [&str; 6] = ["codec", "gate", "intern", "interner", "key", "materialize"];

/// The work of one list gets another name ...
const WORKED_OUT: (&str, &str) = (
    "    pub(crate) fn free_vars(&self, compound: SymId) -> Vec<SymId> {\n",
    "    pub(crate) fn free_vars_anew(&self, compound: SymId) -> Vec<SymId> {\n",
);

/// ... nothing is remembered of another forest ...
const FORGOTTEN: (&str, &str) = (
    "        let usage = self.flat_usage_reachable(root);\n",
    "        forget();\n        let usage = self.flat_usage_reachable(root);\n",
);

/// ... a record that is made is counted ...
const COUNTED: (&str, &str) = (
    "        // recursion base: an in-scope binding → ValUse (TreeBuilding.scala:498).\n",
    "        made_one();\n",
);

/// ... and a list that was worked out is given again.
const REMEMBERED: &str = "
thread_local! {
    static FREE: std::cell::RefCell<BTreeMap<SymId, Vec<SymId>>> = const { std::cell::RefCell::new(BTreeMap::new()) };
    // Records of the tree at hand.
    static MADE: std::cell::Cell<u64> = const { std::cell::Cell::new(0) };
}

fn forget() {
    FREE.with(|lists| lists.borrow_mut().clear());
    MADE.set(0);
}

// What a tree is given up with. Whatever was made up to then is part of it.
pub(crate) struct TooLarge;

fn made_one() {
    MADE.set(MADE.get() + 1);
    if MADE.get() > crate::cost::MAX_MADE {
        std::panic::resume_unwind(Box::new(TooLarge));
    }
}

impl Interner {
    pub(crate) fn free_vars(&self, compound: SymId) -> Vec<SymId> {
        let remembered = FREE.with(|lists| lists.borrow().get(&compound).cloned());
        remembered.unwrap_or_else(|| {
            let list = self.free_vars_anew(compound);
            FREE.with(|lists| lists.borrow_mut().insert(compound, list.clone()));
            list
        })
    }

    // The lengths of all symbols' free lists, summed.
    pub(crate) fn entries(&self) -> usize {
        forget();
        let symbols = (0..self.syms.len()).map(|index| SymId(index as u32));
        symbols.map(|symbol| self.free_vars(symbol).len()).sum()
    }
}
";

fn main() {
    println!("cargo:rerun-if-changed=src/cse");
    let source = Path::new("src/cse");
    let copy =
        PathBuf::from(env::var_os("OUT_DIR").expect("cargo names a folder")).join("remembering");
    fs::create_dir_all(&copy).expect("the folder can be made");
    for name in FILES {
        let mut text = read(&source.join(format!("{name}.rs")));
        if name == "materialize" {
            for edit in [WORKED_OUT, FORGOTTEN, COUNTED] {
                text = edited(&text, edit);
            }
            text += REMEMBERED;
        }
        write(&copy.join(format!("{name}.rs")), &text);
    }
    let mut root = read(&source.join("mod.rs"));
    for name in FILES {
        let inline = format!(
            "mod {name} {{ include!(concat!(env!(\"OUT_DIR\"), \"/remembering/{name}.rs\")); }}\n"
        );
        root = edited(&root, (&format!("mod {name};\n"), &inline));
    }
    root += "pub(crate) use materialize::TooLarge;\n";
    write(&copy.join("mod.rs"), &root);
}

/// An included file has no place for the comments of a module.
fn read(path: &Path) -> String {
    let text = fs::read_to_string(path).expect("the file is there");
    text.lines()
        .filter(|line| !line.starts_with("//!"))
        .map(|line| format!("{line}\n"))
        .collect()
}

fn edited(text: &str, (old, new): (&str, &str)) -> String {
    assert_eq!(text.matches(old).count(), 1, "{old}");
    text.replace(old, new)
}

fn write(path: &Path, text: &str) {
    fs::write(path, text).expect("the file can be written");
}
