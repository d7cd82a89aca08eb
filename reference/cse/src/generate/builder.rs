//! Random trees, built from the root down so that each record stands where it may.

use super::literals::{long_bytes, Literals};
use super::plants::{names, Plants};
use super::profile::{Form, Profile, MOST};
use super::records::*;
use super::room::Room;
use super::{Kind, Rng};
use crate::forest::{Forest, Tree};

struct Builder {
    rng: Rng,
    profile: Profile,
    literals: Literals,
    /// The ids in force where the next record stands.
    in_force: Vec<u32>,
    /// Those of them that have no use yet.
    unused: Vec<u32>,
    plants: Plants,
    leaves: Vec<Tree>,
}

/// A forest of one of the kinds that need no counting.
pub(super) fn forest(mut rng: Rng, kind: Kind) -> Forest {
    let profile = Profile::of(kind);
    let room = Room {
        records: records(&mut rng, &profile),
        depth: upper(&mut rng, profile.depth),
        scopes: upper(&mut rng, profile.scopes),
    };
    let many = rng.range(3, 14);
    let environment = match rng.chance(profile.environment) {
        true => rng.weighted(&[(1, 40), (2, 20), (many, 25), (15, 15)]),
        false => 0,
    };
    let mut builder = Builder {
        rng,
        profile,
        literals: Literals::new(),
        in_force: Vec::new(),
        unused: Vec::new(),
        plants: Plants::default(),
        leaves: Vec::new(),
    };
    let most = match kind {
        Kind::Wide => room.records - 1,
        _ => room.records / 4,
    };
    builder.forest(room, environment.min(most))
}

/// How many records there is room for.
fn records(rng: &mut Rng, profile: &Profile) -> usize {
    // Other kinds draw nothing here, so that their seeds keep their forests.
    match profile.large > 0 && rng.chance(profile.large) {
        true => upper(rng, (profile.records.1, MOST)),
        false => upper(rng, profile.records),
    }
}

/// A number from the range, often the highest: limits deserve to be met.
fn upper(rng: &mut Rng, (low, high): (usize, usize)) -> usize {
    match rng.chance(30) {
        true => high,
        false => rng.range(low, high),
    }
}

impl Builder {
    fn forest(&mut self, room: Room, environment: usize) -> Forest {
        let mut trees = Vec::new();
        let mut left = room.records;
        for _ in 0..environment {
            // Half of the records for the environment, so that the root has a part too.
            let most = (room.records / environment / 2).clamp(1, 12);
            let records = self.rng.range(1, most);
            let tree = self.tree(room.records(records));
            left -= tree.size();
            trees.push(tree);
        }
        let room = room.records(left);
        let root = match self.rng.chance(self.profile.filled) {
            true => self.filled(room),
            false => self.tree(room),
        };
        trees.push(root);
        Forest { trees }
    }

    fn tree(&mut self, room: Room) -> Tree {
        if room.records == 1 || room.depth == 1 {
            return self.leaf();
        }
        if self.rng.chance(self.profile.copies) {
            let planted = self.plants.pick(&mut self.rng, &self.in_force, |tree| {
                tree.size() <= room.records
                    && tree.depth() <= room.depth
                    && nested_scopes(tree) <= room.scopes
            });
            if let Some(tree) = planted.filter(|tree| self.literals.afford(long_bytes(tree))) {
                return tree;
            }
        }
        let form = self.form(room);
        let tree = self.compound(form, room);
        self.plants.keep(&mut self.rng, &tree);
        tree
    }

    /// A root that takes up all the records it may: children are added until none is left.
    fn filled(&mut self, room: Room) -> Tree {
        if room.records == 1 || room.depth == 1 {
            return self.leaf();
        }
        let (shape, literal) = match self.rng.below(5) {
            0 => (CONCRETE_COLLECTION, self.literals.of_type(&mut self.rng)),
            1 => (SIGMA_COLLECTION, Vec::new()),
            2 => (METHOD_CALL, self.literals.method(&mut self.rng)),
            3 => (FUNC_APPLY, Vec::new()),
            _ => (TUPLE, Vec::new()),
        };
        let most = self.rng.pick(&[1, 3, 10, 40]);
        let inside = room.inside();
        let mut children: Vec<Tree> = Vec::new();
        let mut left = inside.records;
        while left > 0 {
            let share = self.rng.range(1, most.min(left));
            let child = match self.twin(&children, inside.records(share)) {
                Some(twin) => twin,
                None => self.tree(inside.records(share)),
            };
            left -= child.size();
            children.push(child);
        }
        tree(shape, self.rng.pick(opcodes(shape)), literal, children)
    }

    /// A form that fits: enough records for its operands, and a scope left if it opens one.
    fn form(&mut self, room: Room) -> Form {
        let operands = room.records - 1;
        let forms: Vec<(Form, usize)> = self
            .profile
            .forms
            .iter()
            .filter(|(form, _)| form.least_operands() <= operands)
            .filter(|(form, _)| !form.opens_scope() || room.scopes > 0)
            .copied()
            .collect();
        self.rng.weighted(&forms)
    }

    fn compound(&mut self, form: Form, room: Room) -> Tree {
        let inside = room.inside();
        let (shape, opcode, literal, count) = match form {
            Form::Block => return self.block(room),
            Form::Lambda => return self.lambda(room),
            Form::Select => return self.select(room),
            Form::One => (ONE, self.rng.pick(opcodes(ONE)), Vec::new(), 1),
            Form::Two => (TWO, self.rng.pick(&[0x9A, 0x9A, 0x91, 0xF4]), Vec::new(), 2),
            Form::AndOr => (TWO, self.rng.pick(&[BIN_AND, BIN_OR]), Vec::new(), 2),
            Form::If => (THREE, IF, Vec::new(), 3),
            Form::Three => (THREE, 0xB4, Vec::new(), 3),
            Form::Four => (FOUR, 0xCE, Vec::new(), 4),
            Form::MethodCall => {
                let literal = self.literals.method(&mut self.rng);
                let count = self.child_count(inside);
                (METHOD_CALL, self.rng.pick(&[0xDC, 0xDB]), literal, count)
            }
            Form::Collection => {
                let literal = self.literals.of_type(&mut self.rng);
                (CONCRETE_COLLECTION, 0x83, literal, self.child_count(inside))
            }
            Form::Tuple => (TUPLE, 0x86, Vec::new(), self.child_count(inside)),
            Form::Sigma => {
                let opcode = self.rng.pick(opcodes(SIGMA_COLLECTION));
                (
                    SIGMA_COLLECTION,
                    opcode,
                    Vec::new(),
                    self.child_count(inside),
                )
            }
            Form::Apply => (FUNC_APPLY, 0xDA, Vec::new(), self.child_count(inside)),
            Form::ExtractRegister => {
                let literal = self.literals.byte_and_type(&mut self.rng);
                (EXTRACT_REGISTER_AS, 0xC6, literal, 1)
            }
            Form::DeserializeRegister => {
                let literal = self.literals.byte_and_type(&mut self.rng);
                (DESERIALIZE_REGISTER, 0xD5, literal, 1)
            }
            Form::ByIndex => {
                let count = self.rng.range(2, inside.records.min(3));
                (BY_INDEX, 0xB2, Vec::new(), count)
            }
            Form::Cast => {
                let literal = self.literals.of_type(&mut self.rng);
                (
                    NUMERIC_CAST,
                    self.rng.pick(opcodes(NUMERIC_CAST)),
                    literal,
                    1,
                )
            }
        };
        let mut tree = tree(shape, opcode, literal, Vec::new());
        for i in 0..count {
            let mut inside = inside;
            if opens_scope(&tree.record, i) {
                inside = inside.scope();
            }
            let child = self.child(&tree.children, count, inside);
            tree.children.push(child);
        }
        tree
    }

    /// How many children a record with a free count gets; one without any is made as a leaf.
    fn child_count(&mut self, inside: Room) -> usize {
        self.rng.range(1, inside.records.min(self.profile.children))
    }

    /// The next of `count` children; `inside` is the room for all of them.
    fn child(&mut self, earlier: &[Tree], count: usize, inside: Room) -> Tree {
        let used: usize = earlier.iter().map(Tree::size).sum();
        let later = count - earlier.len() - 1;
        let most = inside.records - used - later;
        let share = match later {
            0 => most,
            _ if self.rng.chance(self.profile.spine) => match self.rng.chance(50) {
                true => most,
                false => 1,
            },
            _ => self
                .rng
                .range(1, most.min(2 * inside.records / count).max(1)),
        };
        let room = inside.records(share);
        match self.twin(earlier, inside.records(most)) {
            Some(twin) => twin,
            None => self.tree(room),
        }
    }

    /// At times, a copy of an earlier child of the same record: what is in force is the same.
    fn twin(&mut self, earlier: &[Tree], room: Room) -> Option<Tree> {
        if earlier.is_empty() || !self.rng.chance(self.profile.twins) {
            return None;
        }
        let tree = self.rng.pick(earlier);
        let fits = tree.size() <= room.records
            && nested_scopes(&tree) <= room.scopes
            && self.literals.afford(long_bytes(&tree));
        fits.then_some(tree)
    }

    fn block(&mut self, room: Room) -> Tree {
        let outer = self.in_force.len();
        let mut inside = room.inside();
        let mut definitions: Vec<Tree> = Vec::new();
        // A definition needs two records and two levels. The result gets a third of the records, so
        // that it can use what is defined; or nearly all or none, for depth.
        let result = match self.rng.chance(self.profile.spine) {
            true => self.rng.pick(&[1, inside.records.saturating_sub(4).max(1)]),
            false => inside.records.div_ceil(3),
        };
        let most = match inside.depth {
            1 => 0,
            _ => ((inside.records - result) / 2).min(self.profile.children),
        };
        let count = match most {
            0 => 0,
            _ if self.rng.chance(5) => 0,
            _ => self.rng.range(1, most),
        };
        for i in 0..count {
            let later = 2 * (count - i - 1) + result;
            let most = inside.records - later;
            let share = match self.rng.chance(self.profile.spine) {
                true => most,
                false => self
                    .rng
                    .range(2, most.min(2 * inside.records / (count - i)).max(2)),
            };
            let value = self.tree(inside.records(share).inside());
            // The id is chosen after the value, which may have bound the same one inside.
            let id = match self.inner_id(&value) {
                Some(id) => id,
                None => self.new_id(&[]),
            };
            let opt = self.literals.opt(&mut self.rng);
            inside.records -= 1 + value.size();
            definitions.push(definition(id, &opt, value));
            self.bind(id);
        }
        let result = self.tree(inside);
        self.release(outer);
        block(definitions, result)
    }

    /// At times, an id that is bound inside the value: allowed, as it is in force there no more.
    fn inner_id(&mut self, value: &Tree) -> Option<u32> {
        if !self.rng.chance(15) {
            return None;
        }
        let (_, bound) = names(value);
        let free: Vec<u32> = bound
            .into_iter()
            .filter(|id| !self.in_force.contains(id))
            .collect();
        (!free.is_empty()).then(|| self.rng.pick(&free))
    }

    fn lambda(&mut self, room: Room) -> Tree {
        let some = self.rng.range(5, 14);
        let count =
            self.rng
                .weighted(&[(0, 8), (1, 50), (2, 20), (3, 8), (4, 4), (some, 6), (15, 4)]);
        let outer = self.in_force.len();
        let mut ids = Vec::new();
        for _ in 0..count {
            let id = self.new_id(&ids);
            ids.push(id);
        }
        let arguments: Vec<(u32, Opt)> = ids
            .iter()
            .map(|id| (*id, self.literals.opt(&mut self.rng)))
            .collect();
        for id in ids {
            self.bind(id);
        }
        let body = self.tree(room.inside().scope());
        self.release(outer);
        lambda(&arguments, body)
    }

    fn select(&mut self, room: Room) -> Tree {
        let field = self
            .rng
            .weighted(&[(1, 45), (2, 35), (0, 8), (3, 9), (4, 2), (255, 1)]);
        let inside = room.inside();
        let tuple = inside.records > 1 && inside.depth > 1 && self.rng.chance(self.profile.tuples);
        let input = match tuple {
            true => self.compound(Form::Tuple, inside),
            false => self.tree(inside),
        };
        select(field, input)
    }

    /// An id that is not in force and not among `taken`; mostly small, so that siblings share them.
    fn new_id(&mut self, taken: &[u32]) -> u32 {
        let odd = [0, 200, 256, 0xFFFF, 0x0001_0000, 0x0403_0201, u32::MAX];
        let mut id = match self.rng.chance(8) {
            true => self.rng.pick(&odd),
            false => self.rng.range(1, 9) as u32,
        };
        while self.in_force.contains(&id) || taken.contains(&id) {
            id = id.wrapping_add(1);
        }
        id
    }

    fn leaf(&mut self) -> Tree {
        if !self.in_force.is_empty() && self.rng.chance(self.profile.uses) {
            return self.use_one();
        }
        if !self.leaves.is_empty() && self.rng.chance(self.profile.same_leaves) {
            let leaf = self.rng.pick(&self.leaves);
            if self.literals.afford(long_bytes(&leaf)) {
                return leaf;
            }
        }
        let leaf = self.literals.leaf(&mut self.rng);
        self.leaves.push(leaf.clone());
        leaf
    }

    fn bind(&mut self, id: u32) {
        self.in_force.push(id);
        self.unused.push(id);
    }

    /// Ends what was bound since there were so many ids in force.
    fn release(&mut self, outer: usize) {
        let ended = self.in_force.split_off(outer);
        self.unused.retain(|id| !ended.contains(id));
    }

    /// A use, mostly of an id that is not used yet: what is never used is never written.
    fn use_one(&mut self) -> Tree {
        if self.unused.is_empty() || self.rng.chance(40) {
            return value_use(self.rng.pick(&self.in_force));
        }
        let id = self.unused.swap_remove(self.rng.below(self.unused.len()));
        value_use(id)
    }
}
