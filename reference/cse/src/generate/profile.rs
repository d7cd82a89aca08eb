//! What each kind of forest is made of.

use super::Kind;

/// A record with children, as the builder makes it.
#[derive(Clone, Copy, PartialEq, Eq, Debug)]
pub(super) enum Form {
    One,
    Two,
    AndOr,
    If,
    Three,
    Four,
    Block,
    Lambda,
    MethodCall,
    Collection,
    Tuple,
    Select,
    ExtractRegister,
    DeserializeRegister,
    Sigma,
    ByIndex,
    Cast,
    Apply,
}

impl Form {
    pub(super) fn least_operands(self) -> usize {
        match self {
            Form::Two | Form::AndOr | Form::ByIndex => 2,
            // A block without definitions is legal, but says little.
            Form::If | Form::Three | Form::Block => 3,
            Form::Four => 4,
            _ => 1,
        }
    }

    pub(super) fn opens_scope(self) -> bool {
        matches!(self, Form::AndOr | Form::If | Form::Lambda)
    }
}

/// Every form and how often it comes in a mixed forest.
const MIXED: [(Form, usize); 18] = [
    (Form::One, 10),
    (Form::Two, 16),
    (Form::AndOr, 8),
    (Form::If, 9),
    (Form::Three, 3),
    (Form::Four, 2),
    (Form::Block, 12),
    (Form::Lambda, 9),
    (Form::MethodCall, 4),
    (Form::Collection, 4),
    (Form::Tuple, 5),
    (Form::Select, 9),
    (Form::ExtractRegister, 3),
    (Form::DeserializeRegister, 2),
    (Form::Sigma, 3),
    (Form::ByIndex, 4),
    (Form::Cast, 3),
    (Form::Apply, 4),
];

/// No accepted forest has more records.
pub(super) const MOST: usize = 256;

/// Ranges from the lowest to the highest number; shares in percent.
pub(super) struct Profile {
    pub(super) records: (usize, usize),
    /// Forests of up to [`MOST`] records, whatever the range.
    pub(super) large: usize,
    pub(super) depth: (usize, usize),
    pub(super) scopes: (usize, usize),
    /// Forests with environment trees.
    pub(super) environment: usize,
    /// Subtrees that are copies of earlier ones.
    pub(super) copies: usize,
    /// Children that are copies of an earlier child of their parent.
    pub(super) twins: usize,
    /// Leaves that are uses, where an id is in force.
    pub(super) uses: usize,
    /// Other leaves that are copies of earlier ones.
    pub(super) same_leaves: usize,
    /// Records that give nearly all their room to one child, which makes trees deep.
    pub(super) spine: usize,
    /// Roots that use up all records.
    pub(super) filled: usize,
    /// Fields taken from a tuple that stands right there.
    pub(super) tuples: usize,
    /// The most children of a record with a free count.
    pub(super) children: usize,
    pub(super) forms: Vec<(Form, usize)>,
}

impl Profile {
    pub(super) fn of(kind: Kind) -> Profile {
        let mixed = Profile {
            records: (1, 12),
            large: 0,
            depth: (8, 20),
            scopes: (2, 8),
            environment: 30,
            copies: 25,
            twins: 25,
            uses: 60,
            same_leaves: 60,
            spine: 15,
            filled: 0,
            tuples: 25,
            children: 4,
            forms: MIXED.to_vec(),
        };
        match kind {
            Kind::Medium => Profile {
                records: (10, 60),
                ..mixed
            },
            Kind::Large => Profile {
                records: (100, 256),
                depth: (12, 30),
                filled: 60,
                ..mixed
            },
            Kind::Deep => Profile {
                records: (180, 256),
                depth: (50, 64),
                scopes: (4, 12),
                copies: 1,
                twins: 3,
                spine: 97,
                children: 2,
                ..mixed
            },
            Kind::Wide => Profile {
                records: (60, 256),
                depth: (3, 10),
                environment: 60,
                filled: 60,
                children: 255,
                forms: mixed.with(&[(Form::Collection, 12), (Form::Sigma, 12), (Form::Apply, 12)]),
                ..mixed
            },
            Kind::Thunks => Profile {
                records: (8, 90),
                depth: (12, 30),
                scopes: (6, 12),
                copies: 30,
                twins: 40,
                spine: 35,
                forms: mixed.with(&[(Form::If, 40), (Form::AndOr, 40), (Form::Select, 20)]),
                ..mixed
            },
            Kind::Lambdas => Profile {
                records: (8, 90),
                scopes: (4, 12),
                copies: 30,
                twins: 35,
                uses: 75,
                forms: mixed.with(&[(Form::Lambda, 60), (Form::Apply, 15), (Form::Two, 30)]),
                ..mixed
            },
            Kind::Projections => Profile {
                records: (6, 80),
                copies: 30,
                twins: 45,
                forms: mixed.with(&[(Form::Select, 80), (Form::If, 20), (Form::AndOr, 20)]),
                ..mixed
            },
            Kind::Blocks => Profile {
                records: (6, 100),
                copies: 30,
                twins: 35,
                uses: 85,
                forms: mixed.with(&[(Form::Block, 35), (Form::Two, 40), (Form::If, 15)]),
                ..mixed
            },
            Kind::Scopes => Profile {
                records: (100, 256),
                depth: (40, 64),
                scopes: (20, 63),
                copies: 1,
                twins: 2,
                spine: 95,
                children: 2,
                forms: mixed.with(&[(Form::If, 80), (Form::AndOr, 150), (Form::Lambda, 150)]),
                ..mixed
            },
            Kind::Unreached => Profile {
                records: (6, 80),
                environment: 100,
                copies: 35,
                uses: 25,
                forms: mixed.with(&[(Form::Block, 35), (Form::Select, 30), (Form::Two, 30)]),
                ..mixed
            },
            Kind::Simple => Profile {
                records: (1, 60),
                large: 8,
                scopes: (4, 12),
                environment: 0,
                copies: 30,
                twins: 35,
                forms: mixed.with(&[
                    (Form::If, 30),
                    (Form::AndOr, 35),
                    (Form::Block, 25),
                    (Form::Two, 30),
                    (Form::Lambda, 0),
                    (Form::Select, 0),
                ]),
                ..mixed
            },
            // All but the first are made elsewhere, by counting.
            Kind::Small
            | Kind::NearLimit
            | Kind::Readings
            | Kind::Symbols
            | Kind::Flat
            | Kind::Savings
            | Kind::Rules
            | Kind::ManyScopes
            | Kind::OneShape => mixed,
        }
    }

    /// The forms, with other shares for some.
    fn with(&self, others: &[(Form, usize)]) -> Vec<(Form, usize)> {
        let mut forms = self.forms.clone();
        for (form, weight) in &mut forms {
            if let Some((_, other)) = others.iter().find(|(other, _)| other == form) {
                *weight = *other;
            }
        }
        forms
    }
}
