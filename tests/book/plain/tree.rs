//! What a line says, as a tree. Roles stand in it by name.

pub type Name = Vec<u8>;

/// An act is zero to four role names.
pub type Act = Vec<Name>;

/// An item is that role, or with `below` that role or one below it.
#[derive(Clone, Debug)]
pub struct Item {
    pub role: Name,
    pub below: bool,
}

/// A simple pattern; `rest` when `*` stands last.
#[derive(Clone, Debug)]
pub struct Simple {
    pub items: Vec<Item>,
    pub rest: bool,
}

/// A pattern is a condition too: a simple pattern alone is its smallest case.
#[derive(Clone, Debug)]
pub enum Condition {
    Simple(Simple),
    Not(Box<Condition>),
    Or(Vec<Condition>),
}

#[derive(Clone, Debug)]
pub enum Past {
    Pattern(Condition),
    Empty,
    Side(Vec<Past>),
    Either(Vec<Past>),
    Star(Box<Past>),
}

/// A slot is a role name, or a place in the act, 1 to 4.
#[derive(Clone, Debug)]
pub enum Slot {
    Role(Name),
    Place(usize),
}

pub type Template = Vec<Slot>;

#[derive(Clone, Debug)]
pub enum Response {
    Pass,
    Hold,
    Send(Template),
    Anew(Template),
}

#[derive(Clone, Debug)]
pub struct RuleLine {
    pub name: Name,
    pub past: Past,
    pub trigger: Condition,
    pub response: Response,
}

#[derive(Clone, Debug)]
pub enum Line {
    Role { name: Name, parent: Name },
    Rule(RuleLine),
}
