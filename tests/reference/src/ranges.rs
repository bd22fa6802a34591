//! Range parts, E_sym's and E_wire's digits, and the range class.

use crate::values::exactly;

/// Reads a range value: "Values are three digits" (else 10); one that isn't served is 12.
pub fn value(bytes: &[u8], served: impl Fn(i64) -> bool) -> Result<i64, u8> {
    let number = exactly(bytes, 3).ok_or(10)?;
    if !served(number) {
        return Err(12);
    }
    Ok(number)
}

/// "B_sym, arc, S_base: 000 or 001."
pub fn none_or_one(number: i64) -> bool {
    number <= 1
}

/// "air, pipe, E_cirno: 000."
pub fn none(number: i64) -> bool {
    number == 0
}

/// `base=001:{`
pub fn one(number: i64) -> bool {
    number == 1
}

/// "E_sym: 000 to 005, 011 to 015."
pub fn e_sym(number: i64) -> bool {
    (0..=5).contains(&number) || (11..=15).contains(&number)
}

/// "S_elec: 000 to 002."
pub fn s_elec(number: i64) -> bool {
    number <= 2
}

/// Which values of E_wire are served: 000, and those with a last digit from 1 whose digits are none of them above these. Any other is 12.
#[derive(Clone, Copy, Debug, PartialEq, Eq)]
pub struct ServedWires {
    pub first: i64,
    pub middle: i64,
    pub last: i64,
}

/// What the product serves: the one place to change where another is asked. Questions and answers go by it.
pub const SERVED: ServedWires = ServedWires::ALL;

impl ServedWires {
    /// 000 alone: no last digit is from 1 to 0.
    pub const NONE: ServedWires = ServedWires { first: 0, middle: 0, last: 0 };

    /// "The first digit 0 to 4", "serial at middle digit 1", "last digit 1 to 8"
    pub const ALL: ServedWires = ServedWires { first: 4, middle: 1, last: 8 };

    pub fn serve(self, e_wire: i64) -> bool {
        let Digits { last, middle } = Digits::of(e_wire);
        e_wire == 0 || (e_wire / 100 <= self.first && middle <= self.middle && (1..=self.last).contains(&last))
    }
}

/// The parts of `range`. "Any other of the six not written counts as 000", but stays unwritten in the fixed form.
#[derive(Clone, Debug, Default)]
pub struct Ranges {
    pub b_sym: i64,
    pub arc: Option<i64>,
    pub elec: Option<i64>,
    pub e_sym: i64,
    pub e_wire: i64,
    pub air: Option<i64>,
    pub pipe: Option<i64>,
    pub sym: Option<i64>,
    pub s_base: i64,
    pub s_elec: i64,
}

impl Ranges {
    pub fn arc(&self) -> i64 {
        self.arc.unwrap_or(0)
    }

    pub fn elec(&self) -> i64 {
        self.elec.unwrap_or(0)
    }

    pub fn sym(&self) -> i64 {
        self.sym.unwrap_or(0)
    }

    pub fn e_sym_digits(&self) -> Digits {
        Digits::of(self.e_sym)
    }

    /// E_wire's last two digits, which are those that a wire part is compared with.
    pub fn e_wire_digits(&self) -> Digits {
        Digits::of(self.e_wire)
    }

    /// "The first digit 0 to 4 says how elements join."
    pub fn joining(&self) -> i64 {
        self.e_wire / 100
    }
}

/// What a placed symbol may have beside `symbol`.
#[derive(Clone, Copy, Debug, PartialEq, Eq)]
pub enum Attribute {
    Text,
    Hight,
    Pos,
    Circuit,
    Serial,
}

impl Attribute {
    pub const ALL: [Attribute; 5] = [Attribute::Text, Attribute::Hight, Attribute::Pos, Attribute::Circuit, Attribute::Serial];

    pub fn key(self) -> &'static [u8] {
        match self {
            Attribute::Text => b"text",
            Attribute::Hight => b"hight",
            Attribute::Pos => b"pos",
            Attribute::Circuit => b"circuit",
            Attribute::Serial => b"serial",
        }
    }

    pub fn from_key(key: &[u8]) -> Option<Attribute> {
        Attribute::ALL.into_iter().find(|attribute| attribute.key() == key)
    }
}

/// What a wire may have beside its lines and arcs, in the order of the fixed form.
#[derive(Clone, Copy, Debug, PartialEq, Eq)]
pub enum WireAttribute {
    Direc,
    Piend,
    Num,
    Text,
    Length,
    Circuit,
    Power,
    Serial,
}

impl WireAttribute {
    pub const ALL: [WireAttribute; 8] = [
        WireAttribute::Direc,
        WireAttribute::Piend,
        WireAttribute::Num,
        WireAttribute::Text,
        WireAttribute::Length,
        WireAttribute::Circuit,
        WireAttribute::Power,
        WireAttribute::Serial,
    ];

    pub fn key(self) -> &'static [u8] {
        match self {
            WireAttribute::Direc => b"direc",
            WireAttribute::Piend => b"piend",
            WireAttribute::Num => b"num",
            WireAttribute::Text => b"text",
            WireAttribute::Length => b"length",
            WireAttribute::Circuit => b"circuit",
            WireAttribute::Power => b"power",
            WireAttribute::Serial => b"serial",
        }
    }

    pub fn from_key(key: &[u8]) -> Option<WireAttribute> {
        WireAttribute::ALL.into_iter().find(|attribute| attribute.key() == key)
    }

    /// May stand several times, and may be missing; the others stand exactly once (000: `0 ~ 2` and `0 ~`, against `0 ~ 1`).
    pub fn repeats(self) -> bool {
        matches!(self, WireAttribute::Direc | WireAttribute::Piend | WireAttribute::Num | WireAttribute::Text)
    }
}

/// "Digits count one by one": the last and the middle digit, of E_sym, of E_wire, of a class or of a wire part.
#[derive(Clone, Copy, Debug, PartialEq, Eq)]
pub struct Digits {
    pub last: i64,
    pub middle: i64,
}

impl Digits {
    pub fn of(number: i64) -> Digits {
        Digits { last: number % 10, middle: number / 10 % 10 }
    }

    /// "Last digit 2 or more: `text`; 3: `hight`; 4: `pos`; 5: `circuit`. Middle digit 1: `serial`."
    pub fn allow(self, attribute: Attribute) -> bool {
        match attribute {
            Attribute::Text => self.last >= 2,
            Attribute::Hight => self.last >= 3,
            Attribute::Pos => self.last >= 4,
            Attribute::Circuit => self.last >= 5,
            Attribute::Serial => self.middle == 1,
        }
    }

    /// "`direc`, `piend`, `num`, `text`, `length`, `circuit`, `power` one by one as the last digit goes from 2 to 8, and `serial` at middle
    /// digit 1"
    pub fn allow_in_wire(self, attribute: WireAttribute) -> bool {
        match attribute {
            WireAttribute::Direc => self.last >= 2,
            WireAttribute::Piend => self.last >= 3,
            WireAttribute::Num => self.last >= 4,
            WireAttribute::Text => self.last >= 5,
            WireAttribute::Length => self.last >= 6,
            WireAttribute::Circuit => self.last >= 7,
            WireAttribute::Power => self.last >= 8,
            WireAttribute::Serial => self.middle == 1,
        }
    }

    /// "when a digit of E_sym exceeds the class's"
    pub fn exceed(self, class: Digits) -> bool {
        self.last > class.last || self.middle > class.middle
    }
}

/// A class as it is asked for: its number and its wire part, which needn't be those of any class.
#[derive(Clone, Copy, Debug, PartialEq, Eq)]
pub struct Asked {
    pub class: u8,
    pub wire: u8,
}

/// "Class 15 in demand 2, the rewriter and the program has wire part 18."
pub const HIGHEST_ASKED: Asked = asked(15, 18);

pub const fn asked(class: u8, wire: u8) -> Asked {
    Asked { class, wire }
}

/// A range class: "1 to 5 or 11 to 15, last and middle digit as above", and "a wire part of the same two digits, 1 to 8 or 11 to 18, or 0".
#[derive(Clone, Copy, Debug, PartialEq, Eq)]
pub struct Class {
    symbols: Digits,
    wires: Digits,
}

impl Class {
    pub const HIGHEST: Class = Class { symbols: Digits { last: 5, middle: 1 }, wires: Digits { last: 8, middle: 1 } };

    /// "any other is 1"
    pub fn of(asked: Asked) -> Option<Class> {
        let class = matches!(asked.class, 1..=5 | 11..=15);
        let wire_part = matches!(asked.wire, 0..=8 | 11..=18);
        (class && wire_part).then(|| Class { symbols: Digits::of(asked.class as i64), wires: Digits::of(asked.wire as i64) })
    }

    /// The digits that are compared with E_sym's.
    pub fn digits(self) -> Digits {
        self.symbols
    }

    /// The digits that are compared with E_wire's last two.
    pub fn wire_digits(self) -> Digits {
        self.wires
    }

    pub fn knows(self, attribute: Attribute) -> bool {
        self.symbols.allow(attribute)
    }

    pub fn knows_in_wire(self, attribute: WireAttribute) -> bool {
        self.wires.allow_in_wire(attribute)
    }

    /// "A class with 0 skips whole wires."
    pub fn reads_wires(self) -> bool {
        self.wires != Digits::of(0)
    }
}
