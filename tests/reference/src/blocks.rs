//! Blocks: which key may stand where, in which form, whether once, and what is required.

use crate::lines::Form;
use crate::ranges::{Attribute, Class, Ranges, WireAttribute};
use crate::spool::Text;

/// Where a line stands: the innermost open block.
#[derive(Clone, Copy, Debug, PartialEq, Eq)]
pub enum Place {
    Top,
    FileFormat,
    Range,
    Base,
    Elec,
    Sym,
    DrawingFormat,
    LayerName,
    SymbolDefine,
    /// `E_symbol` in SYMBOL_DEFINE
    Symbol,
    /// `element` of a symbol
    SymbolElement,
    Hide,
    Element,
    Layer,
    Successive,
    Text,
    /// `E_symbol` in a layer
    Placed,
    /// `E_wire` in a layer, of which the class reads something
    Wire,
    /// A skipped opener, or a block in one: its depth, "the opener being 1". A wire that is skipped whole has depth 0: "an opener directly in
    /// the wire's block has depth 1".
    Skipped(usize),
}

/// The forms that a key may have.
#[derive(Clone, Copy, Debug, PartialEq, Eq)]
pub enum Forms {
    /// `key=content`
    Content,
    /// `key=content` or `key=`
    ContentOrEmpty,
    /// `key=`
    Empty,
    /// `key:{`
    Open,
    /// `key=content:{`
    ContentOpen,
    /// elec, sym: "`=000` alone, or 001 opening (001 alone or 000 opened, 5)"
    Switch,
}

impl Forms {
    pub fn admit(self, form: &Form<'_>) -> bool {
        match (self, form) {
            (Forms::Content, Form::Content(_)) => true,
            (Forms::ContentOrEmpty, Form::Content(_) | Form::Empty) => true,
            (Forms::Empty, Form::Empty) => true,
            (Forms::Open, Form::Open) => true,
            (Forms::ContentOpen, Form::ContentOpen(_)) => true,
            (Forms::Switch, Form::Content(Text { bytes, .. })) => *bytes != b"001",
            (Forms::Switch, Form::ContentOpen(Text { bytes, .. })) => *bytes != b"000",
            _ => false,
        }
    }
}

/// What is said of a key at its place.
#[derive(Clone, Copy, Debug)]
pub struct Known {
    pub forms: Forms,
    /// Its content is free text.
    pub free: bool,
    /// "each key once": it may not repeat.
    pub once: bool,
}

#[derive(Clone, Copy, Debug)]
pub enum Permission {
    Known(Known),
    /// "key not known or not allowed here"
    NotAllowed,
    /// Not known to the class, and skipped.
    Skipped,
}

/// What decides, beside the place, which keys are known.
pub struct Circumstances<'r> {
    pub first_volume: bool,
    pub ranges: &'r Ranges,
    pub class: Class,
    /// In the innermost block stood a key that is no element of a wire.
    pub elements_over: bool,
}

fn once(forms: Forms) -> Permission {
    Permission::Known(Known { forms, free: false, once: true })
}

fn free_text(forms: Forms) -> Permission {
    Permission::Known(Known { forms, free: true, once: true })
}

fn repeating(forms: Forms) -> Permission {
    Permission::Known(Known { forms, free: false, once: false })
}

/// A key that is known only under a condition.
fn only_if(condition: bool, permission: Permission) -> Permission {
    if condition {
        permission
    } else {
        Permission::NotAllowed
    }
}

pub fn permission(place: Place, key: &[u8], here: &Circumstances<'_>) -> Permission {
    match place {
        Place::Top => match key {
            b"FILE_FORMAT" | b"DRAWING_FORMAT" | b"SYMBOL_DEFINE" | b"ELEMENT" => repeating(Forms::Open),
            _ => Permission::NotAllowed,
        },
        Place::FileFormat => only_if(here.first_volume || LATER_FILE_FORMAT.contains(&key), file_format(key)),
        Place::Range => match key {
            b"base" => once(Forms::ContentOpen),
            b"arc" | b"air" | b"pipe" => once(Forms::Content),
            b"elec" | b"sym" => once(Forms::Switch),
            _ => Permission::NotAllowed,
        },
        Place::Base => only_if(key == b"B_sym", once(Forms::Content)),
        Place::Elec => only_if(ELEC.contains(&key), once(Forms::Content)),
        Place::Sym => only_if(SYM.contains(&key), once(Forms::Content)),
        Place::DrawingFormat => match key {
            b"size" | b"scale" | b"date" => once(Forms::Content),
            b"project" | b"drawname" => free_text(Forms::Content),
            b"drawer" => free_text(Forms::ContentOrEmpty),
            // "exactly when arc is 001"
            b"floor_height" => only_if(here.ranges.arc() == 1, once(Forms::ContentOrEmpty)),
            b"layer_name" => once(Forms::Open),
            _ => Permission::NotAllowed,
        },
        // A layer declared twice is 14, not 7. "A misspelt id is 6 in `layer_name`."
        Place::LayerName => only_if(is_layer_id(key), Permission::Known(Known { forms: Forms::ContentOrEmpty, free: true, once: false })),
        Place::SymbolDefine => match key {
            b"NON" => once(Forms::Empty),
            // "one or more `E_symbol` (S_elec at least 001)"
            b"E_symbol" => only_if(here.ranges.s_elec >= 1, repeating(Forms::Open)),
            _ => Permission::NotAllowed,
        },
        Place::Symbol => match key {
            b"name" => once(Forms::Content),
            b"element" | b"hide" => once(Forms::Open),
            // "and at 002 `wall`, empty or x,y"
            b"wall" => only_if(here.ranges.s_elec == 2, once(Forms::ContentOrEmpty)),
            _ => Permission::NotAllowed,
        },
        Place::SymbolElement => figure(key),
        Place::Hide | Place::Successive => only_if(key == b"point", repeating(Forms::Content)),
        Place::Element => only_if(key == b"LAYER", repeating(Forms::ContentOpen)),
        Place::Layer => match key {
            // "At E_sym 000 none is allowed (6). At range 001 it is `E_symbol=` with these; at any other range a block."
            b"E_symbol" => match here.ranges.e_sym {
                0 => Permission::NotAllowed,
                1 => repeating(Forms::Content),
                _ => repeating(Forms::Open),
            },
            // The wire's own line is read at every wire part.
            b"E_wire" => only_if(here.ranges.e_wire != 0, repeating(Forms::Open)),
            _ => figure(key),
        },
        Place::Text => match key {
            b"type" => once(Forms::Content),
            b"character" => free_text(Forms::Content),
            _ => Permission::NotAllowed,
        },
        Place::Placed => placed(key, here),
        Place::Wire => wire(key, here),
        Place::Skipped(_) => Permission::Skipped,
    }
}

/// "Later volumes have only this_line, this_ele, next_file, date, time."
const LATER_FILE_FORMAT: [&[u8]; 5] = [b"this_line", b"this_ele", b"next_file", b"date", b"time"];
const FILE_FORMAT: [&[u8]; 16] = [
    b"range", b"all_line", b"this_line", b"all_ele", b"this_ele", b"next_file", b"date", b"time", b"cad", b"os", b"hard", b"ver", b"corp", b"make",
    b"tel", b"name",
];
const ELEC: [&[u8]; 3] = [b"E_sym", b"E_wire", b"E_cirno"];
const SYM: [&[u8]; 2] = [b"S_base", b"S_elec"];

fn file_format(key: &[u8]) -> Permission {
    match key {
        b"range" => once(Forms::Open),
        b"all_line" | b"this_line" | b"all_ele" | b"this_ele" | b"date" | b"time" => once(Forms::Content),
        b"next_file" => once(Forms::ContentOrEmpty),
        b"cad" | b"os" | b"hard" | b"ver" => free_text(Forms::Content),
        b"corp" | b"make" | b"tel" | b"name" => free_text(Forms::ContentOrEmpty),
        _ => Permission::NotAllowed,
    }
}

fn figure(key: &[u8]) -> Permission {
    match key {
        b"line" | b"circle" | b"ellipse" | b"point" => repeating(Forms::Content),
        b"successive" | b"text" => repeating(Forms::Open),
        _ => Permission::NotAllowed,
    }
}

/// A key directly in a placed symbol's block.
fn placed(key: &[u8], here: &Circumstances<'_>) -> Permission {
    if key == b"symbol" {
        return once(Forms::Content);
    }
    let e_sym = here.ranges.e_sym_digits();
    match Attribute::from_key(key) {
        // "A key the class knows and the file's E_sym doesn't allow is refused."
        Some(attribute) if here.class.knows(attribute) => only_if(e_sym.allow(attribute), attribute_of(attribute)),
        // "A key the class doesn't know is skipped when a digit of E_sym exceeds the class's, and refused otherwise."
        _ if e_sym.exceed(here.class.digits()) => Permission::Skipped,
        _ => Permission::NotAllowed,
    }
}

fn attribute_of(attribute: Attribute) -> Permission {
    match attribute {
        Attribute::Text => once(Forms::Open),
        // "signed or empty", "1 to 5 or empty", "0-10 of letters, digits, `-`, `.`"
        Attribute::Hight | Attribute::Pos | Attribute::Circuit => once(Forms::ContentOrEmpty),
        Attribute::Serial => once(Forms::Content),
    }
}

/// "lines and arcs first, nothing else before or among them"
pub fn is_wire_element(key: &[u8]) -> bool {
    key == b"line" || key == b"circle"
}

/// A key directly in a wire's block: "document 01's range class rules, with E_wire's last two digits and the wire part".
fn wire(key: &[u8], here: &Circumstances<'_>) -> Permission {
    if is_wire_element(key) {
        return only_if(!here.elements_over, repeating(Forms::Content));
    }
    let e_wire = here.ranges.e_wire_digits();
    match WireAttribute::from_key(key) {
        Some(attribute) if here.class.knows_in_wire(attribute) => only_if(e_wire.allow_in_wire(attribute), wire_attribute(attribute)),
        _ if e_wire.exceed(here.class.wire_digits()) => Permission::Skipped,
        _ => Permission::NotAllowed,
    }
}

fn wire_attribute(attribute: WireAttribute) -> Permission {
    let forms = match attribute {
        WireAttribute::Text => Forms::Open,
        WireAttribute::Length | WireAttribute::Circuit | WireAttribute::Power => Forms::ContentOrEmpty,
        WireAttribute::Direc | WireAttribute::Piend | WireAttribute::Num | WireAttribute::Serial => Forms::Content,
    };
    if attribute.repeats() {
        repeating(forms)
    } else {
        once(forms)
    }
}

/// "one of B A E P M, `_`, three digits"
pub fn is_layer_id(bytes: &[u8]) -> bool {
    matches!(bytes, [b'B' | b'A' | b'E' | b'P' | b'M', b'_', b'0'..=b'9', b'0'..=b'9', b'0'..=b'9'])
}

/// The keys without which a block may not close: "each key once, all required, unless said".
pub fn required(place: Place, here: &Circumstances<'_>) -> Vec<&'static [u8]> {
    match place {
        Place::FileFormat if here.first_volume => FILE_FORMAT.to_vec(),
        Place::FileFormat => LATER_FILE_FORMAT.to_vec(),
        // "`base` is required; any other of the six not written counts as 000."
        Place::Range => vec![b"base"],
        // "What an opened part holds is required."
        Place::Base => vec![b"B_sym"],
        Place::Elec => ELEC.to_vec(),
        Place::Sym => SYM.to_vec(),
        Place::DrawingFormat => {
            let mut keys: Vec<&[u8]> = vec![b"size", b"scale", b"project", b"drawname", b"date", b"drawer", b"layer_name"];
            if here.ranges.arc() == 1 {
                keys.push(b"floor_height");
            }
            keys
        }
        Place::Symbol => {
            let mut keys: Vec<&[u8]> = vec![b"name", b"element", b"hide"];
            if here.ranges.s_elec == 2 {
                keys.push(b"wall");
            }
            keys
        }
        Place::Text => vec![b"type", b"character"],
        Place::Placed => {
            let e_sym = here.ranges.e_sym_digits();
            // "`text`, may be missing"; "a skipped key may be missing"
            let read = Attribute::ALL.into_iter().filter(|&a| a != Attribute::Text && e_sym.allow(a) && here.class.knows(a)).map(Attribute::key);
            std::iter::once(&b"symbol"[..]).chain(read).collect()
        }
        Place::Wire => {
            let e_wire = here.ranges.e_wire_digits();
            let read = WireAttribute::ALL.into_iter().filter(|&a| !a.repeats() && e_wire.allow_in_wire(a) && here.class.knows_in_wire(a));
            read.map(WireAttribute::key).collect()
        }
        _ => Vec::new(),
    }
}

/// The fewest lines with a key that a block may close with.
pub fn fewest(place: Place) -> usize {
    match place {
        // "`element` (one or more figures)"; "`NON=` alone, or one or more `E_symbol`"
        Place::SymbolElement | Place::SymbolDefine => 1,
        // "block of 3 to 100 point"
        Place::Successive => 3,
        _ => 0,
    }
}

/// The most lines with a key that a block may have: "one item too many, at its line", is 11.
pub fn most(place: Place) -> usize {
    match place {
        // "`layer_name` with 0 to 64 lines"
        Place::LayerName => 64,
        // "block of 3 to 100 point", "`hide` (0 to 100 points)"
        Place::Successive | Place::Hide => 100,
        _ => usize::MAX,
    }
}
