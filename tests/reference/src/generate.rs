//! Sound sets from a seed: every rule and option of document 01, of the wires that are served and of circles in symbols comes up sooner or later,
//! limits reached exactly included.

mod wires;

use std::collections::HashSet;

use crate::random::Random;
use crate::ranges::{Asked, Attribute, Class, Digits, ServedWires, WireAttribute};
use crate::spool::{FINAL_BYTE, LONGEST_LINE, MARK, MOST_BYTES, NAME_BYTES};

pub type Line = Vec<u8>;

pub const CLASSES: [u8; 10] = [1, 2, 3, 4, 5, 11, 12, 13, 14, 15];
pub const WIRE_PARTS: [u8; 17] = [0, 1, 2, 3, 4, 5, 6, 7, 8, 11, 12, 13, 14, 15, 16, 17, 18];
const E_SYMS: [i64; 11] = [0, 1, 2, 3, 4, 5, 11, 12, 13, 14, 15];

/// A set as lines, before it is put together into a spool.
#[derive(Clone)]
pub struct Draft {
    /// The class at which the set is sound. At class 15 with 18 it needn't be: a lower class skips what it doesn't know.
    pub class: Asked,
    /// Which wires the set may hold.
    pub served: ServedWires,
    pub volumes: Vec<DraftVolume>,
}

#[derive(Clone)]
pub struct DraftVolume {
    pub name: Vec<u8>,
    pub lines: Vec<Line>,
}

impl Draft {
    pub fn spool(&self) -> Vec<u8> {
        let mut spool = Vec::new();
        for volume in &self.volumes {
            let mut body = Vec::new();
            for line in &volume.lines {
                body.extend(line);
                body.extend(b"\r\n");
            }
            body.push(FINAL_BYTE);
            spool.extend(MARK);
            let mut name = volume.name.clone();
            name.resize(NAME_BYTES, b' ');
            spool.extend(name);
            spool.extend((body.len() as u16).to_be_bytes());
            spool.extend(body);
        }
        spool
    }

    /// Comments and empty lines at the head of a volume, so that the spool has exactly so many bytes.
    pub fn pad(&mut self, volume: usize, bytes: usize) {
        let mut missing = bytes.saturating_sub(self.spool().len());
        while missing >= 2 {
            let mut taken = missing.min(LONGEST_LINE + 2);
            if missing - taken == 1 {
                taken -= 1;
            }
            self.volumes[volume].lines.insert(0, vec![b'#'; taken - 2]);
            missing -= taken;
        }
    }
}

/// How much a set holds.
#[derive(Clone, Copy, PartialEq, Eq)]
enum Size {
    Small,
    Middle,
    Large,
}

/// What is asked of a set before anything of it is decided.
struct Kind {
    class: Asked,
    rich: bool,
    /// E_sym and E_wire have the middle digit 1.
    numbered: bool,
    served: ServedWires,
}

/// What is decided once for a set.
struct Plan {
    class: Class,
    size: Size,
    shuffled: bool,
    decorated: bool,
    /// Symbols are defined, and placed as blocks.
    rich: bool,
    /// Placed symbols also hold what only a lower class skips.
    unread: bool,
    arc: Option<i64>,
    elec: Option<i64>,
    e_sym: i64,
    e_wire: i64,
    /// Wires also hold what only a lower wire part skips.
    unread_wires: bool,
    /// Partners are own numbers of the set.
    partners_exist: bool,
    air: bool,
    pipe: bool,
    sym: Option<i64>,
    s_elec: i64,
    layers: Vec<String>,
    symbols: Vec<String>,
    serials: HashSet<u64>,
    /// Own numbers in the order in which they came up.
    own_numbers: Vec<u64>,
}

impl Plan {
    fn new(random: &mut Random, kind: Kind) -> Plan {
        let Kind { class, rich, numbered, served } = kind;
        let part = |random: &mut Random, needed: bool| match random.below(10) {
            0 if !needed => None,
            1 if !needed => Some(0),
            _ => Some(1),
        };
        let (arc, elec, sym) = (part(random, false), part(random, rich || numbered), part(random, rich));
        let e_syms = if numbered { &E_SYMS[6..] } else { &E_SYMS[if rich { 2 } else { 0 }..] };
        let e_sym = if elec == Some(1) { *random.pick(e_syms) } else { 0 };
        let e_wire = if elec == Some(1) { wires::e_wire(random, served, numbered) } else { 0 };
        let class = Class::of(class).unwrap();
        let numbered = Digits::of(e_sym).allow(Attribute::Serial) && Digits::of(e_wire).allow_in_wire(WireAttribute::Serial);
        let tested = numbered && class.knows(Attribute::Serial) && class.knows_in_wire(WireAttribute::Serial);
        let size = match random.below(100) {
            0..=86 => Size::Small,
            87..=97 => Size::Middle,
            _ => Size::Large,
        };
        Plan {
            class,
            size,
            shuffled: random.chance(3, 4),
            decorated: random.chance(2, 3),
            rich,
            unread: e_sym > 1 && Digits::of(e_sym).exceed(class.digits()) && random.chance(1, 3),
            arc,
            elec,
            e_sym,
            e_wire,
            unread_wires: Digits::of(e_wire).exceed(class.wire_digits()) && random.chance(1, 3),
            // A class that doesn't test them takes any; the highest mostly has something to accept.
            partners_exist: tested || (numbered && random.chance(3, 4)),
            air: random.chance(1, 2),
            pipe: random.chance(1, 2),
            sym,
            s_elec: match sym {
                Some(1) if rich => *random.pick(&[1, 2]),
                Some(1) => *random.pick(&[0, 1, 1, 1, 2, 2, 2, 2]),
                _ => 0,
            },
            layers: Vec::new(),
            symbols: Vec::new(),
            serials: HashSet::new(),
            own_numbers: Vec::new(),
        }
    }

    /// Lines of groups, in another order in most sets: "Inside a block lines come in any order".
    fn any_order(&self, random: &mut Random, mut groups: Vec<Vec<Line>>) -> Vec<Line> {
        if self.shuffled {
            random.shuffle(&mut groups);
        }
        groups.concat()
    }

    fn reads(&self, attribute: Attribute) -> bool {
        Digits::of(self.e_sym).allow(attribute) && self.class.knows(attribute)
    }
}

fn entry(key: &str, content: impl AsRef<[u8]>) -> Line {
    [key.as_bytes(), b"=", content.as_ref()].concat()
}

fn block(opener: &str, lines: Vec<Line>) -> Vec<Line> {
    let mut all = vec![format!("{opener}:{{").into_bytes()];
    all.extend(lines);
    all.push(b"}".to_vec());
    all
}

/// A set that keeps every rule at its class. `rich`: with symbols, mostly placed as blocks.
pub fn sound_set(random: &mut Random, rich: bool, served: ServedWires) -> Draft {
    // Symbols and wires with serials that the class reads, so that partners are tested: seldom otherwise.
    let numbered = served.middle == 1 && random.chance(1, 4);
    let class = if numbered { wires::numbered_class(random) } else { Asked { class: *random.pick(&CLASSES), wire: wires::wire_part(random) } };
    let mut plan = Plan::new(random, Kind { class, rich, numbered, served });
    loop {
        let draft = set_of(random, &mut plan, class, served);
        if draft.spool().len() <= MOST_BYTES {
            return draft;
        }
        plan.size = Size::Small;
    }
}

fn set_of(random: &mut Random, plan: &mut Plan, class: Asked, served: ServedWires) -> Draft {
    plan.serials.clear();
    plan.own_numbers.clear();
    plan.layers = layer_ids(random, plan.size);
    plan.symbols = if plan.s_elec >= 1 && (plan.rich || random.chance(9, 10)) { symbol_names(random, plan.size) } else { Vec::new() };
    let names = volume_names(random, plan.size);
    let mut elements = elements(random, plan, names.len());
    for element in &mut elements {
        element.lines.iter_mut().for_each(|line| name_partners(random, line, &plan.own_numbers));
    }
    let counts: Vec<usize> = elements.iter().map(|element| element.keys).collect();
    let (date, time) = (date(random), time(random));
    let symbol_define = symbol_define(random, plan);
    let mut volumes = Vec::new();
    for (index, element) in elements.into_iter().enumerate() {
        let next = names.get(index + 1).map_or(Vec::new(), |next| any_case(random, next));
        let mut groups = vec![
            vec![entry("this_line", count(random))],
            vec![entry("this_ele", spelt(random, counts[index], 9))],
            vec![entry("next_file", next)],
            vec![entry("date", &date)],
            vec![entry("time", &time)],
        ];
        let mut lines;
        if index == 0 {
            groups.extend(first_header(random, plan, counts.iter().sum()));
            lines = block("FILE_FORMAT", plan.any_order(random, groups));
            lines.extend(drawing_format(random, plan));
            lines.extend(symbol_define.clone());
        } else {
            lines = block("FILE_FORMAT", plan.any_order(random, groups));
        }
        lines.extend(block("ELEMENT", element.lines));
        if index + 1 == names.len() {
            lines.push(b"EOF".to_vec());
        }
        volumes.push(DraftVolume { name: names[index].clone(), lines });
    }
    let last = volumes.len() - 1;
    if plan.decorated {
        for (index, volume) in volumes.iter_mut().enumerate() {
            decorate(random, &mut volume.lines, index == last);
        }
    }
    let mut draft = Draft { class, served, volumes };
    // "1 to 61,440 bytes", reached exactly
    if plan.size == Size::Large && random.chance(1, 12) {
        draft.pad(random.below(last + 1), MOST_BYTES);
    }
    draft
}

/// "1 to 8 of A-Z, 0-9", all different
fn volume_names(random: &mut Random, size: Size) -> Vec<Vec<u8>> {
    let most = if size == Size::Small { 3 } else { 12 };
    let count = match random.below(20) {
        0..=9 => 1,
        10..=18 => random.between(1, most),
        _ => 12,
    };
    if random.chance(1, 8) {
        // TEST1, TEST2, .. TEST10: in the order of the set, not of the names
        return (1..=count).map(|number| format!("TEST{number}").into_bytes()).collect();
    }
    let mut names: Vec<Vec<u8>> = Vec::new();
    while names.len() < count {
        let length = *random.pick(&[1, 1, 2, 5, 7, 8, 8]);
        let name = letters(random, b"ABCDEFGHIJKLMNOPQRSTUVWXYZ0123456789", length);
        if !names.contains(&name) {
            names.push(name);
        }
    }
    names
}

/// "a-z read as A-Z"
fn any_case(random: &mut Random, name: &[u8]) -> Vec<u8> {
    match random.below(4) {
        0 => name.to_ascii_lowercase(),
        1 => name.iter().map(|b| if random.chance(1, 2) { b.to_ascii_lowercase() } else { *b }).collect(),
        _ => name.to_vec(),
    }
}

fn layer_ids(random: &mut Random, size: Size) -> Vec<String> {
    let count = match (size, random.below(20)) {
        (_, 0) => 0,
        (Size::Small, _) => random.between(1, 4),
        (Size::Middle, 1..=16) => random.between(1, 12),
        (Size::Large, 1..=10) => random.between(1, 40),
        _ => 64,
    };
    let mut ids: Vec<String> = Vec::new();
    while ids.len() < count {
        let letter = *random.pick(&["B", "A", "E", "P", "M"]);
        let number = match random.below(4) {
            0 => *random.pick(&[0, 1, 151, 999]),
            _ => random.below(1000),
        };
        let id = format!("{letter}_{number:03}");
        if !ids.contains(&id) {
            ids.push(id);
        }
    }
    ids
}

fn symbol_names(random: &mut Random, size: Size) -> Vec<String> {
    let count = match size {
        Size::Small => random.between(1, 2),
        Size::Middle => random.between(1, 5),
        Size::Large => random.between(1, 12),
    };
    let mut names: Vec<String> = Vec::new();
    while names.len() < count {
        let length = *random.pick(&[1, 2, 3, 8, 31, 32]);
        let name = String::from_utf8(letters(random, b"ABCXYZabcxyz0189", length)).unwrap();
        if !names.contains(&name) {
            names.push(name);
        }
    }
    names
}

fn letters(random: &mut Random, from: &[u8], length: usize) -> Vec<u8> {
    (0..length).map(|_| *random.pick(from)).collect()
}

fn digits(random: &mut Random, length: usize) -> String {
    String::from_utf8(letters(random, b"0123456789", length)).unwrap()
}

/// A number, perhaps with needless zeros, in at most so many digits.
fn spelt(random: &mut Random, number: usize, most: usize) -> String {
    let plain = number.to_string();
    if plain.len() >= most || random.chance(3, 4) {
        return plain;
    }
    format!("{number:0width$}", width = random.between(plain.len(), most))
}

fn count(random: &mut Random) -> String {
    match random.below(6) {
        0 => "0".into(),
        1 => "999999999".into(),
        2 => "000000000".into(),
        _ => {
            let length = random.between(1, 9);
            digits(random, length)
        }
    }
}

fn date(random: &mut Random) -> String {
    let year = *random.pick(&["1997", "0000", "9999", "2024"]);
    let month = *random.pick(&["01", "02", "09", "10", "12"]);
    let day = *random.pick(&["01", "10", "29", "30", "31"]);
    format!("{year}{month}{day}")
}

fn time(random: &mut Random) -> String {
    let hour = *random.pick(&["00", "09", "19", "23"]);
    let minute = *random.pick(&["00", "30", "59"]);
    let second = *random.pick(&["00", "07", "59"]);
    format!("{hour}{minute}{second}")
}

/// Free text of a length within limits, both ends often.
fn text(random: &mut Random, least: usize, most: usize) -> Vec<u8> {
    let length = match random.below(8) {
        0 => least,
        1 => most,
        _ => random.between(least, most.min(least + 12)),
    };
    text_of(random, length)
}

/// Free text of exactly so many bytes: ASCII, half-width kana, double bytes, and what looks like a form.
pub fn text_of(random: &mut Random, length: usize) -> Vec<u8> {
    let plain = random.chance(1, 2);
    let mut bytes = Vec::with_capacity(length);
    while bytes.len() < length {
        let left = length - bytes.len();
        match random.below(8) {
            0..=4 => bytes.push(random.between(0x20, 0x7E) as u8),
            _ if plain => bytes.push(*random.pick(b"abcXYZ 0189-_.")),
            5 => bytes.push(random.between(0xA1, 0xDF) as u8),
            _ if left >= 2 => bytes.extend(double_byte(random)),
            _ => bytes.push(*random.pick(b" =:{},#")),
        }
    }
    if length >= 3 && random.chance(1, 12) && bytes[length - 3].is_ascii_graphic() && bytes[length - 2].is_ascii_graphic() {
        // `character=a:{` opens nothing.
        let whole = crate::lines::bytes_allowed(&bytes[..length - 2]);
        if whole {
            bytes[length - 2..].copy_from_slice(b":{");
        }
    }
    bytes
}

fn double_byte(random: &mut Random) -> [u8; 2] {
    let lead = match random.below(4) {
        0 => 0x81,
        1 => random.between(0x81, 0x9F) as u8,
        2 => random.between(0xE0, 0xFC) as u8,
        _ => *random.pick(&[0x9F, 0xE0, 0xFC]),
    };
    let trail = match random.below(4) {
        0 => random.between(0x40, 0x7E) as u8,
        1 => random.between(0x80, 0xFC) as u8,
        2 => *random.pick(&[0x40, 0x7E, 0x80, 0xFC]),
        _ => *random.pick(b"{}\\|"),
    };
    [lead, trail]
}

fn ascii(random: &mut Random, most: usize) -> Vec<u8> {
    let length = *random.pick(&[1, 2, 5, most - 1, most]);
    (0..length).map(|_| random.between(0x20, 0x7E) as u8).collect()
}

/// What only the first volume's FILE_FORMAT has.
fn first_header(random: &mut Random, plan: &Plan, all_ele: usize) -> Vec<Vec<Line>> {
    let tel_length = *random.pick(&[0, 1, 10, 19, 20]);
    vec![
        range(random, plan),
        vec![entry("all_line", count(random))],
        vec![entry("all_ele", spelt(random, all_ele, 9))],
        vec![entry("cad", ascii(random, 20))],
        vec![entry("os", ascii(random, 20))],
        vec![entry("hard", ascii(random, 20))],
        vec![entry("ver", ascii(random, 10))],
        vec![entry("corp", text(random, 0, 40))],
        vec![entry("make", text(random, 0, 40))],
        vec![entry("tel", letters(random, b"0123456789-()", tel_length))],
        vec![entry("name", text(random, 0, 20))],
    ]
}

fn range(random: &mut Random, plan: &Plan) -> Vec<Line> {
    let zero_or_one = |random: &mut Random| *random.pick(&["000", "001"]);
    let mut groups = vec![block("base=001", vec![entry("B_sym", zero_or_one(random))])];
    if let Some(arc) = plan.arc {
        groups.push(vec![entry("arc", format!("{arc:03}"))]);
    }
    match plan.elec {
        None => {}
        Some(0) => groups.push(vec![entry("elec", "000")]),
        Some(_) => {
            let held = vec![
                vec![entry("E_sym", format!("{:03}", plan.e_sym))],
                vec![entry("E_wire", format!("{:03}", plan.e_wire))],
                vec![entry("E_cirno", "000")],
            ];
            groups.push(block("elec=001", plan.any_order(random, held)));
        }
    }
    if plan.air {
        groups.push(vec![entry("air", "000")]);
    }
    if plan.pipe {
        groups.push(vec![entry("pipe", "000")]);
    }
    match plan.sym {
        None => {}
        Some(0) => groups.push(vec![entry("sym", "000")]),
        Some(_) => {
            let held = vec![vec![entry("S_base", zero_or_one(random))], vec![entry("S_elec", format!("{:03}", plan.s_elec))]];
            groups.push(block("sym=001", plan.any_order(random, held)));
        }
    }
    block("range", plan.any_order(random, groups))
}

fn drawing_format(random: &mut Random, plan: &Plan) -> Vec<Line> {
    let mut groups = vec![
        vec![entry("size", size(random))],
        vec![entry("scale", scale(random))],
        vec![entry("project", text(random, 1, 60))],
        vec![entry("drawname", text(random, 1, 60))],
        vec![entry("date", date(random))],
        vec![entry("drawer", text(random, 0, 20))],
    ];
    if plan.arc == Some(1) {
        let height = if random.chance(1, 3) { String::new() } else { decimal(random, Wanted::NotNegative) };
        groups.push(vec![entry("floor_height", height)]);
    }
    let names: Vec<Line> = plan.layers.iter().map(|id| entry(id, text(random, 0, 20))).collect();
    groups.push(block("layer_name", names));
    block("DRAWING_FORMAT", plan.any_order(random, groups))
}

fn size(random: &mut Random) -> String {
    if random.chance(1, 2) {
        return format!("A{}", random.below(5));
    }
    let times = *random.pick(&[4, 9, 16, 25, 36, 49, 64, 81]);
    format!("{times}A{}", random.below(2))
}

fn scale(random: &mut Random) -> String {
    let p = *random.pick(&[1, 2, 50, 99_998, 99_999]);
    if p == 99_999 || random.chance(1, 3) {
        return spelt(random, p, 9);
    }
    let q = *random.pick(&[p + 1, 99_999]);
    format!("{}/{}", spelt(random, p, 9), spelt(random, q, 9))
}

fn symbol_define(random: &mut Random, plan: &Plan) -> Vec<Line> {
    if plan.symbols.is_empty() {
        return block("SYMBOL_DEFINE", vec![entry("NON", "")]);
    }
    let symbols = plan.symbols.iter().flat_map(|name| symbol(random, plan, name)).collect();
    block("SYMBOL_DEFINE", symbols)
}

fn symbol(random: &mut Random, plan: &Plan, name: &str) -> Vec<Line> {
    let mut figures = Vec::new();
    for _ in 0..if plan.size == Size::Small { random.between(1, 2) } else { random.between(1, 5) } {
        figures.extend(figure(random, plan, true));
    }
    // "`hide` (0 to 100 points)"
    let hidden = match (plan.size, random.below(30)) {
        (_, 0..=9) => 0,
        (Size::Small, 10..=28) => random.between(1, 4),
        (Size::Small, _) => 100,
        (_, 10..=24) => random.between(1, 10),
        _ => *random.pick(&[99, 100]),
    };
    let points = (0..hidden).map(|_| point(random, true)).collect();
    let mut groups = vec![vec![entry("name", name)], block("element", figures), block("hide", points)];
    if plan.s_elec == 2 {
        let wall = if random.chance(1, 3) { String::new() } else { join([decimal(random, Wanted::AnySign), decimal(random, Wanted::AnySign)]) };
        groups.push(vec![entry("wall", wall)]);
    }
    block("E_symbol", plan.any_order(random, groups))
}

struct Element {
    lines: Vec<Line>,
    /// "keys directly in layers"
    keys: usize,
}

/// The ELEMENT of each volume: "at most once a volume for each layer, each declared layer present somewhere in the set".
fn elements(random: &mut Random, plan: &mut Plan, volumes: usize) -> Vec<Element> {
    let mut used: Vec<Vec<String>> = vec![Vec::new(); volumes];
    for id in plan.layers.clone() {
        let somewhere = random.below(volumes);
        for (index, layers) in used.iter_mut().enumerate() {
            if index == somewhere || random.chance(1, 4) {
                layers.push(id.clone());
            }
        }
    }
    let mut elements = Vec::new();
    for mut layers in used {
        random.shuffle(&mut layers);
        let mut element = Element { lines: Vec::new(), keys: 0 };
        for id in layers {
            let figures = match plan.size {
                Size::Small if volumes > 3 => random.below(2),
                Size::Small => random.below(4),
                Size::Middle => random.below(6),
                Size::Large => random.below(9),
            };
            element.keys += figures;
            let mut lines = Vec::new();
            for _ in 0..figures {
                lines.extend(figure_in_layer(random, plan));
            }
            element.lines.extend(block(&format!("LAYER={id}"), lines));
        }
        elements.push(element);
    }
    elements
}

fn figure_in_layer(random: &mut Random, plan: &mut Plan) -> Vec<Line> {
    if plan.e_wire > 0 && random.chance(1, 2) {
        return wires::wire(random, plan);
    }
    if plan.e_sym > 0 && !plan.symbols.is_empty() && random.chance(if plan.rich { 3 } else { 2 }, 4) {
        return placed_symbol(random, plan);
    }
    figure(random, plan, false)
}

#[derive(Clone, Copy)]
enum Wanted {
    AnySign,
    NotNegative,
    AboveZero,
    Angle,
    HalfAngle,
}

/// A decimal in one of its spellings: needless zeros, `-0`, both ends.
fn decimal(random: &mut Random, wanted: Wanted) -> String {
    let value = match (wanted, random.below(12)) {
        (Wanted::Angle, 0) => "0".into(),
        (Wanted::Angle, 1) => "360".into(),
        (Wanted::Angle, 2) => "359.9999".into(),
        (Wanted::Angle, 3) => "360.0000".into(),
        (Wanted::Angle, 4) => "-0".into(),
        (Wanted::Angle, 5) => "0000090.50".into(),
        (Wanted::Angle, _) => random.below(360).to_string(),
        (Wanted::HalfAngle, 0..=3) => random.pick(&["0", "180", "180.0000", "179.9999", "-0.0", "0000090.50"]).to_string(),
        (Wanted::HalfAngle, _) => random.below(180).to_string(),
        (Wanted::AboveZero, 0 | 1) => random.pick(&["0.0001", "0.5", "0.1000"]).to_string(),
        (Wanted::AnySign | Wanted::NotNegative, 0) => "-0".into(),
        (Wanted::AnySign | Wanted::NotNegative, 1) => random.pick(&["0", "-0.0000", "0.0", "0000000"]).to_string(),
        (_, 2) => "9999999.9999".into(),
        (_, 3) => format!("{}.{}", random.between(1, 100), random.pick(&["5", "50", "0500", "0001", "1200", "0000"])),
        (_, 4) => format!("{:07}", random.between(1, 100_000)),
        _ => random.between(1, 3000).to_string(),
    };
    match wanted {
        Wanted::AnySign if !value.starts_with('-') && random.chance(1, 3) => format!("-{value}"),
        _ => value,
    }
}

fn coordinate(random: &mut Random, in_symbol: bool) -> String {
    decimal(random, if in_symbol { Wanted::AnySign } else { Wanted::NotNegative })
}

fn join<const N: usize>(items: [String; N]) -> String {
    items.join(",")
}

fn figure_type(random: &mut Random) -> String {
    digits(random, 4)
}

fn flag(random: &mut Random) -> String {
    random.below(2).to_string()
}

/// Two angles that differ in value.
fn two_angles(random: &mut Random) -> (String, String) {
    loop {
        let (start, end) = (decimal(random, Wanted::Angle), decimal(random, Wanted::Angle));
        if crate::values::decimal(start.as_bytes()) != crate::values::decimal(end.as_bytes()) {
            return (start, end);
        }
    }
}

fn point(random: &mut Random, in_symbol: bool) -> Line {
    entry("point", join([figure_type(random), coordinate(random, in_symbol), coordinate(random, in_symbol)]))
}

fn figure(random: &mut Random, plan: &Plan, in_symbol: bool) -> Vec<Line> {
    match random.below(12) {
        0..=2 => vec![line(random, in_symbol)],
        // "Inside a symbol's `element`, a circle from 0 to 360 may have six values."
        3 | 4 if in_symbol && random.chance(1, 2) => vec![whole_circle(random)],
        3 | 4 => vec![circle(random)],
        5 | 6 => vec![ellipse(random)],
        7 | 8 => vec![point(random, in_symbol)],
        9 => {
            // "block of 3 to 100 point"
            let points = match (plan.size, random.below(20)) {
                (_, 0..=9) => 3,
                (Size::Small, 10..=18) => random.between(3, 6),
                (_, 10..=16) => random.between(3, 20),
                _ => *random.pick(&[99, 100, 100]),
            };
            block("successive", (0..points).map(|_| point(random, in_symbol)).collect())
        }
        _ => text_figure(random, plan, in_symbol),
    }
}

fn line(random: &mut Random, in_symbol: bool) -> Line {
    loop {
        let items = [(); 4].map(|_| coordinate(random, in_symbol));
        let values = items.clone().map(|item| crate::values::decimal(item.as_bytes()));
        if values[..2] != values[2..] {
            return entry("line", format!("{},{}", figure_type(random), join(items)));
        }
    }
}

fn circle(random: &mut Random) -> Line {
    let (start, end) = two_angles(random);
    let centre = [decimal(random, Wanted::AnySign), decimal(random, Wanted::AnySign)];
    let [x, y] = centre;
    entry("circle", join([figure_type(random), x, y, decimal(random, Wanted::AboveZero), start, end, flag(random)]))
}

/// Spellings of the angles that a circle without a turn has.
pub const NOUGHTS: &[&str] = &["0", "0", "-0", "0.0", "0000000", "-0.0000", "00.00"];
pub const WHOLE_TURNS: &[&str] = &["360", "360", "360.0", "360.0000", "0360", "0000360.00"];

/// From 0 to 360, six values: type,cx,cy,radius,start,end.
pub fn circle_without_turn(random: &mut Random) -> Line {
    let [x, y] = [(); 2].map(|_| decimal(random, Wanted::AnySign));
    let (start, end) = (random.pick(NOUGHTS).to_string(), random.pick(WHOLE_TURNS).to_string());
    entry("circle", join([figure_type(random), x, y, decimal(random, Wanted::AboveZero), start, end]))
}

/// From 0 to 360, with a turn or, more often, without.
fn whole_circle(random: &mut Random) -> Line {
    let mut circle = circle_without_turn(random);
    if random.chance(1, 4) {
        circle.push(b',');
        circle.extend(flag(random).into_bytes());
    }
    circle
}

fn ellipse(random: &mut Random) -> Line {
    let (start, end) = two_angles(random);
    let [x, y] = [(); 2].map(|_| decimal(random, Wanted::AnySign));
    let (long, short) = loop {
        let [long, short] = [(); 2].map(|_| decimal(random, Wanted::AboveZero));
        if crate::values::decimal(long.as_bytes()) > crate::values::decimal(short.as_bytes()) {
            break (long, short);
        }
    };
    let tilt = decimal(random, Wanted::Angle);
    entry("ellipse", join([figure_type(random), x, y, long, short, start, end, tilt, flag(random)]))
}

fn text_figure(random: &mut Random, plan: &Plan, in_symbol: bool) -> Vec<Line> {
    let written = entry(
        "type",
        join([
            figure_type(random),
            coordinate(random, in_symbol),
            coordinate(random, in_symbol),
            decimal(random, Wanted::AboveZero),
            decimal(random, Wanted::AboveZero),
            decimal(random, Wanted::NotNegative),
            decimal(random, Wanted::Angle),
            flag(random),
        ]),
    );
    let groups = vec![vec![written], vec![entry("character", text(random, 1, 200))]];
    block("text", plan.any_order(random, groups))
}

fn placed_symbol(random: &mut Random, plan: &mut Plan) -> Vec<Line> {
    let name = random.pick(&plan.symbols).clone();
    let content =
        join([name, coordinate(random, false), coordinate(random, false), decimal(random, Wanted::Angle), decimal(random, Wanted::AboveZero)]);
    if plan.e_sym == 1 {
        return vec![entry("E_symbol", content)];
    }
    let mut groups = vec![vec![entry("symbol", content)]];
    for attribute in Attribute::ALL {
        if plan.unread && !plan.class.knows(attribute) {
            groups.extend(skipped_groups(random, attribute.key()));
        } else if Digits::of(plan.e_sym).allow(attribute) {
            groups.extend(attribute_lines(random, plan, attribute));
        }
    }
    if plan.unread {
        for _ in 0..random.below(3) {
            let key = *random.pick(&["foo", "line", "type", "character", "project", "E_symbol", "EOF", "}", "range", "a:"]);
            groups.extend(skipped_groups(random, key.as_bytes()));
        }
    }
    block("E_symbol", plan.any_order(random, groups))
}

/// What a class that doesn't know a key skips: missing, once or twice, of any form and content.
fn skipped_groups(random: &mut Random, key: &[u8]) -> Vec<Vec<Line>> {
    (0..random.below(3)).map(|_| skipped(random, key, 1)).collect()
}

fn skipped(random: &mut Random, key: &[u8], depth: usize) -> Vec<Line> {
    let with = |tail: &[u8]| [key, tail].concat();
    match random.below(6) {
        0 => vec![with(b"=")],
        1 => vec![with(b"=1,2,garbage")],
        2 => vec![with(&[b"=", &text_of(random, 5)[..], b"."].concat())],
        _ if key == b"character" => vec![with(random.pick(&["=a:{", "=:{", "=:{:{"]).as_bytes())],
        _ => {
            let mut lines = vec![with(random.pick(&[":{", "=x:{", "=:{:{"]).as_bytes())];
            for _ in 0..random.below(3) {
                let key = *random.pick(&["point", "character", "type", "text", "pos", "E_symbol", "xyz"]);
                match random.below(8) {
                    0 => lines.push(random.pick(&["# }", "", "  ", "#EOF", "\t"]).as_bytes().to_vec()),
                    _ if depth < 4 => lines.extend(skipped(random, key.as_bytes(), depth + 1)),
                    _ => lines.push(entry(key, "1")),
                }
            }
            lines.push(b"}".to_vec());
            lines
        }
    }
}

fn attribute_lines(random: &mut Random, plan: &mut Plan, attribute: Attribute) -> Vec<Vec<Line>> {
    let empty = random.chance(1, 3);
    let line = match attribute {
        // "may be missing"
        Attribute::Text if empty => return Vec::new(),
        Attribute::Text => return vec![text_figure(random, plan, false)],
        Attribute::Hight if empty => entry("hight", ""),
        Attribute::Hight => entry("hight", decimal(random, Wanted::AnySign)),
        Attribute::Pos if empty => entry("pos", ""),
        Attribute::Pos => entry("pos", random.between(1, 5).to_string()),
        Attribute::Circuit => circuit(random),
        Attribute::Serial => serial(random, plan),
    };
    vec![vec![line]]
}

/// "`circuit`, 0-10 of letters, digits, `-`, `.`"
fn circuit(random: &mut Random) -> Line {
    let length = *random.pick(&[0, 0, 1, 3, 9, 10]);
    entry("circuit", letters(random, b"ABab01-.", length))
}

/// An own number that no other symbol or wire has. A class that doesn't read it doesn't compare it.
fn own_number(random: &mut Random, plan: &mut Plan, read: bool) -> String {
    loop {
        let limit = *random.pick(&[10, 100, 10_000, 9_999_999_999]);
        let own = random.next() % (limit + 1);
        if plan.serials.insert(own) || (!read && random.chance(1, 8)) {
            plan.own_numbers.push(own);
            return spelt(random, own as usize, 10);
        }
    }
}

/// Stands for a partner until all own numbers of the set are known.
const PARTNER: &str = "@";

/// A partner of up to so many digits: any number, or one that is put in later.
fn partner(random: &mut Random, plan: &Plan, longest: usize) -> String {
    if plan.partners_exist {
        return PARTNER.into();
    }
    let length = random.between(1, longest);
    digits(random, length)
}

/// Puts own numbers of the set, before or after this line, in place of the partners that are still to be named.
fn name_partners(random: &mut Random, line: &mut Line, own_numbers: &[u64]) {
    let Some(content) = line.strip_prefix(b"serial=") else { return };
    let mut items: Vec<Vec<u8>> = content.split(|&b| b == b',').map(<[u8]>::to_vec).collect();
    let many = items.len() > 1 + FEW_PARTNERS;
    let usable: Vec<u64> = own_numbers.iter().copied().filter(|&number| !many || number < 1000).collect();
    if usable.is_empty() {
        items.retain(|item| item != PARTNER.as_bytes());
    }
    for item in items.iter_mut().filter(|item| item[..] == *PARTNER.as_bytes()) {
        let number = *random.pick(&usable) as usize;
        *item = spelt(random, number, if many { 3 } else { 10 }).into_bytes();
    }
    *line = entry("serial", items.join(&b','));
}

/// So many partners fit a line of 512 bytes however long they are.
const FEW_PARTNERS: usize = 5;

/// "`serial`, own number then 0 to 100 partners, 1 to 10 digits each"; a hundred of them fit a line of 512 bytes only if they are short.
fn serial(random: &mut Random, plan: &mut Plan) -> Line {
    let read = plan.reads(Attribute::Serial);
    let mut numbers = vec![own_number(random, plan, read)];
    let partners = match random.below(20) {
        0..=9 => 0,
        10..=17 => random.between(1, FEW_PARTNERS),
        18 => random.between(FEW_PARTNERS + 1, 99),
        _ => 100,
    };
    let longest = if partners > FEW_PARTNERS { 3 } else { 10 };
    for _ in 0..partners {
        numbers.push(partner(random, plan, longest));
    }
    entry("serial", numbers.join(","))
}

/// Blanks before lines, comments, empty lines: all that a reader drops.
fn decorate(random: &mut Random, lines: &mut Vec<Line>, last_volume: bool) {
    let often = *random.pick(&[1, 2, 6]);
    let mut all = Vec::with_capacity(lines.len() + 8);
    for line in lines.drain(..) {
        if random.chance(often, 40) {
            all.push(ignored(random));
        }
        // A comment after a blank would be none.
        let blanks = if !line.starts_with(b"#") && random.chance(often, 12) { blanks(random) } else { Vec::new() };
        if blanks.len() + line.len() <= LONGEST_LINE {
            all.push([blanks, line].concat());
        } else {
            all.push(line);
        }
    }
    // "EOF misplaced, also if any line follows it"; another volume may end in comments.
    if !last_volume && random.chance(1, 6) {
        all.push(ignored(random));
    }
    *lines = all;
}

pub fn blanks(random: &mut Random) -> Vec<u8> {
    let count = match random.below(60) {
        0 => random.between(100, 240),
        _ => random.between(1, 4),
    };
    let one: [&[u8]; 3] = [b" ", b"\t", b"\x81\x40"];
    (0..count).flat_map(|_| random.pick(&one).to_vec()).collect()
}

/// A line that is ignored: a comment of any bytes, or nothing but blanks.
pub fn ignored(random: &mut Random) -> Line {
    match random.below(6) {
        0 => Vec::new(),
        1 => blanks(random),
        2 => b"#}".to_vec(),
        3 if random.chance(1, 12) => vec![b'#'; LONGEST_LINE],
        _ => {
            let length = random.below(12);
            let mut comment = vec![b'#'];
            // "ignored unread": bytes that no other line may have
            comment.extend((0..length).map(|_| random.next() as u8).filter(|b| !b"\r\n\x1A".contains(b)));
            comment
        }
    }
}
