//! Record table: "32 numbers each, taken in order at the opening or only line".

use crate::ranges::{Attribute, Class, Ranges, WireAttribute};
use crate::set::{
    Declared, Drawing, Figure, Join, OneLine, Part, Placed, Point, Set, Shape, State, Symbol, TextFigure, Typed, Value, VolumeRead, Wire, WireElement,
};
use crate::spool::Text;

pub const NUMBERS: usize = 32;

/// "plus 20 inside a symbol"
const INSIDE_SYMBOL: i64 = 20;
/// "States: 0 absent, 1 empty, 2 given, 3 unread."
const ABSENT: i64 = 0;
const EMPTY: i64 = 1;
const GIVEN: i64 = 2;
const UNREAD: i64 = 3;

/// Every record of the set, one after another.
pub fn table(set: &Set<'_>, class: Class) -> Vec<i64> {
    let mut table = Table { numbers: Vec::new(), class, ranges: set.header.ranges.clone() };
    table.header(set);
    for (index, volume) in set.volumes.iter().enumerate() {
        let number = index + 1;
        table.volume(volume, number);
        if number == 1 {
            table.drawing(&set.drawing);
            for (owner, layer) in set.drawing.layers.iter().enumerate() {
                table.layer(layer, owner);
            }
            for (owner, symbol) in set.symbols.iter().enumerate() {
                table.symbol(symbol, owner);
            }
        }
        for layer in &volume.layers {
            for figure in &layer.figures {
                table.figure(figure, 0, layer.number, number);
            }
        }
    }
    table.numbers
}

struct Table {
    numbers: Vec<i64>,
    class: Class,
    ranges: Ranges,
}

/// A record being filled: "0 kind, 1 owner, 2 volume from 1, 3 line, 4 type, 5 on values in file order, unused 0".
struct Record<'t> {
    numbers: &'t mut [i64],
    at: usize,
}

impl Record<'_> {
    fn put(&mut self, number: i64) {
        self.numbers[self.at] = number;
        self.at += 1;
    }

    fn put_all(&mut self, numbers: impl IntoIterator<Item = i64>) {
        for number in numbers {
            self.put(number);
        }
    }

    fn put_typed(&mut self, typed: &Typed) {
        self.numbers[4] = typed.figure_type;
        self.put_values(&typed.values);
    }

    fn put_values(&mut self, values: &[Value]) {
        for value in values {
            self.put(value.number());
        }
    }

    /// "Text is byte place in the spool, from 0, and length; 0 and 0 if empty."
    fn put_text(&mut self, text: Text<'_>) {
        if !text.bytes.is_empty() {
            self.numbers[self.at] = text.place as i64;
            self.numbers[self.at + 1] = text.bytes.len() as i64;
        }
        self.at += 2;
    }
}

fn state<T>(state: &State<T>) -> i64 {
    match state {
        State::Absent => ABSENT,
        State::Empty => EMPTY,
        State::Given(_) => GIVEN,
    }
}

/// The state of what can't be empty.
fn given_if(there: bool) -> i64 {
    if there {
        GIVEN
    } else {
        ABSENT
    }
}

fn given(state: &State<i64>) -> i64 {
    match state {
        State::Given(number) => *number,
        _ => 0,
    }
}

impl Table {
    fn take(&mut self, kind: i64, owner: usize, volume: usize, line: usize) -> Record<'_> {
        let start = self.numbers.len();
        self.numbers.resize(start + NUMBERS, 0);
        let mut record = Record { numbers: &mut self.numbers[start..], at: 0 };
        record.put_all([kind, owner as i64, volume as i64, line as i64]);
        record.at = 5;
        record
    }

    /// "1 header: B_sym, arc, elec, E_sym, sym, S_base, S_elec, all_line, all_ele, date, time, eight texts"
    fn header(&mut self, set: &Set<'_>) {
        let (header, first) = (&set.header, &set.volumes[0]);
        let ranges = &header.ranges;
        let mut record = self.take(1, 0, 1, first.line);
        record.put_all([ranges.b_sym, ranges.arc(), ranges.elec(), ranges.e_sym, ranges.sym(), ranges.s_base, ranges.s_elec]);
        record.put_all([header.all_line, header.all_ele, first.date, first.time]);
        for text in header.texts {
            record.put_text(text);
        }
    }

    /// "2 volume: this_line, this_ele"
    fn volume(&mut self, volume: &VolumeRead<'_>, number: usize) {
        let mut record = self.take(2, 0, number, volume.line);
        record.put(volume.this_line);
        record.put(volume.this_ele);
    }

    /// "3 drawing: n (1 if none), A number, p, q (1 if none), date, floor state, value, three texts"
    fn drawing(&mut self, drawing: &Drawing<'_>) {
        let mut record = self.take(3, 0, 1, drawing.line);
        record.put_all([drawing.sheet.0, drawing.sheet.1, drawing.scale.0, drawing.scale.1, drawing.date]);
        record.put(state(&drawing.floor_height));
        record.put(given(&drawing.floor_height));
        for text in drawing.texts {
            record.put_text(text);
        }
    }

    /// "5 layer: letter's byte, number, name"
    fn layer(&mut self, layer: &Declared<'_>, owner: usize) {
        let mut record = self.take(5, owner, 1, layer.line);
        record.put(layer.id.bytes[0] as i64);
        record.put(layer.id.bytes[2..].iter().fold(0, |number, &b| number * 10 + (b - b'0') as i64));
        record.put_text(layer.name);
    }

    /// "4 symbol: name, wall state, x, y"
    fn symbol(&mut self, symbol: &Symbol<'_>, owner: usize) {
        let mut record = self.take(4, owner, 1, symbol.line);
        record.put_text(symbol.name);
        record.put(state(&symbol.wall));
        if let State::Given((x, y)) = symbol.wall {
            record.put(x);
            record.put(y);
        }
        for part in &symbol.parts {
            match part {
                Part::Element(figures) => {
                    for figure in figures {
                        self.figure(figure, INSIDE_SYMBOL, owner, 1);
                    }
                }
                // "43 hide point"
                Part::Hide(points) => self.points(43, points, owner, 1),
            }
        }
    }

    fn points(&mut self, kind: i64, points: &[Point], owner: usize, volume: usize) {
        for point in points {
            self.take(kind, owner, volume, point.line).put_typed(&point.typed);
        }
    }

    /// "10 line, 11 circle, 12 ellipse, 13 point, 14 successive (first point's type, point count), 15 text (7 values, characters), 17 a
    /// successive's points"
    fn figure(&mut self, figure: &Figure<'_>, plus: i64, owner: usize, volume: usize) {
        match &figure.shape {
            Shape::OneLine(one_line, typed) => {
                let kind = match one_line {
                    OneLine::Line => 10,
                    OneLine::Circle => 11,
                    OneLine::Ellipse => 12,
                    OneLine::Point => 13,
                };
                self.take(kind + plus, owner, volume, figure.line).put_typed(typed);
            }
            Shape::Successive(points) => {
                let mut record = self.take(14 + plus, owner, volume, figure.line);
                record.numbers[4] = points[0].typed.figure_type;
                record.put(points.len() as i64);
                self.points(17 + plus, points, owner, volume);
            }
            Shape::Text(text) => {
                let mut record = self.take(15 + plus, owner, volume, figure.line);
                record.put_typed(&text.typed);
                record.put_text(text.characters);
            }
            Shape::Placed(placed) => self.placed(placed, owner, volume, figure.line),
            Shape::Wire(wire) => self.wire(wire, owner, volume, figure.line),
        }
    }

    /// "16 placed symbol: symbol number, x, y, angle, factor, hight, pos, circuit place and length, serial, partner count, ten of text, then
    /// at 26-30 the states of text, hight, pos, circuit, serial."
    fn placed(&mut self, placed: &Placed<'_>, owner: usize, volume: usize, line: usize) {
        let states = Attribute::ALL.map(|attribute| self.attribute_state(attribute, placed));
        let mut record = self.take(16, owner, volume, line);
        record.put(placed.symbol as i64);
        record.put_values(&placed.values);
        record.put(given(&placed.hight));
        record.put(given(&placed.pos));
        if let State::Given(circuit) = placed.circuit {
            record.put_text(circuit);
        }
        record.at = 14;
        if let Some(numbers) = &placed.serial {
            record.put(numbers[0]);
            record.put(numbers.len() as i64 - 1);
        }
        record.at = 16;
        if let Some(text) = &placed.text {
            ten_of_text(&mut record, text);
        }
        record.at = 26;
        record.put_all(states);
    }

    fn attribute_state(&self, attribute: Attribute, placed: &Placed<'_>) -> i64 {
        // At range 001, where there is no block, E_sym allows none. "An attribute E_sym allows and the class doesn't know has state 3 and zeros."
        if self.ranges.e_sym_digits().allow(attribute) && !self.class.knows(attribute) {
            return UNREAD;
        }
        match attribute {
            Attribute::Text => given_if(placed.text.is_some()),
            Attribute::Hight => state(&placed.hight),
            Attribute::Pos => state(&placed.pos),
            Attribute::Circuit => state(&placed.circuit),
            Attribute::Serial => given_if(placed.serial.is_some()),
        }
    }

    /// A wire: two records at its own line, which hold its attributes, then those of its lines and arcs.
    fn wire(&mut self, wire: &Wire<'_>, owner: usize, volume: usize, line: usize) {
        self.wire_drawn(wire, owner, volume, line);
        self.wire_named(wire, owner, volume, line);
        for element in &wire.elements {
            self.wire_element(element, owner, volume);
        }
    }

    /// 18: elements; direcs, the first two of them; piends, the first; nums, the first; length; at 26-29 the states of direc, piend, num,
    /// length; E_wire's first digit; the mark.
    fn wire_drawn(&mut self, wire: &Wire<'_>, owner: usize, volume: usize, line: usize) {
        use WireAttribute::{Direc, Length, Num, Piend};
        let states = [Direc, Piend, Num, Length].map(|attribute| self.wire_state(attribute, wire));
        let (mark, joining) = (self.wire_mark(), self.ranges.joining());
        let mut record = self.take(18, owner, volume, line);
        record.put(wire.elements.len() as i64);
        record.put(wire.direcs.len() as i64);
        for (index, direc) in wire.direcs.iter().enumerate() {
            record.at = 7 + 4 * index;
            record.put_values(direc);
        }
        record.at = 15;
        record.put(wire.piends.len() as i64);
        record.put_values(wire.piends.first().map_or(&[], |first| first));
        record.at = 19;
        record.put(wire.nums.len() as i64);
        record.put_values(wire.nums.first().map_or(&[], |first| first));
        record.at = 25;
        record.put(given(&wire.length));
        record.put_all(states);
        record.put(if mark == 0 { joining } else { 0 });
        record.put(mark);
    }

    /// 19: texts, ten of the first; circuit; power; own number, state and number of each partner; at 26-29 the states of text, circuit, power,
    /// serial; at 31 the mark.
    fn wire_named(&mut self, wire: &Wire<'_>, owner: usize, volume: usize, line: usize) {
        use WireAttribute::{Circuit, Power, Serial, Text};
        let states = [Text, Circuit, Power, Serial].map(|attribute| self.wire_state(attribute, wire));
        let mark = self.wire_mark();
        let mut record = self.take(19, owner, volume, line);
        record.put(wire.texts.len() as i64);
        if let Some(text) = wire.texts.first() {
            ten_of_text(&mut record, text);
        }
        record.at = 16;
        if let State::Given(circuit) = wire.circuit {
            record.put_text(circuit);
        }
        record.at = 18;
        if let State::Given(power) = &wire.power {
            record.put_values(power);
        }
        record.at = 21;
        if let Some(serial) = &wire.serial {
            record.put(serial.own);
            for partner in serial.partners {
                record.put(if partner.is_some() { GIVEN } else { EMPTY });
                record.put(partner.unwrap_or(0));
            }
        }
        record.at = 26;
        record.put_all(states);
        record.at = 31;
        record.put(mark);
    }

    /// 20 line of a wire, 21 arc of a wire: type, values, and at 11 how it is joined to the one before.
    fn wire_element(&mut self, element: &WireElement, owner: usize, volume: usize) {
        let kind = if element.kind == OneLine::Line { 20 } else { 21 };
        let mut record = self.take(kind, owner, volume, element.line);
        record.put_typed(&element.typed);
        record.at = 11;
        record.put(match element.join {
            Join::None => 0,
            Join::Tested => 1,
            Join::Untested => 2,
        });
    }

    /// "marked unread" where the class skips whole wires.
    fn wire_mark(&self) -> i64 {
        if self.class.reads_wires() {
            0
        } else {
            UNREAD
        }
    }

    /// "with states as in kind 16"
    fn wire_state(&self, attribute: WireAttribute, wire: &Wire<'_>) -> i64 {
        if self.ranges.e_wire_digits().allow_in_wire(attribute) && !self.class.knows_in_wire(attribute) {
            return UNREAD;
        }
        match attribute {
            WireAttribute::Direc => given_if(!wire.direcs.is_empty()),
            WireAttribute::Piend => given_if(!wire.piends.is_empty()),
            WireAttribute::Num => given_if(!wire.nums.is_empty()),
            WireAttribute::Text => given_if(!wire.texts.is_empty()),
            WireAttribute::Length => state(&wire.length),
            WireAttribute::Circuit => state(&wire.circuit),
            WireAttribute::Power => state(&wire.power),
            WireAttribute::Serial => given_if(wire.serial.is_some()),
        }
    }
}

/// The text of a placed symbol or of a wire: type, seven values, place and length of its characters.
fn ten_of_text(record: &mut Record<'_>, text: &TextFigure<'_>) {
    record.put(text.typed.figure_type);
    record.put_values(&text.typed.values);
    record.put_text(text.characters);
}
