//! Fixed form: "Same volumes, names and record order; every value and text read stays; no comments, blanks or empty lines; keys in the order
//! above".

use crate::set::{
    Drawing, Figure, Header, OneLine, Part, Placed, Point, Set, Shape, State, Symbol, TextFigure, Typed, Value, VolumeRead, Wire, WireSerial,
};
use crate::spool::{Text, FINAL_BYTE, MARK, NAME_BYTES};
use crate::values::ONE;

/// The whole spool in the fixed form.
pub fn spool(set: &Set<'_>) -> Vec<u8> {
    let mut out = Vec::new();
    for (index, volume) in set.volumes.iter().enumerate() {
        let mut lines = Lines { bytes: Vec::new() };
        if index == 0 {
            lines.first_file_format(&set.header, volume);
            lines.drawing(&set.drawing);
            lines.symbols(set);
        } else {
            lines.later_file_format(volume);
        }
        lines.element(set, volume);
        if index + 1 == set.volumes.len() {
            lines.line("EOF");
        }
        lines.bytes.push(FINAL_BYTE);
        out.extend(MARK);
        out.extend(volume.name);
        out.extend(vec![b' '; NAME_BYTES - volume.name.len()]);
        out.extend((lines.bytes.len() as u16).to_be_bytes());
        out.extend(lines.bytes);
    }
    out
}

/// A decimal: "no needless zeros", "`-0` as `0`".
pub fn decimal(number: i64) -> String {
    let sign = if number < 0 { "-" } else { "" };
    let (whole, fraction) = (number.abs() / ONE, number.abs() % ONE);
    if fraction == 0 {
        return format!("{sign}{whole}");
    }
    let digits = format!("{fraction:04}");
    format!("{sign}{whole}.{}", digits.trim_end_matches('0'))
}

/// A value; none for a turn that wasn't written: "written back with six".
fn value(value: &Value) -> Option<String> {
    match value {
        Value::Decimal(number) => Some(decimal(*number)),
        Value::Digit(number) | Value::Count(number) => Some(number.to_string()),
        Value::NoTurn => None,
    }
}

fn values(values: &[Value]) -> String {
    joined(values.iter().filter_map(value))
}

/// A wire's own number and its two partners; an empty one stays empty.
fn wire_serial(serial: &WireSerial) -> String {
    let partners = serial.partners.into_iter().map(|partner| partner.map_or(String::new(), |number| number.to_string()));
    joined(std::iter::once(serial.own.to_string()).chain(partners))
}

fn circuit(circuit: &Text<'_>) -> String {
    String::from_utf8_lossy(circuit.bytes).into_owned()
}

fn joined(items: impl Iterator<Item = String>) -> String {
    items.collect::<Vec<_>>().join(",")
}

/// A type, which keeps its digits, then the values.
fn typed(typed: &Typed) -> String {
    joined(std::iter::once(format!("{:04}", typed.figure_type)).chain(typed.values.iter().filter_map(value)))
}

struct Lines {
    bytes: Vec<u8>,
}

impl Lines {
    fn line(&mut self, line: impl AsRef<[u8]>) {
        self.bytes.extend(line.as_ref());
        self.bytes.extend(b"\r\n");
    }

    fn entry(&mut self, key: &str, content: impl AsRef<[u8]>) {
        self.line([key.as_bytes(), b"=", content.as_ref()].concat());
    }

    fn open(&mut self, key: &str) {
        self.line(format!("{key}:{{"));
    }

    fn close(&mut self) {
        self.line("}");
    }

    /// A range value: "Ranges, types, dates, times keep their digits."
    fn range(&mut self, key: &str, number: i64) {
        self.entry(key, format!("{number:03}"));
    }

    fn first_file_format(&mut self, header: &Header<'_>, volume: &VolumeRead<'_>) {
        self.open("FILE_FORMAT");
        self.ranges(header);
        self.entry("all_line", header.all_line.to_string());
        self.entry("this_line", volume.this_line.to_string());
        self.entry("all_ele", header.all_ele.to_string());
        self.entry("this_ele", volume.this_ele.to_string());
        self.chain(volume);
        for (key, text) in ["cad", "os", "hard", "ver", "corp", "make", "tel", "name"].into_iter().zip(header.texts) {
            self.entry(key, text.bytes);
        }
        self.close();
    }

    fn later_file_format(&mut self, volume: &VolumeRead<'_>) {
        self.open("FILE_FORMAT");
        self.entry("this_line", volume.this_line.to_string());
        self.entry("this_ele", volume.this_ele.to_string());
        self.chain(volume);
        self.close();
    }

    /// "next_file in capitals"
    fn chain(&mut self, volume: &VolumeRead<'_>) {
        self.entry("next_file", volume.next_file.bytes.to_ascii_uppercase());
        self.entry("date", format!("{:08}", volume.date));
        self.entry("time", format!("{:06}", volume.time));
    }

    /// "range parts not written stay unwritten"
    fn ranges(&mut self, header: &Header<'_>) {
        let ranges = &header.ranges;
        self.open("range");
        self.open("base=001");
        self.range("B_sym", ranges.b_sym);
        self.close();
        if let Some(arc) = ranges.arc {
            self.range("arc", arc);
        }
        match ranges.elec {
            None => {}
            Some(0) => self.range("elec", 0),
            Some(_) => {
                self.open("elec=001");
                self.range("E_sym", ranges.e_sym);
                self.range("E_wire", ranges.e_wire);
                self.range("E_cirno", 0);
                self.close();
            }
        }
        if let Some(air) = ranges.air {
            self.range("air", air);
        }
        if let Some(pipe) = ranges.pipe {
            self.range("pipe", pipe);
        }
        match ranges.sym {
            None => {}
            Some(0) => self.range("sym", 0),
            Some(_) => {
                self.open("sym=001");
                self.range("S_base", ranges.s_base);
                self.range("S_elec", ranges.s_elec);
                self.close();
            }
        }
        self.close();
    }

    fn drawing(&mut self, drawing: &Drawing<'_>) {
        self.open("DRAWING_FORMAT");
        let times = if drawing.sheet.0 == 1 { String::new() } else { drawing.sheet.0.to_string() };
        self.entry("size", format!("{times}A{}", drawing.sheet.1));
        // p < q, so a q of 1 is one that wasn't written.
        let below = if drawing.scale.1 == 1 { String::new() } else { format!("/{}", drawing.scale.1) };
        self.entry("scale", format!("{}{below}", drawing.scale.0));
        self.entry("project", drawing.texts[0].bytes);
        self.entry("drawname", drawing.texts[1].bytes);
        self.entry("date", format!("{:08}", drawing.date));
        self.entry("drawer", drawing.texts[2].bytes);
        self.maybe_empty("floor_height", &drawing.floor_height, |height| decimal(*height));
        self.open("layer_name");
        for layer in &drawing.layers {
            self.line([layer.id.bytes, b"=", layer.name.bytes].concat());
        }
        self.close();
        self.close();
    }

    fn maybe_empty<T>(&mut self, key: &str, state: &State<T>, written: impl Fn(&T) -> String) {
        match state {
            State::Absent => {}
            State::Empty => self.entry(key, ""),
            State::Given(given) => self.entry(key, written(given)),
        }
    }

    fn symbols(&mut self, set: &Set<'_>) {
        self.open("SYMBOL_DEFINE");
        if set.symbols.is_empty() {
            self.entry("NON", "");
        }
        for symbol in &set.symbols {
            self.symbol(set, symbol);
        }
        self.close();
    }

    /// "a symbol's `element` and `hide` stay in the order written"
    fn symbol(&mut self, set: &Set<'_>, symbol: &Symbol<'_>) {
        self.open("E_symbol");
        self.entry("name", symbol.name.bytes);
        for part in &symbol.parts {
            match part {
                Part::Element(figures) => {
                    self.open("element");
                    self.figures(set, figures);
                    self.close();
                }
                Part::Hide(points) => {
                    self.open("hide");
                    self.points(points);
                    self.close();
                }
            }
        }
        self.maybe_empty("wall", &symbol.wall, |(x, y)| format!("{},{}", decimal(*x), decimal(*y)));
        self.close();
    }

    fn element(&mut self, set: &Set<'_>, volume: &VolumeRead<'_>) {
        self.open("ELEMENT");
        for layer in &volume.layers {
            let id = set.drawing.layers[layer.number].id.bytes;
            self.line([b"LAYER=", id, b":{"].concat());
            self.figures(set, &layer.figures);
            self.close();
        }
        self.close();
    }

    fn figures(&mut self, set: &Set<'_>, figures: &[Figure<'_>]) {
        for figure in figures {
            match &figure.shape {
                Shape::OneLine(OneLine::Line, values) => self.entry("line", typed(values)),
                Shape::OneLine(OneLine::Circle, values) => self.entry("circle", typed(values)),
                Shape::OneLine(OneLine::Ellipse, values) => self.entry("ellipse", typed(values)),
                Shape::OneLine(OneLine::Point, values) => self.entry("point", typed(values)),
                Shape::Successive(points) => {
                    self.open("successive");
                    self.points(points);
                    self.close();
                }
                Shape::Text(text) => self.text(text),
                Shape::Placed(placed) => self.placed(set, placed),
                Shape::Wire(wire) => self.wire(wire),
            }
        }
    }

    fn points(&mut self, points: &[Point]) {
        for point in points {
            self.entry("point", typed(&point.typed));
        }
    }

    fn text(&mut self, text: &TextFigure<'_>) {
        self.open("text");
        self.entry("type", typed(&text.typed));
        self.entry("character", text.characters.bytes);
        self.close();
    }

    fn placed(&mut self, set: &Set<'_>, placed: &Placed<'_>) {
        let name = String::from_utf8_lossy(set.symbols[placed.symbol].name.bytes).into_owned();
        let content = joined(std::iter::once(name).chain(placed.values.iter().filter_map(value)));
        if set.header.ranges.e_sym == 1 {
            return self.entry("E_symbol", content);
        }
        self.open("E_symbol");
        self.entry("symbol", content);
        if let Some(text) = &placed.text {
            self.text(text);
        }
        self.maybe_empty("hight", &placed.hight, |hight| decimal(*hight));
        self.maybe_empty("pos", &placed.pos, |pos| pos.to_string());
        self.maybe_empty("circuit", &placed.circuit, circuit);
        if let Some(numbers) = &placed.serial {
            self.entry("serial", joined(numbers.iter().map(|number| number.to_string())));
        }
        self.close();
    }

    /// Elements in the order written, then the attributes by their keys, several of one key in the order written.
    fn wire(&mut self, wire: &Wire<'_>) {
        self.open("E_wire");
        for element in &wire.elements {
            self.entry(if element.kind == OneLine::Line { "line" } else { "circle" }, typed(&element.typed));
        }
        for (key, all) in [("direc", &wire.direcs), ("piend", &wire.piends), ("num", &wire.nums)] {
            for one in all {
                self.entry(key, values(one));
            }
        }
        for text in &wire.texts {
            self.text(text);
        }
        self.maybe_empty("length", &wire.length, |length| decimal(*length));
        self.maybe_empty("circuit", &wire.circuit, circuit);
        self.maybe_empty("power", &wire.power, |power| values(power));
        if let Some(serial) = &wire.serial {
            self.entry("serial", wire_serial(serial));
        }
        self.close();
    }
}
