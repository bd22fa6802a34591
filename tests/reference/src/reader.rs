//! The reader: "1, 2, 3 over all volumes, then line by line; on one line the smallest number".

use std::collections::HashSet;

use crate::blocks::{self, Circumstances, Permission, Place};
use crate::figures::{self, Column};
use crate::lines::{self, Form, Tail};
use crate::ranges::{self, Attribute, Class, ServedWires, WireAttribute};
use crate::refusal::{Faults, Refusal};
use crate::set::{
    Declared, Figure, Join, Layer, OneLine, Part, Placed, Point, Set, Shape, State, Symbol, TextFigure, Typed, VolumeRead, Wire, WireElement, NO_TEXT,
};
use crate::spool::{self, Text, Volume};
use crate::values;

/// "blocks nest to depth 4, the opener being 1"
const DEEPEST_SKIPPED: usize = 4;

/// The first digit of E_wire at which "every end is joined to the next start".
const JOINED: i64 = 4;
/// 000: "direc 0 ~ 2" for one wire
const MOST_DIRECS: usize = 2;

/// On what terms a spool is read.
#[derive(Clone, Copy, Debug)]
pub struct Terms {
    pub class: Class,
    pub served: ServedWires,
    /// How many records the table takes.
    pub room: usize,
}

/// The set in a spool, or its first broken rule.
pub fn read_set(spool: &[u8], terms: Terms) -> Result<Set<'_>, Refusal> {
    let volumes = spool::volumes(spool).ok_or(Refusal { number: 2, volume: 0, line: 0 })?;
    let mut lines_of = Vec::new();
    for (index, volume) in volumes.iter().enumerate() {
        // "3 the first such volume, line 0"
        lines_of.push(spool::lines(volume.body).ok_or(Refusal { number: 3, volume: index + 1, line: 0 })?);
    }
    let mut reader = Reader::new(&volumes, terms);
    for (index, lines) in lines_of.iter().enumerate() {
        let volume = index + 1;
        // "A volume that ends early is refused at its last line, 0 if it has none."
        if lines.is_empty() {
            return Err(Refusal { number: 9, volume, line: 0 });
        }
        reader.start_volume(index);
        for (index, &line) in lines.iter().enumerate() {
            let number = index + 1;
            if let Some(fault) = reader.judge(line, number, number == lines.len()).smallest() {
                return Err(Refusal { number: fault, volume, line: number });
            }
        }
    }
    Ok(reader.set)
}

/// A block that is open.
struct Open<'s> {
    place: Place,
    /// The keys that stood in it, of those that may stand once.
    seen: Vec<&'s [u8]>,
    /// How many lines with a key stood in it.
    items: usize,
    /// A key stood in it that is no element of a wire, skipped or not.
    elements_over: bool,
}

struct Reader<'s, 'v> {
    volumes: &'v [Volume<'s>],
    terms: Terms,
    taken: usize,
    set: Set<'s>,
    /// The number of the volume, from 0, and of the line, from 1.
    volume: usize,
    line: usize,
    open: Vec<Open<'s>>,
    /// How many of the volume's blocks were opened at top level.
    blocks: usize,
    ended: bool,
    /// Keys directly in layers: of this volume, and of the set.
    keys_in_volume: i64,
    keys_in_set: i64,
    /// Own numbers, of symbols and wires, and all their partners.
    serials: HashSet<i64>,
    partners: Vec<i64>,
}

const FIRST_VOLUME_BLOCKS: &[&[u8]] = &[b"FILE_FORMAT", b"DRAWING_FORMAT", b"SYMBOL_DEFINE", b"ELEMENT"];
const LATER_VOLUME_BLOCKS: &[&[u8]] = &[b"FILE_FORMAT", b"ELEMENT"];

impl<'s, 'v> Reader<'s, 'v> {
    fn new(volumes: &'v [Volume<'s>], terms: Terms) -> Self {
        Reader {
            volumes,
            terms,
            taken: 0,
            set: Set::new(),
            volume: 0,
            line: 0,
            open: Vec::new(),
            blocks: 0,
            ended: false,
            keys_in_volume: 0,
            keys_in_set: 0,
            serials: HashSet::new(),
            partners: Vec::new(),
        }
    }

    fn start_volume(&mut self, index: usize) {
        self.volume = index;
        self.blocks = 0;
        self.keys_in_volume = 0;
        self.set.volumes.push(VolumeRead::new(self.volumes[index].name));
    }

    fn place(&self) -> Place {
        self.open.last().map_or(Place::Top, |open| open.place)
    }

    fn here(&self) -> Circumstances<'_> {
        let elements_over = self.open.last().is_some_and(|open| open.elements_over);
        Circumstances { first_volume: self.volume == 0, ranges: &self.set.header.ranges, class: self.terms.class, elements_over }
    }

    fn in_symbol(&self) -> bool {
        self.open.iter().any(|open| open.place == Place::Symbol)
    }

    fn is_last_volume(&self) -> bool {
        self.volume + 1 == self.volumes.len()
    }

    fn expected_blocks(&self) -> &'static [&'static [u8]] {
        if self.volume == 0 {
            FIRST_VOLUME_BLOCKS
        } else {
            LATER_VOLUME_BLOCKS
        }
    }

    /// Every block of the volume has been read to its close.
    fn blocks_complete(&self) -> bool {
        self.open.is_empty() && self.blocks == self.expected_blocks().len()
    }

    /// One line: every number that it earns.
    fn judge(&mut self, line: Text<'s>, number: usize, is_last: bool) -> Faults {
        self.line = number;
        let mut faults = Faults::default();
        if let Some(rest) = lines::rest_of(line) {
            self.judge_rest(rest, is_last, &mut faults);
        }
        // "volume ends early": the last volume ends with EOF, the others when their blocks are complete.
        let complete = self.blocks_complete() && (self.ended || !self.is_last_volume());
        faults.add_if(is_last && !complete, 9);
        faults
    }

    fn judge_rest(&mut self, rest: Text<'s>, is_last: bool, faults: &mut Faults) {
        if !lines::bytes_allowed(rest.bytes) {
            return faults.add(4);
        }
        match rest.bytes {
            b"}" => self.close(faults),
            b"EOF" => self.end(is_last, faults),
            _ => match lines::split_key(rest) {
                None => faults.add(5),
                Some((key, tail)) => self.key_line(key, tail, faults),
            },
        }
    }

    /// `EOF`: "EOF misplaced (at EOF's line, also if any line follows it)".
    fn end(&mut self, is_last: bool, faults: &mut Faults) {
        if !self.is_last_volume() || !self.blocks_complete() || !is_last {
            return faults.add(9);
        }
        self.ended = true;
        // "each declared layer present somewhere in the set": unused is 14, at EOF
        let used = |number| self.set.volumes.iter().any(|volume| volume.layers.iter().any(|layer| layer.number == number));
        faults.add_if(!(0..self.set.drawing.layers.len()).all(used), 14);
        faults.add_if(self.set.header.all_ele != self.keys_in_set, 17);
        faults.add_if(self.partners_are_tested() && !self.partners.iter().all(|partner| self.serials.contains(partner)), 21);
    }

    /// "partners are tested where file and class both know serials of symbols and of wires"
    fn partners_are_tested(&self) -> bool {
        let (ranges, class) = (&self.set.header.ranges, self.terms.class);
        let of_symbols = ranges.e_sym_digits().allow(Attribute::Serial) && class.knows(Attribute::Serial);
        let of_wires = ranges.e_wire_digits().allow_in_wire(WireAttribute::Serial) && class.knows_in_wire(WireAttribute::Serial);
        of_symbols && of_wires
    }

    /// `}`
    fn close(&mut self, faults: &mut Faults) {
        let Some(open) = self.open.pop() else {
            // "`}` with none open"
            return faults.add(9);
        };
        // "something required missing or too few, at the closing line"
        let required = blocks::required(open.place, &self.here());
        let missing = required.iter().any(|key| !open.seen.contains(key));
        if missing || open.items < blocks::fewest(open.place) {
            return faults.add(8);
        }
        match open.place {
            Place::FileFormat => self.compare_volume(faults),
            // "this_ele at ELEMENT's close"
            Place::Element => faults.add_if(self.set.volumes[self.volume].this_ele != self.keys_in_volume, 17),
            _ => {}
        }
    }

    /// "volume chain, date or time unlike volume 1's, at FILE_FORMAT's close"
    fn compare_volume(&mut self, faults: &mut Faults) {
        let (first, this) = (&self.set.volumes[0], &self.set.volumes[self.volume]);
        faults.add_if(first.date != this.date || first.time != this.time, 16);
        // "next_file names the next volume (a-z read as A-Z) and is empty in the last"
        let next: &[u8] = self.volumes.get(self.volume + 1).map_or(b"", |volume| volume.name);
        faults.add_if(this.next_file.bytes.to_ascii_uppercase() != next, 16);
    }

    /// A line with a key.
    fn key_line(&mut self, key: Text<'s>, tail: Tail<'s>, faults: &mut Faults) {
        let place = self.place();
        let permission = blocks::permission(place, key.bytes, &self.here());
        if let Some(open) = self.open.last_mut() {
            open.elements_over |= !blocks::is_wire_element(key.bytes);
        }
        let known = match permission {
            Permission::Skipped => return self.skip(place, key, tail, faults),
            Permission::NotAllowed => {
                // In `layer_name` every content is a layer name, and so free text.
                let some_form = lines::form(tail, place == Place::LayerName).is_some();
                return faults.add(if some_form { 6 } else { 5 });
            }
            Permission::Known(known) => known,
        };
        let form = match lines::form(tail, known.free) {
            Some(form) if known.forms.admit(&form) => form,
            _ => return faults.add(5),
        };
        if let Some(open) = self.open.last_mut() {
            // "NON and a symbol together too"
            let non_after_symbol = key.bytes == b"NON" && !self.set.symbols.is_empty();
            let symbol_after_non = key.bytes == b"E_symbol" && open.seen.contains(&&b"NON"[..]);
            if place == Place::SymbolDefine && (non_after_symbol || symbol_after_non) {
                return faults.add(6);
            }
            if known.once && open.seen.contains(&key.bytes) {
                return faults.add(7);
            }
            if known.once {
                open.seen.push(key.bytes);
            }
            open.items += 1;
            faults.add_if(open.items > blocks::most(place), 11);
        }
        self.known_line(place, key, form, faults);
    }

    /// A skipped line: "A skipped opener takes all lines to its own `}`; blocks nest to depth 4, the opener being 1, and on any skipped line
    /// `character=` never opens."
    fn skip(&mut self, place: Place, key: Text<'s>, tail: Tail<'s>, faults: &mut Faults) {
        let Some(form) = lines::form(tail, key.bytes == b"character") else {
            return faults.add(5);
        };
        if !form.opens() {
            return;
        }
        let depth = match place {
            Place::Skipped(depth) => depth + 1,
            _ => 1,
        };
        faults.add_if(depth > DEEPEST_SKIPPED, 18);
        self.enter(Place::Skipped(depth));
    }

    fn enter(&mut self, place: Place) {
        self.open.push(Open { place, seen: Vec::new(), items: 0, elements_over: false });
    }

    /// "record doesn't fit the table"
    fn take_record(&mut self, faults: &mut Faults) {
        faults.add_if(self.taken >= self.terms.room, 19);
        self.taken += 1;
    }

    /// A line whose key is known here, stands in one of its forms, and isn't there twice.
    fn known_line(&mut self, place: Place, key: Text<'s>, form: Form<'s>, faults: &mut Faults) {
        let content = match form {
            Form::Content(content) | Form::ContentOpen(content) => content,
            Form::Empty | Form::Open => NO_TEXT,
        };
        match place {
            Place::Top => self.block(key.bytes, faults),
            Place::FileFormat => self.file_format(key.bytes, content, faults),
            Place::Range | Place::Base | Place::Elec | Place::Sym => self.range_part(key.bytes, content.bytes, form.opens(), faults),
            Place::DrawingFormat => self.drawing_format(key.bytes, content, faults),
            Place::LayerName => self.layer_name(key, content, faults),
            Place::SymbolDefine => self.symbol_define(key.bytes, faults),
            Place::Symbol => self.symbol(key.bytes, content, faults),
            Place::Hide => self.hide_point(content.bytes, faults),
            Place::Element => self.layer(content.bytes, faults),
            Place::Layer => {
                self.keys_in_volume += 1;
                self.keys_in_set += 1;
                self.figure(key.bytes, content, faults)
            }
            Place::SymbolElement => self.figure(key.bytes, content, faults),
            Place::Successive => self.successive_point(content.bytes, faults),
            Place::Text => self.text(key.bytes, content, faults),
            Place::Placed => self.placed(key.bytes, content, faults),
            Place::Wire => self.wire(key.bytes, content, faults),
            // Every key in a skipped block is skipped before it comes here.
            Place::Skipped(_) => unreachable!(),
        }
    }

    /// "each once in this order"; "block's name at top level twice or out of order (never 6)"
    fn block(&mut self, key: &[u8], faults: &mut Faults) {
        if self.expected_blocks().get(self.blocks) != Some(&key) {
            return faults.add(9);
        }
        self.blocks += 1;
        match key {
            b"FILE_FORMAT" => {
                self.set.volumes[self.volume].line = self.line;
                self.enter(Place::FileFormat);
                // "2 volume: after the header"
                if self.volume == 0 {
                    self.take_record(faults);
                }
                self.take_record(faults);
            }
            b"DRAWING_FORMAT" => {
                self.set.drawing.line = self.line;
                self.enter(Place::DrawingFormat);
                self.take_record(faults);
            }
            b"SYMBOL_DEFINE" => self.enter(Place::SymbolDefine),
            _ => self.enter(Place::Element),
        }
    }

    fn file_format(&mut self, key: &[u8], content: Text<'s>, faults: &mut Faults) {
        let bytes = content.bytes;
        let volume = &mut self.set.volumes[self.volume];
        let header = &mut self.set.header;
        match key {
            b"range" => self.enter(Place::Range),
            b"all_line" => keep(&mut header.all_line, values::count(bytes), faults),
            b"this_line" => keep(&mut volume.this_line, values::count(bytes), faults),
            b"all_ele" => keep(&mut header.all_ele, values::count(bytes), faults),
            b"this_ele" => keep(&mut volume.this_ele, values::count(bytes), faults),
            b"next_file" => {
                faults.add_if(!values::letters_and_digits(bytes), 11);
                volume.next_file = content;
            }
            b"date" => keep(&mut volume.date, values::date(bytes), faults),
            b"time" => keep(&mut volume.time, values::time(bytes), faults),
            b"cad" => keep_text(&mut header.texts[0], content, 20, values::ascii, faults),
            b"os" => keep_text(&mut header.texts[1], content, 20, values::ascii, faults),
            b"hard" => keep_text(&mut header.texts[2], content, 20, values::ascii, faults),
            b"ver" => keep_text(&mut header.texts[3], content, 10, values::ascii, faults),
            b"corp" => keep_text(&mut header.texts[4], content, 40, any, faults),
            b"make" => keep_text(&mut header.texts[5], content, 40, any, faults),
            b"tel" => keep_text(&mut header.texts[6], content, 20, telephone, faults),
            b"name" => keep_text(&mut header.texts[7], content, 20, any, faults),
            _ => unreachable!(),
        }
    }

    fn range_part(&mut self, key: &[u8], bytes: &[u8], opens: bool, faults: &mut Faults) {
        let served = |number: i64| match key {
            b"base" => ranges::one(number),
            b"B_sym" | b"arc" | b"S_base" | b"elec" | b"sym" => ranges::none_or_one(number),
            b"E_sym" => ranges::e_sym(number),
            b"E_wire" => self.terms.served.serve(number),
            b"S_elec" => ranges::s_elec(number),
            _ => ranges::none(number),
        };
        match ranges::value(bytes, served) {
            Err(number) => faults.add(number),
            Ok(number) => {
                let ranges = &mut self.set.header.ranges;
                match key {
                    b"B_sym" => ranges.b_sym = number,
                    b"arc" => ranges.arc = Some(number),
                    b"elec" => ranges.elec = Some(number),
                    b"E_sym" => ranges.e_sym = number,
                    b"E_wire" => ranges.e_wire = number,
                    b"air" => ranges.air = Some(number),
                    b"pipe" => ranges.pipe = Some(number),
                    b"sym" => ranges.sym = Some(number),
                    b"S_base" => ranges.s_base = number,
                    b"S_elec" => ranges.s_elec = number,
                    // base is always 001, E_cirno always 000.
                    _ => {}
                }
            }
        }
        if opens {
            self.enter(match key {
                b"base" => Place::Base,
                b"elec" => Place::Elec,
                _ => Place::Sym,
            });
        }
    }

    fn drawing_format(&mut self, key: &[u8], content: Text<'s>, faults: &mut Faults) {
        let bytes = content.bytes;
        let drawing = &mut self.set.drawing;
        match key {
            b"size" => match values::sheet(bytes) {
                Some(sheet) => drawing.sheet = sheet,
                None => faults.add(11),
            },
            b"scale" => match values::scale(bytes) {
                Ok(scale) => drawing.scale = scale,
                Err(number) => faults.add(number),
            },
            b"project" => keep_text(&mut drawing.texts[0], content, 60, any, faults),
            b"drawname" => keep_text(&mut drawing.texts[1], content, 60, any, faults),
            b"date" => keep(&mut drawing.date, values::date(bytes), faults),
            b"drawer" => keep_text(&mut drawing.texts[2], content, 20, any, faults),
            // "empty or not negative"
            b"floor_height" => keep_number(&mut drawing.floor_height, Column::NotNegative, bytes, faults),
            b"layer_name" => self.enter(Place::LayerName),
            _ => unreachable!(),
        }
    }

    /// A line such as `E_151=`: "name 0-20 bytes".
    fn layer_name(&mut self, id: Text<'s>, name: Text<'s>, faults: &mut Faults) {
        let layers = &mut self.set.drawing.layers;
        faults.add_if(name.bytes.len() > 20, 11);
        // "layer declared twice"
        faults.add_if(layers.iter().any(|layer| layer.id.bytes == id.bytes), 14);
        layers.push(Declared { line: self.line, id, name });
        self.take_record(faults);
    }

    fn symbol_define(&mut self, key: &[u8], faults: &mut Faults) {
        if key == b"E_symbol" {
            self.set.symbols.push(Symbol { line: self.line, name: NO_TEXT, parts: Vec::new(), wall: State::Absent });
            self.enter(Place::Symbol);
            self.take_record(faults);
        }
    }

    fn symbol(&mut self, key: &[u8], content: Text<'s>, faults: &mut Faults) {
        let (symbol, earlier) = self.set.symbols.split_last_mut().unwrap();
        match key {
            b"name" => {
                // "1-32 letters and digits"
                faults.add_if(content.bytes.len() > 32 || !values::letters_and_digits(content.bytes), 11);
                // "symbol name twice"
                faults.add_if(earlier.iter().any(|symbol| symbol.name.bytes == content.bytes), 15);
                symbol.name = content;
            }
            b"element" => {
                symbol.parts.push(Part::Element(Vec::new()));
                self.enter(Place::SymbolElement);
            }
            b"hide" => {
                symbol.parts.push(Part::Hide(Vec::new()));
                self.enter(Place::Hide);
            }
            b"wall" if content.bytes.is_empty() => symbol.wall = State::Empty,
            b"wall" => match figures::wall(content.bytes) {
                Ok(wall) => symbol.wall = State::Given(wall),
                Err(number) => faults.add(number),
            },
            _ => unreachable!(),
        }
    }

    fn hide_point(&mut self, content: &[u8], faults: &mut Faults) {
        self.take_record(faults);
        let typed = or_fault(figures::one_line(OneLine::Point, content, true), faults);
        let point = Point { line: self.line, typed };
        if let Some(Part::Hide(points)) = self.set.symbols.last_mut().unwrap().parts.last_mut() {
            points.push(point);
        }
    }

    /// `LAYER=id:{`: "at most once a volume for each layer, each layer declared". "A misspelt id is 11 after `LAYER=`."
    fn layer(&mut self, id: &[u8], faults: &mut Faults) {
        let declared = self.set.drawing.layers.iter().position(|layer| layer.id.bytes == id);
        let layers = &mut self.set.volumes[self.volume].layers;
        if !blocks::is_layer_id(id) {
            faults.add(11);
        } else if let Some(number) = declared {
            faults.add_if(layers.iter().any(|layer| layer.number == number), 14);
            layers.push(Layer { number, figures: Vec::new() });
        } else {
            faults.add(14);
        }
        self.enter(Place::Layer);
    }

    /// The figures of the layer or of the symbol that is open.
    fn figures(&mut self) -> Option<&mut Vec<Figure<'s>>> {
        if self.in_symbol() {
            return match self.set.symbols.last_mut()?.parts.last_mut()? {
                Part::Element(figures) => Some(figures),
                Part::Hide(_) => None,
            };
        }
        Some(&mut self.set.volumes[self.volume].layers.last_mut()?.figures)
    }

    fn add_figure(&mut self, shape: Shape<'s>, faults: &mut Faults) {
        self.take_record(faults);
        let line = self.line;
        self.figures().unwrap().push(Figure { line, shape });
    }

    fn shape(&mut self) -> &mut Shape<'s> {
        &mut self.figures().unwrap().last_mut().unwrap().shape
    }

    fn figure(&mut self, key: &[u8], content: Text<'s>, faults: &mut Faults) {
        let shape = match key {
            b"line" => self.one_line(OneLine::Line, content.bytes, faults),
            b"circle" => self.one_line(OneLine::Circle, content.bytes, faults),
            b"ellipse" => self.one_line(OneLine::Ellipse, content.bytes, faults),
            b"point" => self.one_line(OneLine::Point, content.bytes, faults),
            b"successive" => {
                self.add_figure(Shape::Successive(Vec::new()), faults);
                return self.enter(Place::Successive);
            }
            b"text" => {
                self.add_figure(Shape::Text(TextFigure::default()), faults);
                return self.enter(Place::Text);
            }
            b"E_wire" => return self.open_wire(faults),
            // A placed symbol: at range 001 on one line, otherwise a block.
            _ if self.set.header.ranges.e_sym == 1 => {
                let mut placed = Placed::default();
                self.place_symbol(&mut placed, content.bytes, faults);
                Shape::Placed(placed)
            }
            _ => {
                self.add_figure(Shape::Placed(Placed::default()), faults);
                return self.enter(Place::Placed);
            }
        };
        self.add_figure(shape, faults);
    }

    fn one_line(&self, figure: OneLine, content: &[u8], faults: &mut Faults) -> Shape<'s> {
        Shape::OneLine(figure, or_fault(figures::one_line(figure, content, self.in_symbol()), faults))
    }

    fn successive_point(&mut self, content: &[u8], faults: &mut Faults) {
        self.take_record(faults);
        let typed = or_fault(figures::one_line(OneLine::Point, content, self.in_symbol()), faults);
        let point = Point { line: self.line, typed };
        if let Shape::Successive(points) = self.shape() {
            points.push(point);
        }
    }

    /// A line of a text: of a figure, of a placed symbol, or of a wire.
    fn text(&mut self, key: &[u8], content: Text<'s>, faults: &mut Faults) {
        let in_symbol = self.in_symbol();
        let text = match self.shape() {
            Shape::Text(text) => text,
            Shape::Placed(placed) => placed.text.get_or_insert_with(TextFigure::default),
            Shape::Wire(wire) => wire.texts.last_mut().unwrap(),
            _ => unreachable!(),
        };
        match key {
            b"type" => text.typed = or_fault(figures::text_type(content.bytes, in_symbol), faults),
            // "`character` (1-200 bytes)"
            _ => keep_text(&mut text.characters, content, 200, any, faults),
        }
    }

    /// "`name,x,y,angle,factor`"
    fn place_symbol(&self, placed: &mut Placed<'s>, content: &[u8], faults: &mut Faults) {
        let (name, values) = figures::placed(content);
        placed.values = or_fault(values, faults);
        match self.set.symbols.iter().position(|symbol| symbol.name.bytes == name) {
            Some(number) => placed.symbol = number,
            // "symbol not defined"
            None => faults.add(13),
        }
    }

    /// A line directly in a placed symbol's block, of those that the class reads.
    fn placed(&mut self, key: &[u8], content: Text<'s>, faults: &mut Faults) {
        let mut placed = match self.shape() {
            Shape::Placed(placed) => std::mem::take(placed),
            _ => unreachable!(),
        };
        match key {
            b"symbol" => self.place_symbol(&mut placed, content.bytes, faults),
            b"text" => {
                placed.text = Some(TextFigure::default());
                self.enter(Place::Text);
            }
            b"hight" => keep_number(&mut placed.hight, Column::AnySign, content.bytes, faults),
            b"pos" => keep_number(&mut placed.pos, Column::Position, content.bytes, faults),
            b"circuit" => placed.circuit = circuit(content, faults),
            b"serial" => match figures::serial(content.bytes) {
                Err(number) => faults.add(number),
                Ok(numbers) => {
                    self.number(numbers[0], numbers[1..].iter().copied(), faults);
                    placed.serial = Some(numbers);
                }
            },
            _ => unreachable!(),
        }
        *self.shape() = Shape::Placed(placed);
    }

    /// An own number and its partners. "Own numbers differ as numbers over the set", those of wires and of symbols together.
    fn number(&mut self, own: i64, partners: impl Iterator<Item = i64>, faults: &mut Faults) {
        faults.add_if(!self.serials.insert(own), 15);
        self.partners.extend(partners);
    }

    /// `E_wire:{` in a layer. It has two records at its own line.
    fn open_wire(&mut self, faults: &mut Faults) {
        self.take_record(faults);
        self.add_figure(Shape::Wire(Wire::default()), faults);
        self.enter(if self.terms.class.reads_wires() { Place::Wire } else { Place::Skipped(0) });
    }

    /// The wire that is open.
    fn open_wire_read(&mut self) -> &mut Wire<'s> {
        match self.shape() {
            Shape::Wire(wire) => wire,
            _ => unreachable!(),
        }
    }

    /// A line directly in a wire's block, of those that the wire part reads.
    fn wire(&mut self, key: &[u8], content: Text<'s>, faults: &mut Faults) {
        match key {
            b"line" => self.wire_element(OneLine::Line, content.bytes, faults),
            b"circle" => self.wire_element(OneLine::Circle, content.bytes, faults),
            b"direc" => self.wire_direc(content.bytes, faults),
            b"piend" => {
                let piend = or_fault(figures::piend(content.bytes), faults);
                self.open_wire_read().piends.push(piend);
            }
            b"num" => self.wire_num(content.bytes, faults),
            b"text" => {
                self.open_wire_read().texts.push(TextFigure::default());
                self.enter(Place::Text);
            }
            b"length" => keep_number(&mut self.open_wire_read().length, Column::NotNegative, content.bytes, faults),
            b"circuit" => self.open_wire_read().circuit = circuit(content, faults),
            b"power" if content.bytes.is_empty() => self.open_wire_read().power = State::Empty,
            b"power" => self.open_wire_read().power = State::Given(or_fault(figures::power(content.bytes), faults)),
            b"serial" => match figures::wire_serial(content.bytes) {
                Err(number) => faults.add(number),
                Ok(serial) => {
                    self.number(serial.own, serial.partners.into_iter().flatten(), faults);
                    self.open_wire_read().serial = Some(serial);
                }
            },
            _ => unreachable!(),
        }
    }

    fn wire_element(&mut self, kind: OneLine, content: &[u8], faults: &mut Faults) {
        self.take_record(faults);
        let typed = match figures::one_line(kind, content, false) {
            Ok(typed) => typed,
            Err(number) => return faults.add(number),
        };
        let demanded = self.set.header.ranges.joining() == JOINED;
        let line = self.line;
        let elements = &mut self.open_wire_read().elements;
        let join = match elements.last() {
            Some(former) if demanded => or_fault(join(former, kind, &typed), faults),
            _ => Join::None,
        };
        elements.push(WireElement { line, kind, typed, join });
    }

    fn wire_direc(&mut self, content: &[u8], faults: &mut Faults) {
        let direc = or_fault(figures::direc(content), faults);
        let direcs = &mut self.open_wire_read().direcs;
        direcs.push(direc);
        // "one item too many, at its line"
        faults.add_if(direcs.len() > MOST_DIRECS, 11);
    }

    /// 000: several may stand, "but earth and power wires of all must be the same".
    fn wire_num(&mut self, content: &[u8], faults: &mut Faults) {
        let num = match figures::num(content) {
            Ok(num) => num,
            Err(number) => return faults.add(number),
        };
        let nums = &mut self.open_wire_read().nums;
        faults.add_if(nums.first().is_some_and(|first| first[..2] != num[..2]), 11);
        nums.push(num);
    }
}

/// "tested for equal values between two lines, and recorded as untested where an arc takes part"; "a join that fails is 11 at the later line"
fn join(former: &WireElement, kind: OneLine, this: &Typed) -> Result<Join, u8> {
    if former.kind != OneLine::Line || kind != OneLine::Line {
        return Ok(Join::Untested);
    }
    // x,y,x,y: the former's end, this one's start
    if former.typed.values[2..] != this.values[..2] {
        return Err(11);
    }
    Ok(Join::Tested)
}

/// "`circuit`, 0-10 of letters, digits, `-`, `.`"
fn circuit<'s>(content: Text<'s>, faults: &mut Faults) -> State<Text<'s>> {
    if content.bytes.is_empty() {
        return State::Empty;
    }
    let written = |b: &u8| b.is_ascii_alphanumeric() || *b == b'-' || *b == b'.';
    faults.add_if(content.bytes.len() > 10 || !content.bytes.iter().all(written), 11);
    State::Given(content)
}

/// Keeps a number, date or time, "not written as said" being 10.
fn keep(kept: &mut i64, read: Option<i64>, faults: &mut Faults) {
    match read {
        Some(number) => *kept = number,
        None => faults.add(10),
    }
}

/// Keeps a number that may be empty.
fn keep_number(kept: &mut State<i64>, column: Column, bytes: &[u8], faults: &mut Faults) {
    if bytes.is_empty() {
        *kept = State::Empty;
        return;
    }
    match column.read(bytes, false) {
        Ok(value) => *kept = State::Given(value.number()),
        Err(number) => faults.add(number),
    }
}

/// Keeps a text of at most so many bytes, all of them allowed.
fn keep_text<'s>(kept: &mut Text<'s>, content: Text<'s>, most: usize, allowed: fn(&[u8]) -> bool, faults: &mut Faults) {
    faults.add_if(content.bytes.len() > most || !allowed(content.bytes), 11);
    *kept = content;
}

fn any(_: &[u8]) -> bool {
    true
}

/// "digits, hyphen, parentheses"
fn telephone(bytes: &[u8]) -> bool {
    bytes.iter().all(|b| b.is_ascii_digit() || b"-()".contains(b))
}

/// What was read, or the fault and something that stands in for it: nothing reads on after a fault.
fn or_fault<T: Default>(read: Result<T, u8>, faults: &mut Faults) -> T {
    read.unwrap_or_else(|number| {
        faults.add(number);
        T::default()
    })
}
