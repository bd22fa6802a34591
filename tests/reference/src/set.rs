//! A set as it was read: the tree from which the records and the fixed form are made.

use crate::ranges::Ranges;
use crate::spool::Text;

/// No text: "0 and 0 if empty".
pub const NO_TEXT: Text<'static> = Text { place: 0, bytes: b"" };

/// "States: 0 absent, 1 empty, 2 given" (3, unread, is the class's doing and not the set's).
#[derive(Clone, Copy, Debug, Default, PartialEq, Eq)]
pub enum State<T> {
    #[default]
    Absent,
    Empty,
    Given(T),
}

/// A value of a figure, as it is kept: a decimal in ten-thousandths, one digit, a count, or the turn of a circle that was written without one.
#[derive(Clone, Copy, Debug, PartialEq, Eq)]
pub enum Value {
    Decimal(i64),
    Digit(i64),
    Count(i64),
    NoTurn,
}

impl Value {
    pub fn number(self) -> i64 {
        match self {
            Value::Decimal(number) | Value::Digit(number) | Value::Count(number) => number,
            // "Its turn is recorded as -1."
            Value::NoTurn => -1,
        }
    }
}

/// The values of a line such as `point=type,x,y`.
#[derive(Clone, Debug, Default)]
pub struct Typed {
    pub figure_type: i64,
    pub values: Vec<Value>,
}

/// A line of a figure in a block of figures or points, with its line number.
#[derive(Clone, Debug)]
pub struct Point {
    pub line: usize,
    pub typed: Typed,
}

#[derive(Clone, Debug)]
pub struct TextFigure<'s> {
    pub typed: Typed,
    pub characters: Text<'s>,
}

impl Default for TextFigure<'_> {
    fn default() -> Self {
        TextFigure { typed: Typed::default(), characters: NO_TEXT }
    }
}

#[derive(Clone, Debug, Default)]
pub struct Placed<'s> {
    /// The number of the symbol, from 0.
    pub symbol: usize,
    /// x, y, angle, factor
    pub values: Vec<Value>,
    pub text: Option<TextFigure<'s>>,
    pub hight: State<i64>,
    pub pos: State<i64>,
    pub circuit: State<Text<'s>>,
    /// Own number, then partners.
    pub serial: Option<Vec<i64>>,
}

#[derive(Clone, Copy, Debug, PartialEq, Eq)]
pub enum OneLine {
    Line,
    Circle,
    Ellipse,
    Point,
}

/// How an element of a wire is joined to the one before.
#[derive(Clone, Copy, Debug, Default, PartialEq, Eq)]
pub enum Join {
    /// It is the first, or E_wire's first digit demands nothing.
    #[default]
    None,
    /// Between two lines: the values are equal.
    Tested,
    /// "recorded as untested where an arc takes part"
    Untested,
}

/// A line or an arc of a wire, with its line number.
#[derive(Clone, Debug)]
pub struct WireElement {
    pub line: usize,
    pub kind: OneLine,
    pub typed: Typed,
    pub join: Join,
}

/// A wire's own number, and its partners at start and end.
#[derive(Clone, Debug)]
pub struct WireSerial {
    pub own: i64,
    pub partners: [Option<i64>; 2],
}

/// A wire; of one that the class skips whole, nothing is kept.
#[derive(Clone, Debug, Default)]
pub struct Wire<'s> {
    pub elements: Vec<WireElement>,
    /// sign, x, y, angle of each
    pub direcs: Vec<Vec<Value>>,
    /// x, y, angle of each
    pub piends: Vec<Vec<Value>>,
    /// earth, power, x, y, angle of each
    pub nums: Vec<Vec<Value>>,
    pub texts: Vec<TextFigure<'s>>,
    pub length: State<i64>,
    pub circuit: State<Text<'s>>,
    /// phase, wires, volts
    pub power: State<Vec<Value>>,
    pub serial: Option<WireSerial>,
}

#[derive(Clone, Debug)]
pub enum Shape<'s> {
    OneLine(OneLine, Typed),
    Successive(Vec<Point>),
    Text(TextFigure<'s>),
    Placed(Placed<'s>),
    Wire(Wire<'s>),
}

#[derive(Clone, Debug)]
pub struct Figure<'s> {
    pub line: usize,
    pub shape: Shape<'s>,
}

/// A symbol's `element` or `hide`: they "stay in the order written".
#[derive(Clone, Debug)]
pub enum Part<'s> {
    Element(Vec<Figure<'s>>),
    Hide(Vec<Point>),
}

#[derive(Clone, Debug)]
pub struct Symbol<'s> {
    pub line: usize,
    pub name: Text<'s>,
    pub parts: Vec<Part<'s>>,
    /// x, y
    pub wall: State<(i64, i64)>,
}

/// A line of `layer_name`.
#[derive(Clone, Debug)]
pub struct Declared<'s> {
    pub line: usize,
    pub id: Text<'s>,
    pub name: Text<'s>,
}

/// A `LAYER` block.
#[derive(Clone, Debug)]
pub struct Layer<'s> {
    /// The number of the layer, from 0, in `layer_name`.
    pub number: usize,
    pub figures: Vec<Figure<'s>>,
}

/// What only the first volume's FILE_FORMAT has.
#[derive(Clone, Debug)]
pub struct Header<'s> {
    pub ranges: Ranges,
    pub all_line: i64,
    pub all_ele: i64,
    /// cad, os, hard, ver, corp, make, tel, name
    pub texts: [Text<'s>; 8],
}

#[derive(Clone, Debug)]
pub struct Drawing<'s> {
    pub line: usize,
    /// n (1 if none), A number
    pub sheet: (i64, i64),
    /// p, q (1 if none)
    pub scale: (i64, i64),
    pub date: i64,
    pub floor_height: State<i64>,
    /// project, drawname, drawer
    pub texts: [Text<'s>; 3],
    pub layers: Vec<Declared<'s>>,
}

#[derive(Clone, Debug)]
pub struct VolumeRead<'s> {
    pub name: &'s [u8],
    /// The line of `FILE_FORMAT:{`.
    pub line: usize,
    pub this_line: i64,
    pub this_ele: i64,
    pub next_file: Text<'s>,
    pub date: i64,
    pub time: i64,
    pub layers: Vec<Layer<'s>>,
}

#[derive(Clone, Debug)]
pub struct Set<'s> {
    pub header: Header<'s>,
    pub drawing: Drawing<'s>,
    pub symbols: Vec<Symbol<'s>>,
    pub volumes: Vec<VolumeRead<'s>>,
}

impl<'s> Set<'s> {
    pub fn new() -> Self {
        Set {
            header: Header { ranges: Ranges::default(), all_line: 0, all_ele: 0, texts: [NO_TEXT; 8] },
            drawing: Drawing { line: 0, sheet: (1, 0), scale: (1, 1), date: 0, floor_height: State::Absent, texts: [NO_TEXT; 3], layers: Vec::new() },
            symbols: Vec::new(),
            volumes: Vec::new(),
        }
    }
}

impl Default for Set<'_> {
    fn default() -> Self {
        Set::new()
    }
}

impl<'s> VolumeRead<'s> {
    pub fn new(name: &'s [u8]) -> Self {
        VolumeRead { name, line: 0, this_line: 0, this_ele: 0, next_file: NO_TEXT, date: 0, time: 0, layers: Vec::new() }
    }
}
