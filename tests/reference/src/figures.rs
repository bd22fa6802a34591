//! Figures, placed symbols and wires: the values of their lines.

use crate::refusal::Faults;
use crate::set::{OneLine, Typed, Value, WireSerial};
use crate::values::{count, decimal, exactly, figure_type, ONE};

/// What one value of a line must be.
#[derive(Clone, Copy, PartialEq, Eq)]
pub enum Column {
    /// x or y: "In layers no coordinate is negative but the two centres; in symbols any sign."
    Coordinate,
    /// A value of any sign: the centres, a wall's x and y, `hight`.
    AnySign,
    /// "Radius, axes, width, height above zero", "factor above zero"
    AboveZero,
    /// "gap not negative", a floor's height
    NotNegative,
    /// "Angles are 0 to 360 inclusive"
    Angle,
    /// "Turn and upright are 0 or 1; they and `pos` are one digit."
    Flag,
    /// "`pos`, 1 to 5"
    Position,
    /// `direc`'s sign: one digit, 0 to 4
    Sign,
    /// One digit, whichever: `power`'s phase and wires, which its table limits
    Digit,
    /// `num`'s power wires, `power`'s volts
    Count,
    /// `num`'s angle: 0 to 180
    HalfAngle,
}

impl Column {
    /// The value, or the number of the rule it breaks: 10 if not written as said, 11 if out of its limits.
    pub fn read(self, bytes: &[u8], in_symbol: bool) -> Result<Value, u8> {
        let value = match self {
            Column::Flag | Column::Position | Column::Sign | Column::Digit => Value::Digit(exactly(bytes, 1).ok_or(10)?),
            Column::Count => Value::Count(count(bytes).ok_or(10)?),
            _ => Value::Decimal(decimal(bytes).ok_or(10)?),
        };
        let number = value.number();
        let kept = match self {
            Column::Coordinate => in_symbol || number >= 0,
            Column::AnySign => true,
            Column::AboveZero => number > 0,
            Column::NotNegative => number >= 0,
            Column::Angle => (0..=360 * ONE).contains(&number),
            Column::Flag => number <= 1,
            Column::Position => (1..=5).contains(&number),
            Column::Sign => number <= 4,
            Column::Digit | Column::Count => true,
            Column::HalfAngle => (0..=180 * ONE).contains(&number),
        };
        if !kept {
            return Err(11);
        }
        Ok(value)
    }
}

use Column::{AboveZero, Angle, AnySign, Coordinate, Count, Digit, Flag, HalfAngle, NotNegative, Sign};

/// x,y,x,y
const LINE: &[Column] = &[Coordinate, Coordinate, Coordinate, Coordinate];
/// cx,cy,radius,start,end,turn
const CIRCLE: &[Column] = &[AnySign, AnySign, AboveZero, Angle, Angle, Flag];
/// cx,cy,radius, of a circle that goes from 0 to 360 and has no turn
const ROUND: &[Column] = &[AnySign, AnySign, AboveZero];
/// cx,cy,long,short,start,end,tilt,turn
const ELLIPSE: &[Column] = &[AnySign, AnySign, AboveZero, AboveZero, Angle, Angle, Angle, Flag];
/// x,y
const POINT: &[Column] = &[Coordinate, Coordinate];
/// x,y,width,height,gap,angle,upright
const TEXT: &[Column] = &[Coordinate, Coordinate, AboveZero, AboveZero, NotNegative, Angle, Flag];
/// x,y,angle,factor, after the name
const PLACED: &[Column] = &[Coordinate, Coordinate, Angle, AboveZero];
/// x,y
const WALL: &[Column] = &[AnySign, AnySign];
/// sign,x,y,angle
const DIREC: &[Column] = &[Sign, Coordinate, Coordinate, Angle];
/// x,y,angle
const PIEND: &[Column] = &[Coordinate, Coordinate, Angle];
/// earth,power,x,y,angle
const NUM: &[Column] = &[Flag, Count, Coordinate, Coordinate, HalfAngle];
/// phase,wires,volts
const POWER: &[Column] = &[Digit, Digit, Count];

/// 000, table 5: the phase, wires and volts that go together.
const POWERS: [[i64; 3]; 13] = [
    [1, 2, 100],
    [1, 2, 200],
    [1, 2, 231],
    [1, 3, 200],
    [3, 3, 200],
    [3, 3, 400],
    [3, 3, 3300],
    [3, 3, 6600],
    [3, 3, 22000],
    [3, 3, 33000],
    [3, 3, 66000],
    [3, 4, 173],
    [3, 4, 400],
];

/// The values of some columns, or the smallest number that they earn. "A wrong count of values" is 10.
fn read_columns(columns: &[Column], items: &[&[u8]], in_symbol: bool) -> Result<Vec<Value>, u8> {
    if items.len() != columns.len() {
        return Err(10);
    }
    let mut faults = Faults::default();
    let mut values = Vec::with_capacity(columns.len());
    for (column, item) in columns.iter().zip(items) {
        match column.read(item, in_symbol) {
            Ok(value) => values.push(value),
            Err(number) => faults.add(number),
        }
    }
    match faults.smallest() {
        Some(number) => Err(number),
        None => Ok(values),
    }
}

fn split(content: &[u8]) -> Vec<&[u8]> {
    content.split(|&b| b == b',').collect()
}

/// A type, then columns.
fn read_typed(columns: &[Column], content: &[u8], in_symbol: bool) -> Result<Typed, u8> {
    let items = split(content);
    let figure_type = figure_type(items[0]).ok_or(10)?;
    let values = read_columns(columns, &items[1..], in_symbol)?;
    Ok(Typed { figure_type, values })
}

/// How many values a circle in a symbol's `element` may have in place of seven: type,cx,cy,radius,start,end.
const WITHOUT_TURN: usize = 6;

/// "Inside a symbol's `element`, a circle from 0 to 360 may have six values"; "six values for an arc are 10".
fn without_turn(items: &[&[u8]]) -> Result<Typed, u8> {
    let figure_type = figure_type(items[0]).ok_or(10)?;
    let (start, end) = (decimal(items[4]).ok_or(10)?, decimal(items[5]).ok_or(10)?);
    // From 0 to 360 as values are, however they are spelt. No other number is smaller than this one.
    if (start, end) != (0, 360 * ONE) {
        return Err(10);
    }
    let mut values = read_columns(ROUND, &items[1..4], true)?;
    values.extend([Value::Decimal(start), Value::Decimal(end), Value::NoTurn]);
    Ok(Typed { figure_type, values })
}

/// The values of `line`, `circle`, `ellipse`, `point`.
pub fn one_line(figure: OneLine, content: &[u8], in_symbol: bool) -> Result<Typed, u8> {
    let items = split(content);
    if figure == OneLine::Circle && in_symbol && items.len() == WITHOUT_TURN {
        return without_turn(&items);
    }
    let columns = match figure {
        OneLine::Line => LINE,
        OneLine::Circle => CIRCLE,
        OneLine::Ellipse => ELLIPSE,
        OneLine::Point => POINT,
    };
    let typed = read_typed(columns, content, in_symbol)?;
    let v = &typed.values;
    let kept = match figure {
        // "ends differ in value"
        OneLine::Line => (v[0], v[1]) != (v[2], v[3]),
        // "start and end differ"
        OneLine::Circle => v[3] != v[4],
        // "long > short"
        OneLine::Ellipse => v[2].number() > v[3].number() && v[4] != v[5],
        OneLine::Point => true,
    };
    if !kept {
        return Err(11);
    }
    Ok(typed)
}

/// The values of a text's `type`.
pub fn text_type(content: &[u8], in_symbol: bool) -> Result<Typed, u8> {
    read_typed(TEXT, content, in_symbol)
}

/// A placed symbol's name, and its values: "`name,x,y,angle,factor`, factor above zero".
pub fn placed(content: &[u8]) -> (&[u8], Result<Vec<Value>, u8>) {
    let items = split(content);
    (items[0], read_columns(PLACED, &items[1..], false))
}

/// "`wall`, empty or x,y"
pub fn wall(content: &[u8]) -> Result<(i64, i64), u8> {
    let values = read_columns(WALL, &split(content), true)?;
    Ok((values[0].number(), values[1].number()))
}

/// "`serial`, own number then 0 to 100 partners, 1 to 10 digits each"
pub fn serial(content: &[u8]) -> Result<Vec<i64>, u8> {
    let numbers: Option<Vec<i64>> = split(content).into_iter().map(crate::values::serial).collect();
    let numbers = numbers.ok_or(10)?;
    // "over 100 partners is 11"
    if numbers.len() > 1 + 100 {
        return Err(11);
    }
    Ok(numbers)
}

/// The values of a wire's `direc`.
pub fn direc(content: &[u8]) -> Result<Vec<Value>, u8> {
    read_columns(DIREC, &split(content), false)
}

/// The values of a wire's `piend`.
pub fn piend(content: &[u8]) -> Result<Vec<Value>, u8> {
    read_columns(PIEND, &split(content), false)
}

/// The values of a wire's `num`.
pub fn num(content: &[u8]) -> Result<Vec<Value>, u8> {
    read_columns(NUM, &split(content), false)
}

/// The values of a wire's `power`, which are a row of table 5 of document 000.
pub fn power(content: &[u8]) -> Result<Vec<Value>, u8> {
    let values = read_columns(POWER, &split(content), false)?;
    let row: Vec<i64> = values.iter().map(|value| value.number()).collect();
    if !POWERS.iter().any(|power| power[..] == row) {
        return Err(11);
    }
    Ok(values)
}

/// A wire's `serial`: own number, then always two partners, of which either may be empty.
pub fn wire_serial(content: &[u8]) -> Result<WireSerial, u8> {
    let [own, start, end] = split(content)[..] else { return Err(10) };
    let partner = |bytes: &[u8]| match bytes {
        b"" => Ok(None),
        _ => crate::values::serial(bytes).map(Some).ok_or(10),
    };
    Ok(WireSerial { own: crate::values::serial(own).ok_or(10)?, partners: [partner(start)?, partner(end)?] })
}
