//! A sheet of one layer in one volume, with a symbol, as the rulings of document 02 change it.

use reference::generate::{Draft, DraftVolume};
use reference::ranges::{ServedWires, HIGHEST_ASKED};

/// Everything before the lines of the one layer: SYM and WIRE stand for the range values, KEYS for how many keys stand in the layer, IN_SYMBOL
/// for the figure of the one symbol.
pub const HEAD: &str = "FILE_FORMAT:{
range:{
base=001:{
B_sym=000
}
elec=001:{
E_sym=SYM
E_wire=WIRE
E_cirno=000
}
sym=001:{
S_base=000
S_elec=001
}
}
all_line=0
this_line=0
all_ele=KEYS
this_ele=KEYS
next_file=
date=19970901
time=173000
cad=c
os=o
hard=h
ver=1
corp=
make=
tel=
name=
}
DRAWING_FORMAT:{
size=A1
scale=1
project=P
drawname=D
date=19970901
drawer=
layer_name:{
E_151=
}
}
SYMBOL_DEFINE:{
E_symbol:{
name=S
element:{
IN_SYMBOL
}
hide:{
}
}
}
ELEMENT:{
LAYER=E_151:{
";
pub const TAIL: &str = "}\n}\nEOF";

pub fn one_volume(text: &str) -> Vec<u8> {
    let lines = text.lines().map(|line| line.as_bytes().to_vec()).collect();
    let volumes = vec![DraftVolume { name: b"TEST".to_vec(), lines }];
    Draft { class: HIGHEST_ASKED, served: ServedWires::ALL, volumes }.spool()
}
