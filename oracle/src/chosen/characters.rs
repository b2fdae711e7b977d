//! The pages of document 02, No. 10: UTF-8 in strings, labels and matchers, ill-formed texts, names, counts of bytes.

use super::{row, Expected::*, Row};
use crate::page::record::Kind;

#[rustfmt::skip]
pub const ROWS: &[Row] = &[
    row("é", "0102c3a9", Is(Kind::String, "\"é\"")),
    row("U+0080", "0102c280", Is(Kind::String, "\"\u{80}\"")),
    row("U+0800", "0103e0a080", Is(Kind::String, "\"\u{800}\"")),
    row("U+D7FF", "0103ed9fbf", Is(Kind::String, "\"\u{d7ff}\"")),
    row("U+E000", "0103ee8080", Is(Kind::String, "\"\u{e000}\"")),
    row("U+FFFF", "0103efbfbf", Is(Kind::String, "\"\u{ffff}\"")),
    row("U+10000", "0104f0908080", Is(Kind::String, "\"\u{10000}\"")),
    row("U+10FFFF", "0104f48fbfbf", Is(Kind::String, "\"\u{10ffff}\"")),
    row("the byte order mark", "0103efbbbf", Is(Kind::String, "\"\u{feff}\"")),
    row("127 times é and x: 255 bytes", "01 #255; (c3a9)*127; 78", Splits("\"{é*127}x\"")),
    row("a lone tail", "010180", Refused(4, 0)),
    row("an overlong form of two bytes", "0102c1bf", Refused(4, 0)),
    row("an overlong form of U+0000", "0102c080", Refused(4, 0)),
    row("an overlong form of three bytes", "0103e09fbf", Refused(4, 0)),
    row("a surrogate", "0103eda080", Refused(4, 0)),
    row("cut short by the text's end, which is the page's", "0101c3", Refused(4, 0)),
    row("cut short by the text's end, though the next byte would complete it", "0101c3a9", Refused(4, 0)),
    row("an overlong form of four bytes", "0104f08fbfbf", Refused(4, 0)),
    row("above U+10FFFF by the second byte", "0104f4908080", Refused(4, 0)),
    row("above U+10FFFF by the first byte", "0104f5808080", Refused(4, 0)),
    row("no tail where one is due", "0102c328", Refused(4, 0)),
    row("a tail too many", "0103c3a9a9", Refused(4, 0)),
    row("128 times é: 256 bytes in 128 characters", "01 #256; (c3a9)*128;", Refused(3, 0)),
    row("metric name é", "0202c3a900", Refused(4, 0)),
    row("function name é", "0b02c3a900000000", Refused(4, 0)),
    row("metric name that ends inside é", "0201c3a900", Refused(4, 0)),
    row("function name with a letter and a lone tail", "0b02668000000000", Refused(4, 0)),
    row("128 times é as a metric name: 3 before 4", "02 #256; (c3a9)*128; 00", Refused(3, 0)),
    row("33 times é as a function name: 66 bytes, 3 before 4", "0b42 (c3a9)*33; 00000000", Refused(3, 0)),
    row("é among labels", "02027570000a1b0103016102c3a9016201", Is(Kind::Vector, "sum by (a, \"é\", b) (up)")),
    row("a matcher on é, a town as a value", "0202757003000576696c6c65075ac3bc726963680102c3a9017800017a0179", Is(Kind::Vector, "up{\"é\"!=\"x\",ville=\"Zürich\",z=\"y\"}")),
    row("the order of matchers: quoted names by their bytes, then bare ones", "02027570040002c3a9017800027a7a01780003612062017800000178", Is(Kind::Vector, "up{\"\"=\"x\",\"a b\"=\"x\",\"é\"=\"x\",zz=\"x\"}")),
    row("the order of bytes is not that of UTF-16: U+FFFF before U+10000", "020275700200016104f0908080 00016103efbfbf", Prints("up{a=\"\u{ffff}\",a=\"\u{10000}\"}")),
    row("escapes beside é, U+2028 as it is", "010ac3a90a225cc3a9e280a8", Is(Kind::String, "\"é\\n\\\"\\\\é\u{2028}\"")),
    row("a pattern of é", "02000102016102c3a900", Is(Kind::Vector, "{a=~\"é\"}")),
    row("é* matches empty text", "0202757001020161 03c3a92a 01", Prints("up{a=~\"é*\"}")),
    row("an ill-formed label and an empty stack: 4 before 2", "0a1b010101ff01", Refused(4, 0)),
    row("a label that ends inside é and an empty stack: 4 before 2", "0a1b010101c301", Refused(4, 0)),
    row("19 by é", "0202757000020275700009010100010102c3a9010102c3a90000", Joint { record: 2, start: 22, length: 2, }),
    row("19 by the second label of the group list, é", "(0202757000)*2; 09010100 01 01 02c3a9 01 02 0165 02c3a9 0000", Joint { record: 2, start: 24, length: 2, }),
    row("é and e with a combining accent are two labels: no 19", "(0202757000)*2; 09010100 01 01 02c3a9 01 01 0365cc81 0000", Is(Kind::Vector, "up + on (\"é\") group_left (\"e\u{301}\") up")),
    row("é and e with a combining accent are two matchers", "0202757002 0002c3a90178 000365cc810178", Prints("up{\"e\u{301}\"=\"x\",\"é\"=\"x\"}")),
    row("100 bytes in 80 characters: one line", "022e 6d*46; 00 0a1b010128 (c3a9)*20; 01", Splits("sum by (\"{é*20}\") ({m*46})")),
    row("101 bytes in 81 characters: three lines", "022f 6d*47; 00 0a1b010128 (c3a9)*20; 01", Splits("sum by (\"{é*20}\") (\n  {m*47}\n)")),
    row("a text of 256 bytes, cut short inside é: 1 before 3 and 4", "01 #256; (c3a9)*100; c3", Refused(1, 0)),
    row("a text of 256 bytes that ends inside é, all there: 3 before 4", "01 #256; 78 (c3a9)*127; c3", Refused(3, 0)),
    row("a text of 255 bytes that ends inside é: 4", "01 #255; (c3a9)*127; c3", Refused(4, 0)),
    row("a text of 2 bytes, cut short inside é: 1 before 4", "0102c3", Refused(1, 0)),
];

/// Pages whose flag is not true to the pattern: the flag decides.
#[rustfmt::skip]
pub const OUTSIDE: &[Row] = &[
    row("é* with the flag 0", "02000102016103c3a92a00", Is(Kind::Vector, "{a=~\"é*\"}")),
    row("é* with the flag 0 under !~", "02000103016103c3a92a00", Refused(34, 0)),
];
