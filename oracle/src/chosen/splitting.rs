//! Split texts, by page. In a text `{a*60}` stands for sixty letters a.

use super::{row, Expected::*, Row};

#[rustfmt::skip]
pub const ROWS: &[Row] = &[
    row("binary", "023c 61*60; 00023c 61*60; 00090100", Splits("  {a*60}\n+\n  {a*60}")),
    row("unary over a split binary", "023c 61*60; 00023c 61*60; 0009010007", Splits("-{a*60}\n+\n  {a*60}")),
    row("unary of unary over a split binary in parens in unary", "023c 61*60; 00023c 61*60; 0009010007070807", Splits("-(\n  --{a*60}\n  +\n    {a*60}\n)")),
    row("subquery over a split binary", "023c 61*60; 00023c 61*60; 0009010004e0a712000501", Splits("  {a*60}\n+\n  {a*60}[5m:] @ end()")),
    row("unary over a long selector", "0278 61*120; 0007", Splits("-{a*120}")),
    row("sum by over long", "0278 61*120; 000a1b0101017801", Splits("sum by (x) (\n  {a*120}\n)")),
    row("topk over long", "0000050278 61*120; 000a1c0002", Splits("topk(\n  5,\n  {a*120}\n)")),
    row("call over long, a short argument beside", "0278 61*120; 000000010b05726f756e6402000102010002", Splits("round(\n  {a*120},\n  1\n)")),
    row("call without arguments, never long (name at most 64)", "0b40 66*64; 00000000", Splits("{f*64}()")),
    row("binary in a binary, left short", "020275700002027570000901000264 61*100; 00090c00", Splits("  up + up\n*\n  {a*100}")),
    row("a string literal over 100 bytes as an argument", "016e 73*110; 0b01660103000001", Splits("f(\n  \"{s*110}\"\n)")),
    row("a line feed in a string is escaped, a vertical tab is not", "01660a0b 73*100; 0b01660103000001", Splits("f(\n  \"\\n\x0b{s*100}\"\n)")),
    row("unary first operand of a split binary", "0202757000070264 61*100; 00090100", Splits("  -up\n+\n  {a*100}")),
    row("negative number as the left operand of a negated split binary", "0001030264 61*100; 0009010007", Splits("--3\n+\n  {a*100}")),
    row("unary of 101 bytes whose operand has 100", "0230 61*48; 00 0231 62*49; 00 090100 07", Splits("-{a*48} + {b*49}")),
    row("subquery of 105 bytes whose operand has 100", "0230 61*48; 00 0231 62*49; 00 090100 04e0a71200", Splits("{a*48} + {b*49}[5m:]")),
    row("subquery over a long selector", "0278 61*120; 0004e0a71200", Splits("{a*120}[5m:]")),
    row("aggregate of 100 bytes", "025f 61*95; 00 0a1b0001", Splits("sum({a*95})")),
    row("aggregate of 101 bytes", "0260 61*96; 00 0a1b0001", Splits("sum(\n  {a*96}\n)")),
    row("call of 100 bytes", "0261 61*97; 00 0b016601000000 01", Splits("f({a*97})")),
    row("call of 101 bytes", "0262 61*98; 00 0b016601000000 01", Splits("f(\n  {a*98}\n)")),
    row("paren of 100 bytes", "0262 61*98; 00 08", Splits("({a*98})")),
    row("paren of 101 bytes", "0263 61*99; 00 08", Splits("(\n  {a*99}\n)")),
    row("three levels", "0264 61*100; 00 08 0a1b0001 0202757000 090100", Splits("  sum(\n    (\n      {a*100}\n    )\n  )\n+\n  up")),
];
