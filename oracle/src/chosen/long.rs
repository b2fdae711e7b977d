//! The longest outputs, and where 65,536 bytes do not suffice for the program.

use super::{row, Expected::*, Row};

#[rustfmt::skip]
pub const ROWS: &[Row] = &[
    row("a name of 120 bytes in 179 parens", "0278 61*120; 00 08*179;", Sizes(302, 478, 64_918)),
    row("a name of 120 bytes in 180 parens, the program", "0278 61*120; 00 08*180;", Writes("refused 5 at 181\n")),
    row("a name of 120 bytes in 255 parens", "0278 61*120; 00 08*255;", Sizes(378, 630, 131_190)),
    row("a name of 255 bytes in 255 parens", "02ff01 61*255; 00 08*255;", Sizes(514, 765, 131_325)),
    row("255 aggregates, sixteen empty labels each", "02016100 (0a190210 00*16; 01)*255;", Sizes(5359, 20_911, 150_451)),
    row("255 aggregates, labels of one quote", "02016100 (0a190210 (0122)*10; 00*6; 01)*255;", Sizes(7909, 26_011, 156_571)),
    row("127 wordy binaries leaning left, in a paren", "020161 06 (010000)*6; (020161 06 (010000)*6; 090301 01 0210 00*16; 0110 00*16; 0104 0102)*56; (020161 05 (010000)*5; 090301 01 0210 00*16; 0110 00*16; 0104 0102)*71; 08", Sizes(8192, 29_648, 62_672)),
    row("127 wordy binaries leaning right, in a paren", "(020161 06 (010000)*6;)*57; (020161 05 (010000)*5;)*71; (090301 01 0210 00*16; 0110 00*16; 0104 0102)*127; 08", Sizes(8192, 29_648, 62_672)),
    row("127 set operators without modifier, in a paren", "(0238 61*56; 00)*126; (0237 61*55; 00)*2; (090600)*127; 08", Sizes(8567, 7803, 40_827)),
    row("the longest copy: 127 set operators without modifier on a page of 8,192 bytes", "(023b 61*59; 00)*3; (023a 61*58; 00)*125; (090600)*127;", Sizes(8827, 8062, 40_574)),
];
