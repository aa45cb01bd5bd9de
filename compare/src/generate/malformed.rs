//! Lines that are no operation, whatever the current device is.

#[rustfmt::skip]
pub const LINES: &[&[u8]] = &[
    // Words.
    b" ", b"  ", b"\t", b"\r", b"\0", b"x", b"?", b"-", b" #", b"\xff\xfe", b"\xc3\xa4",
    b"serial ", b" serial", b"Serial", b"SERIAL", b"serial\r", b"serial\t", b"serial\0", b"serial 1",
    b"serials", b"seria", b"serial#", b"clock ", b"clock 0", b"Clock", b"cloc", b"clocks", b"clock\r",
    b"i8042 ", b"i804", b"I8042", b"i80420", b"i8042 0", b"8042",
    b"room ", b"room 1", b"rooms", b"roo", b"Room", b"state ", b"state 0", b"states", b"stat", b"STATE",
    // Bulk input.
    b"b ", b"b  ", b"b 0", b"b 000", b"b 6g", b"b g6", b"b 6A", b"b 61 62", b"b  61", b" b 61", b"b61",
    b"B 61", b"b 61 ", b"b 61\r", b"b 0x61", b"b 6 1", b"bb", b"b -", b"b 61-", b"b 61,62", b"b 6\xff",
    // Single bytes.
    b"w", b"w ", b"w 00", b"w 00 ", b"w 0 00", b"w 00 0", b"w 000 00", b"w 00 000", b"w 00 00 ",
    b"w 00  00", b"w  00 00", b" w 00 00", b"w 00 00 00", b"w 0A 00", b"w 00 FE", b"w 04 Fe", b"w 04,fe",
    b"w 04 fe\r", b"w 04\tfe", b"w\t04 fe", b"w -4 fe", b"w +4 fe", b"w 04 -e", b"w 4 fe", b"w 0x04 0xfe",
    b"w g4 fe", b"w 4g fe", b"w 04 ge", b"w 04 fg", b"w 04 /e", b"w 04 :e", b"w 04 `e", b"w 04 @e",
    b"w04 fe", b"w 04fe", b"W 04 fe", b"w 04 fe\0", b"w 04 \xfe", b"ww 04 fe", b"w w 04 fe", b"w 04 fe#",
    b"r", b"r ", b"r 0", b"r 000", b"r 0G", b"r 0A", b"r 00 ", b"r  00", b" r 00", b"r 00 00", b"R 00",
    b"r00", b"r 00\r", b"r 0x00", b"r -0", b"r 00#", b"rr 00", b"r r",
    // Words of four bytes.
    b"r 00 aabbccdd", b"r 0000", b"r 0000 ", b"r 0000 00", b"r 0000 aabbccd", b"r 0000 aabbccdde",
    b"r 0000 aabbccddee", b"r 0000 AABBCCDD", b"r 0000 aabbccdg", b"r 0000 gabbccdd", b"r 000G aabbccdd",
    b"r 000A aabbccdd", b"r 00000 aabbccdd", b"r 000 aabbccdd", b"r 0000 aabbccdd ", b"r 0000  aabbccdd",
    b"r  0000 aabbccdd", b"r 0000 aabbccdd 00", b"r 0000 aa bb cc dd", b"R 0000 aabbccdd",
    b"r 0000aabbccdd", b"r 0000 aabbccdd\r", b"r 0x00 aabbccdd", b"r 0000 0xbbccdd",
    b"w 00 aabbccdd", b"w 0000", b"w 0000 ", b"w 0000 00", b"w 0000 aabbcc", b"w 0000 aabbccd",
    b"w 0000 aabbccddee", b"w 0004 AABBCCDD", b"w 000C 01000000", b"w 0004 aabbccdg", b"w 00004 aabbccdd",
    b"w 004 aabbccdd", b"w 0004 aabbccdd ", b"w 0004  aabbccdd", b"w 0004 aabbccdd ok", b"W 0004 aabbccdd",
    b"w 0004 aabbccdd\r", b"w 0004aabbccdd", b"w -004 aabbccdd", b"w 0004 -abbccdd",
    // The time.
    b"now", b"now ", b"now  ", b"now -1", b"now +1", b"now 1 ", b"now  1", b" now 1", b"now 1 2", b"now 1a",
    b"now a", b"now 0x10", b"now 1.5", b"now 1e3", b"now 1_000", b"now 1,000", b"Now 1", b"NOW 1", b"now1",
    b"now 1\r", b"now -", b"now /", b"now :", b"now 18446744073709551616", b"now 18446744073709551625",
    b"now 18446744073709551620", b"now 18446744073709552000", b"now 99999999999999999999",
    b"now 36893488147419103232", b"now 184467440737095516160", b"now 100000000000000000000000000000000000",
];

/// Such lines about the line, about counters, about sizes, and about saved states. They have lists of their own: from the
/// lines above random lists draw that have none of these, and a seed is to make the same one always.
#[rustfmt::skip]
pub const ABOUT_THE_LINE: &[&[u8]] = &[
    b"line ", b" line", b"Line", b"LINE", b"lin", b"lines", b"line 0", b"line 1", b"line\r", b"line\t", b"line\0", b"line#",
    b"line line", b"line ?", b"line  ",
];

#[rustfmt::skip]
pub const ABOUT_COUNTERS: &[&[u8]] = &[
    b"counters ", b" counters", b"Counters", b"COUNTERS", b"counter", b"counterss", b"counters 0", b"counters 0 0", b"counters 0 0 0 0",
    b"counters\r", b"counters\t", b"counters\0", b"counters#", b"counters counters", b"counters -", b"counters  ",
    b"lost ", b" lost", b"Lost", b"LOST", b"los", b"losts", b"lost 0", b"lost 1", b"lost 55", b"lost\r", b"lost\t", b"lost\0", b"lost#",
    b"lost lost", b"lost -", b"lost  ",
];

#[rustfmt::skip]
pub const SIZES: &[&[u8]] = &[
    // Numbers between, above and below the seven, and such as are one of them in fewer bits.
    b"serial 0", b"serial 1", b"serial 2", b"serial 4", b"serial 8", b"serial 15", b"serial 17", b"serial 24", b"serial 31", b"serial 33",
    b"serial 48", b"serial 63", b"serial 65", b"serial 96", b"serial 100", b"serial 127", b"serial 192", b"serial 255", b"serial 257",
    b"serial 511", b"serial 513", b"serial 1000", b"serial 1023", b"serial 1025", b"serial 2048", b"serial 4096", b"serial 65536",
    b"serial 65552", b"serial 66560", b"serial 4294967312", b"serial 4294968320", b"serial 18446744073709551616",
    b"serial 18446744073709551632", b"serial 18446744073709552640", b"serial 100000000000000000000000000000000000000016",
    // The seven, written otherwise.
    b"serial 016", b"serial 0064", b"serial 01024", b"serial 16 ", b"serial  16", b" serial 16", b"serial 16 16", b"serial 16 64",
    b"serial 16\r", b"serial 16\t", b"serial\t16", b"serial 16\0", b"serial 16#", b"serial +16", b"serial -16", b"serial 16.0",
    b"serial 1,024", b"serial 1 024", b"serial 1_024", b"serial 0x10", b"serial 0x40", b"serial 10", b"serial 40", b"serial 400",
    b"serial 1k", b"serial 1K", b"serial a", b"serial -", b"serial ?", b"serial 6", b"serial 64b", b"serial 64 bytes", b"serial 1e3",
    b"Serial 64", b"SERIAL 64", b"serial64", b"serials 64", b"seria 64", b"64 serial", b"serial serial", b"64", b"size 64", b"serial /6",
    b"serial 1:", b"serial \xb16",
    // The other devices have none.
    b"clock 16", b"clock 64", b"i8042 16", b"i8042 64", b"room 64", b"state 64", b"save 64", b"restore 64",
];

#[rustfmt::skip]
pub const SAVES: &[&[u8]] = &[
    // Words.
    b"save ", b" save", b"Save", b"SAVE", b"saves", b"sav", b"save 1", b"save -", b"save\r", b"save\0", b"save save",
    b"restore ", b" restore", b"Restore", b"RESTORE", b"restor", b"restores", b"restore\r", b"restore  ", b"restored",
    b"restore -", b"restore 00", b"restore 0", b"restore full", b"restore reached", b"restore restore", b"restore-",
    // Ports: a register or the bytes missing, one too many, and slips in each.
    b"restore 0c 00 00 01 03 60 08 b0 -", b"restore 0c 00 00 01 03 60 08 b0 00", b"restore 0c 00 00 01 03 60 08 b0 00 ",
    b"restore 0c 00 00 01 03 60 08 b0 00 00 -", b"restore 0c 00 00 01 03 60 08 b0 00 0 -",
    b"restore 0c 00 00 01 03 61 08 b0 00 2 6162", b"restore 0c 00 00 01 03 61 08 b0 00 61 62",
    b"restore 0c 00 00 01 03 61 08 b0 00 6", b"restore 0c 00 00 01 03 61 08 b0 00 616", b"restore 0c 00 00 01 03 61 08 b0 00 6A",
    b"restore 0c 00 00 01 03 61 08 b0 00 6g", b"restore 0c 00 00 01 03 61 08 b0 00 61-", b"restore 0c 00 00 01 03 61 08 b0 00 -61",
    b"restore 0c 00 00 01 03 60 08 b0 00 --", b"restore 0c 00 00 01 03 60 08 b0 00 - ", b"restore 0c 00 00 01 03 60 08 b0 00 -\r",
    b"restore 0c 00 00 01 03 60 08 b0 00  -", b"restore  0c 00 00 01 03 60 08 b0 00 -", b"restore 0c 00 00 01 03 60 08 b0  00 -",
    b"restore 0C 00 00 01 03 60 08 b0 00 -", b"restore 0c 00 00 01 03 60 08 b0 0g -", b"restore 0c 0 00 01 03 60 08 b0 00 -",
    b"restore 0c 000 0 01 03 60 08 b0 00 -", b"restore 0c 00 00 1 003 60 08 b0 00 -", b"restore 0c 00 00 01 03 60 08 b 000 -",
    b"restore 0c 00 00 01 03 60 08 - 00 -", b"restore 0c000001036008b000 -", b"restore 0c 00 00 01 03 60 08 b0 00-",
    b"Restore 0c 00 00 01 03 60 08 b0 00 -", b"save 0c 00 00 01 03 60 08 b0 00 0 -", b"state 0c 00 00 01 03 60 08 b0 00 0 -",
    b" restore 0c 00 00 01 03 60 08 b0 00 -", b"restore 0c 00 00 01 03 60 08 b0 00 - -", b"restore\t0c 00 00 01 03 60 08 b0 00 -",
    // Clocks.
    b"restore 00000005 fffffffffffffc18 80000000 00000001", b"restore 00000005 fffffffffffffc18 80000000 00000001 ",
    b"restore 00000005 fffffffffffffc18 80000000 00000001 00000000 ",
    b"restore 00000005 fffffffffffffc18 80000000 00000001 00000000 00000000",
    b"restore 0000005 fffffffffffffc18 80000000 00000001 00000000", b"restore 000000005 fffffffffffffc18 80000000 00000001 00000000",
    b"restore 00000005 ffffffffffffc18 80000000 00000001 00000000", b"restore 00000005 ffffffffffffffc18 80000000 00000001 00000000",
    b"restore 00000005 fffffc18 80000000 00000001 00000000", b"restore 00000005 -000000000000001 80000000 00000001 00000000",
    b"restore 00000005 FFFFFFFFFFFFFC18 80000000 00000001 00000000", b"restore 00000005 fffffffffffffc1g 80000000 00000001 00000000",
    b"restore 0000000A fffffffffffffc18 80000000 00000001 00000000", b"restore 00000005 fffffffffffffc18 8000000 00000001 00000000",
    b"restore 00000005 fffffffffffffc18 80000000 1 00000000", b"restore 00000005 fffffffffffffc18 80000000 00000001 0000000",
    b"restore 00000005 fffffffffffffc18 80000000 00000001 0000000000", b"restore 00000005 fffffffffffffc18 80000000 00000001 00000000\r",
    b"restore 00000005 ffffffff fffffc18 80000000 00000001 00000000", b"restore 00000005  fffffffffffffc18 80000000 00000001 00000000",
    b"restore 00000005fffffffffffffc18800000000000000100000000", b"restore 00000005 fffffffffffffc18 80000000 00000001 -",
    b"restore 0x000005 fffffffffffffc18 80000000 00000001 00000000", b"save 00000005 fffffffffffffc18 80000000 00000001 00000000",
];
