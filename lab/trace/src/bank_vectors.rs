//! Files with banks, and the lines derived for them by hand from document 02's Ask 5.

/// Steps and settings, worked out line by line.
pub const DERIVED: [(&str, &str); 26] = [
    // A first count of 7 and B = 1: no steps, and one. With 6 the same numbers are one step.
    ("7 4 2 1 2 2 5 1 0", ""),
    ("7 4 2 1 2 2 5 1 1 0", "1 0 0 - -\n"),
    ("6 4 2 1 2 2 5 1 0", "1 0 0 - -\n"),
    ("0007 4 2 1 2 2 5 016 1 3", "1 0 3 - -\n"),
    // The range of B; 1 comes before 2, and before K × B.
    ("7 4 2 1 2 2 5 16 0", ""),
    ("7 4 2 1 2 2 5 0 0", "0 1 - - -\n"),
    ("7 4 2 1 2 2 5 17 0", "0 1 - - -\n"),
    ("7 4 2 1 2 2 5 4294967295 0", "0 1 - - -\n"),
    ("7 4 2 1 2 2 6 17 1 3", "0 1 - - -\n"),
    ("7 4 2 1 4096 1 4096 17 0", "0 1 - - -\n"),
    ("7 4 1 1 4096 1 4096 16 0", "0 1 - - -\n"),
    // The check of 2 is a bank's: 16 banks do not raise what L may be. It comes before K × B.
    ("7 4 2 1 2 2 6 16 0", "0 2 - - -\n"),
    ("7 4 2 1 4096 1 4097 2 0", "0 2 - - -\n"),
    // K × B of exactly 4,096, and of a little less.
    ("7 4 2 1 4096 1 4096 1 0", ""),
    ("7 4 2 1 2048 1 2048 2 1 1", "1 0 1 0 -\n"),
    ("7 4 2 1 1365 1 1365 3 1 1", "1 0 1 0 -\n"),
    ("7 4 2 1 256 1 256 16 1 3", "1 0 3 0 -\n"),
    // Document 01's session with two banks. Slot 0, physical row 4, and rows 0 and 2 are of bank 0; slot 1, physical row 5,
    // and rows 1 and 3 are of bank 1. Steps 1, 2 and 5 count in bank 1, steps 3 and 4 in bank 0; so step 6 is not refused
    // with 8. It makes the count of slot 1 equal to A, but slot 0 is worn and slot 1 the row's own: 9. Step 11 would pass
    // slot 1, which is worn in the other bank, and with slot 0 that would be three slots of two. The rest is as in 02.
    (
        "7 4 2 1 2 2 5 2 17 1 1 1 1 1 1 65535 1 1 2 2 3 65535 3 3 2 2",
        "1 0 1 - -\n2 0 1 0 -\n3 0 4 - -\n4 0 4 1 -\n5 0 5 - -\n6 9 - - -\n7 0 - - -\n8 0 5 - -\n9 0 5 0 -\n\
         10 0 2 - -\n11 9 - - -\n12 0 3 - -\n13 0 - - -\n14 0 3 - -\n15 0 3 1 -\n16 0 2 - -\n17 0 2 0 1\n",
    ),
    // 8 looks at the place's bank. Row 1 of bank 1 moves to slot 0, physical row 2 of bank 0; row 0 of bank 0 moves to
    // slot 1, physical row 3 of bank 1. Bank 0 has then had 2 accesses, and step 5 is its third, by `spill`. So step 6
    // gets 8, though bank 1, the home's, has room; step 7 is bank 1's third, though bank 0, the home's, is full; and step
    // 8 gets 8.
    (
        "7 2 2 1 1 2 3 2 8 1 1 0 0 1 1 0 0",
        "1 0 1 - -\n2 0 1 0 -\n3 0 0 - -\n4 0 0 1 -\n5 0 2 - -\n6 8 - - -\n7 0 3 - -\n8 8 - - -\n",
    ),
    // L is a bank's: with four banks of one access each, four rows are read; the fifth, of bank 0 again, gets 8.
    ("7 5 6 1 1 2 1 4 5 0 1 2 3 4", "1 0 0 - -\n2 0 1 - -\n3 0 2 - -\n4 0 3 - -\n5 8 - - -\n"),
    // Each bank has its own entry and `spill`. Row 1 is counted twice by bank 1's entry, and moved. Row 2 finds bank 0's
    // entry taken by row 0, with a count of 1, and raises bank 0's `spill`; its second read takes the entry with a count
    // of 2.
    ("7 4 4 1 1 2 3 2 5 0 1 1 2 2", "1 0 0 - -\n2 0 1 - -\n3 0 1 0 -\n4 0 2 - -\n5 0 2 1 -\n"),
    // B = 2 and one slot less than twice the figure, which is 2 L / A = 2: slot 0 is worn in bank 0 and slot 1 is the row's
    // own, so row 1 would need four slots of three (A = 1, then A = 2). With four slots it takes the last.
    ("7 4 3 1 1 1 1 2 5 0 1 65535 0 1", "1 0 0 0 -\n2 0 1 1 -\n3 0 - - -\n4 0 4 2 -\n5 9 - - -\n"),
    (
        "7 4 3 1 1 2 2 2 9 0 0 1 1 65535 0 0 1 1",
        "1 0 0 - -\n2 0 0 0 -\n3 0 1 - -\n4 0 1 1 -\n5 0 - - -\n6 0 4 - -\n7 0 4 2 -\n8 0 5 - -\n9 9 - - -\n",
    ),
    ("7 4 4 1 1 1 1 2 5 0 1 65535 0 1", "1 0 0 0 -\n2 0 1 1 -\n3 0 - - -\n4 0 4 2 -\n5 0 5 3 -\n"),
    // A tick gives every bank its accesses again, and leaves the head.
    (
        "7 2 4 1 1 1 1 2 7 0 1 0 65535 0 1 1",
        "1 0 0 0 -\n2 0 1 1 -\n3 8 - - -\n4 0 - - -\n5 0 2 2 -\n6 0 3 3 -\n7 8 - - -\n",
    ),
    // The largest of each kind that a trace may have, with 16 banks.
    ("7 27268 5500 1 256 1 256 16 2 27267 27267", "1 0 27267 0 -\n2 0 27268 1 -\n"),
];

/// Files refused whole.
pub const NO_TRACE: [&str; 17] = [
    // A section alone, or less than one: with a first count of 7 seven settings are due.
    "7",
    "7 4 2 1 2 2 5",
    "7 4 2 1 2 2 5 1",
    "7 4 2 1 2 2 5 17",
    // Counts that do not fit.
    "8 4 2 1 2 2 5 1 0",
    "8 4 2 1 2 2 5 1 1 0",
    "9 4 2 1 2 2 5 1 1 1 0",
    "7 4 2 1 2 2 5 1 1",
    "7 4 2 1 2 2 5 1 0 0",
    "7 4 2 1 2 2 5 1 4097 1",
    "4294967303 4 2 1 2 2 5 1 0",
    // The form is judged before the settings.
    "7 4 2 1 2 2 5 0 1",
    // K × B is above 4,096: by 2, which is the least, by more, and as much as can be.
    "7 4 2 1 2049 1 2049 2 0",
    "7 4 2 1 257 1 257 16 0",
    "7 4 2 1 4096 1 4096 2 0",
    "7 4 2 1 4096 1 4096 16 1 0",
    // And so is the store.
    "7 60000 5500 8192 4096 1 4096 16 0",
];
