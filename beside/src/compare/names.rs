//! The names of what is met of DELs and of the DEL mode, for the table.

pub type Name = &'static str;

// Read in mode 0.
pub const AS_TEXT: Name = "DEL as text";
pub const AS_DATA: Name = "DEL as data";

// Read in mode 1.
pub const AN_ITEM: Name = "DEL an item";
pub const LAST_ITEM: Name = "DEL an item at the end";
pub const BEFORE_FIRST: Name = "DEL between ESC and letter";
pub const BETWEEN_LETTERS: Name = "DEL between letters";
pub const BEFORE_PARAMETER: Name = "DEL before a parameter";
pub const BEFORE_ENTRY: Name = "DEL before an entry";
pub const IN_INTEGER: Name = "DEL inside an integer";
pub const IN_POINT: Name = "DEL inside a point";
pub const IN_PAIR: Name = "DEL inside a pair";

// Refused in mode 1.
pub const BEFORE_PLACE: Name = "DEL before a refused place";
pub const PASSED_OVER: Name = "DEL passed over";
pub const AT_END: Name = "DEL at the end of the bytes";
pub const ESC_AT_END: Name = "27 DEL at the end";
pub const ESC_BEFORE_OTHER: Name = "27 DEL other byte";

// KI, read or written.
pub const KI_SETS: Name = "KI sets";
pub const KI_CLEARS: Name = "KI clears";
pub const KI_LEAVES: Name = "KI leaves";
pub const KI_REFUSED: Name = "KI refused";

// Written: in mode 0, and in mode 1.
pub const AS_ITSELF: Name = "127 as itself";
pub const LONGEST: Name = "776 bytes in mode 0";
pub const PAIR_IN_INTEGER: Name = "pair in an integer";
pub const PAIR_IN_POINT: Name = "pair in a point";
pub const PAIR_IN_STRING: Name = "pair in a string";
pub const PAIR_IN_ARRAY: Name = "pair in an array";
pub const PAIR_IN_CHARACTERS: Name = "pair in IQ";
pub const PAIR_IN_KI: Name = "pair in KI";
pub const LONGEST_WITH_PAIRS: Name = "1033 bytes in mode 1";

// Expanded, with mode 1 at its start or its end.
pub const MODE_SET: Name = "mode set";
pub const MODE_CLEARED: Name = "mode cleared";
pub const MODE_HELD: Name = "mode held behind a KX";
pub const POINT_MOVED: Name = "point moved";
pub const ITEM_COPIED: Name = "DEL copied, an item";
pub const COMMAND_COPIED: Name = "DEL copied in a command";
pub const DATA_COPIED: Name = "DEL copied in mode 0";
pub const LEFT_OUT: Name = "DEL left out with its KX";
pub const ABSENT: Name = "absent macro in mode 1";

/// Another number than 0 and 1 in the place of the mode.
pub const MODE_OUTSIDE: Name = "mode outside";

pub const WHERE_READ: [Name; 11] = [
    AS_TEXT,
    AS_DATA,
    AN_ITEM,
    LAST_ITEM,
    BEFORE_FIRST,
    BETWEEN_LETTERS,
    BEFORE_PARAMETER,
    BEFORE_ENTRY,
    IN_INTEGER,
    IN_POINT,
    IN_PAIR,
];
pub const WHERE_REFUSED: [Name; 5] = [
    BEFORE_PLACE,
    PASSED_OVER,
    AT_END,
    ESC_AT_END,
    ESC_BEFORE_OTHER,
];
pub const BY_KI: [Name; 3] = [KI_SETS, KI_CLEARS, KI_LEAVES];
pub const WHERE_WRITTEN: [Name; 9] = [
    AS_ITSELF,
    LONGEST,
    PAIR_IN_INTEGER,
    PAIR_IN_POINT,
    PAIR_IN_STRING,
    PAIR_IN_ARRAY,
    PAIR_IN_CHARACTERS,
    PAIR_IN_KI,
    LONGEST_WITH_PAIRS,
];
pub const WHERE_EXPANDED: [Name; 9] = [
    MODE_SET,
    MODE_CLEARED,
    MODE_HELD,
    POINT_MOVED,
    ITEM_COPIED,
    COMMAND_COPIED,
    DATA_COPIED,
    LEFT_OUT,
    ABSENT,
];
