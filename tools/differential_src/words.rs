//! What generated lines are made of.

/// The line feed first: it ends a line in a log.
pub const WHITE_SPACE: [&str; 25] = [
    "\u{a}", "\u{9}", "\u{b}", "\u{c}", "\u{d}", "\u{20}", "\u{85}", "\u{a0}", "\u{1680}", "\u{2000}", "\u{2001}",
    "\u{2002}", "\u{2003}", "\u{2004}", "\u{2005}", "\u{2006}", "\u{2007}", "\u{2008}", "\u{2009}", "\u{200a}",
    "\u{2028}", "\u{2029}", "\u{202f}", "\u{205f}", "\u{3000}",
];
/// Near White_Space, in code point or in looks.
pub const NO_SPACE: [&str; 17] = [
    "\u{0}", "\u{8}", "\u{e}", "\u{1c}", "\u{1f}", "\u{21}", "\u{84}", "\u{86}", "\u{180e}", "\u{1fff}", "\u{200b}",
    "\u{2027}", "\u{202a}", "\u{2030}", "\u{2060}", "\u{3001}", "\u{feff}",
];

pub const NAMES: [&str; 36] = [
    "a", "b", "c", "d", "B", "ab", "dug", "cell", "input", "principal", "resource", "\"a\"", "\"b\"", "\"c\"", "\\x61",
    "\\u{61}", "\"\\u{61}\"", "\"\\x62\"", "é", "\"é\"", "\u{301}", "a b", "\"a:b\"", "\"a,b\"", "\"\"", "", "(a:b)",
    "[a:b]", "{a:b}", "\"", "\" a \"", "'a'", "\\'", "\"'\"", "\u{ffff}", "😀",
];

/// Names that differ, decoded or not.
pub const CALM_NAMES: [&str; 16] = [
    "a", "\"b\"", "\\x63", "é", "dug", "\"a:b\"", "B", "\"\"", "ab", "\u{301}", "\"'\"", "😀", "\"\\u{64}\"", "(a:b)", "a b", "\"\u{7f}\"",
];

pub const TYPES: [&str; 31] = [
    "User", "Cell", "Cell", "T", "T", "T", "Ns::Type", "A::B::C", "", "", "é", "x y", ":", "::", "a::\"b\"", "T\\", "\\u{41}",
    "\"T", "\"x\"", "T\u{7f}", "T'", "\\x41", "[T", "(T)", "null", "1", "'", "\u{301}x", "x\u{301}", "\u{202e}x", "x\u{a0}y",
];

/// One id spelled in several ways, so that keys meet.
pub const IDS: [&str; 22] = [
    "a", "a", "\\x61", "\\u{61}", "\\u{6_1}", "\\u{+61}", "K'7", "K\\'7", "K\\x277", "", "\\\"", "\\u{22}", "\\\\", "\\x5c",
    "\\n", "\\xa", "é", "\\xe9", "\u{301}", "\\u{301}", "\u{7f}", "\\x7f",
];

pub const ESCAPES: [&str; 64] = [
    "\\\"", "\\\\", "\\'", "\\n", "\\t", "\\r", "\\0", "\\u{41}", "\\u{4_1}", "\\u{_41}", "\\u{+41}", "\\u{-41}", "\\u{-0}",
    "\\u{+_41}", "\\u{_+41}", "\\u{4+1}", "\\u{++41}", "\\u{4_}", "\\u{4__1_}", "\\u{}", "\\u{_}", "\\u{+}", "\\u{0}",
    "\\u{D7FF}", "\\u{d800}", "\\u{DFFF}", "\\u{e000}", "\\u{10ffff}", "\\u{10FFFF}", "\\u{110000}", "\\u{0000041}",
    "\\u{00000041}", "\\u{000000041}", "\\u{100000041}", "\\u{FFFFFFFF}", "\\u{100000000}", "\\u{41 }", "\\u{ 41}", "\\u{g}",
    "\\u{\\n}", "\\u{\\x41}", "\\u{é}", "\\u{41", "\\u{", "\\u", "\\u41", "\\U{41}", "\\x4", "\\x41", "\\x414", "\\xff", "\\xFf",
    "\\x80", "\\x7f", "\\x", "\\xg", "\\x4g", "\\x+4", "\\X41", "\\q", "\\é", "\\ ", "\\f", "\\u{1F600}",
];

pub const NUMBERS: [&str; 62] = [
    "0", "-0", "+0", "+5", "7", "007", "-1", "-007", "+-1", "--1", "++1", "+", "-", "12.50", "1.", ".5", "+.5", "-.5", "-1.5e-3",
    "1.e1", "1.E1", "1.5E+3", "1.5e", "1.5e+", "1.5e-", "1.5e1.5", ".e1", ".", "+.", "-.", "..", "1..2", "1.5.2", "1e1", "1E5",
    "inf", "-inf", "inf.", "nan", "nan.", "infinity", "NaN", "Infinity", "0x1.", "1_0", "1_0.5", "1 .5", "1. 5", "1.5f", "1,5",
    "9223372036854775807", "-9223372036854775808", "9223372036854775808", "-9223372036854775809", "+9223372036854775807",
    "18446744073709551616", "18446744073709551615", "00000000000000000000000000005", "1.00000000000000000000000000001",
    "9223372036854775808.", "٣", "1٫5",
];

pub const WORDS: [&str; 36] = [
    "null", "true", "false", "null", "true", "false", "Null", "TRUE", "nul", "nulll", "x", "True", "\\n", "\\u{41}", "http://a/b",
    "a b", "T::id", "é\u{200b}", "\u{feff}", "-x", "\"", "\"x::\"", "\"x::\"y\"", "\"\\\"", "\"\"\"", "\"a\"b\"", "\"a\\\"", "'a'",
    "[b]c]", "{a:1}b}", "::\"\"", "a::\"b\"::\"c\"", "a::\"b\"c\"", "a::\"b\\\"", "a::\"b\\\\\"", "a::b\"",
];

/// What upsets the reading of all that follows.
pub const UPSETTING: [&str; 20] = [
    "\"", "\"x", "::\"q", "a\"b", "(", ")", "[", "]", "{", "}", "][", ")(", "}{", "\\", "\\\"", "\"\\", "(]", "{)", ",", ":",
];

pub const TIMES: [&str; 26] = [
    "0", "40", "1", "-1", "+7", "00", "-0", "9223372036854775807", "-9223372036854775808", "7", "12", "100", "3", "5", "8", "2",
    "9223372036854775808", "-9223372036854775809", "x", "", "1.5", "+", "1e1", "0x1", "1_0", "٣",
];

pub const PARTS: [&str; 16] =
    ["Dig", "Dig", "Action", "A", "", " B ", "é", ":", "\u{301}", "a'b", "\\x41", "\"", "a b", "::", ")", "\u{7f}"];
pub const KINDS: [&str; 18] =
    ["request", "response", "k", "k", "k", "a b", "::k", "::::k", ":k", "é", "k)", "", "\"k\"", "\\x41", "'", "\u{301}", "k\"", ":"];

/// Parts of a line that are refused, or read in their own way. The faults of one line meet in every order.
pub const SCOPES: [&str; 18] = [
    "", "", "", "scope()", "scope(a)", "scope(a:1,a:1)", "scope(p:{a})", "scope(principal:User::\"a)b\")", "scope(principal:1",
    "scope( principal :null)", "scope(resource:1,principal:2)", "scope(principal:1,principal:{a})", "scope (principal:1)",
    "scope(resource:T::\"a\")", "scope(principal:\"a\",resource:[1,{b:2}])", "scope(x:1,principal:(2)", "scope(a:1))", "scope(,)",
];
pub const ENTITIES: [&str; 48] = [
    "", "", "", "entities()", "entities(x)", "entities(T::\"a\"{})", "entities(T:{)", "entities(T:{b:2,b:2})", "entities(T:{}y)",
    "entities(T:{}in 1)", "entities(T:{}in[1])", "entities(T:{})", "entities(T::\"a\":{},T::\"\\x61\":{})", "entities(",
    "entities(])", "entities(][)", "entities(:{])", "entities(::\"\":{a:(}))", "entities(::\"\"::{})", "entities([{a}]:{})",
    "entities(x:{}y)", "entities(::\"\":{},::\"\":{}in[1])", "entities(T::\"a\":{}in)", "entities(T::\"a\":{}inx)",
    "entities(T::\"a\":{}i)", "entities(T::\"a\":{} in [T::\"b\",T::\"b\",])", "entities(T::\"a\":{}in[{c}])",
    "entities(T::\"a\":{b},T::\"a\":{})", "entities(T::\"a\":{},T::\"a\":{b})", "entities(T::\"a\":{},T::\"a\":{}y)",
    "entities (T::\"a\":{})", "entities(T::\"a)\":{})", "entities(T::\"a\":{b:\"}\"})", "entities(T::\"a\":{b:[}]})",
    "entities(T::\"a\":[{}])", "entities(T::\"b\":{z:1,a:2},T::\"a\":{})", "entities(x:{b}in[1])", "entities({a:1,a:1}:{}in[1])",
    "entities(T::\"a\":{}IN[])", "entities(T::\"a\" x{})", "entities(T:x{})", "entities(T::\"a\":{}in[],,)",
    "entities(T::\"a\":{}\u{a0}in\u{2003}[\u{3000}T::\"c\"\u{85}])", "entities(T::\"a\":{}{})", "entities(T::\"a\":{}in[T::\"a\"]x)",
    "entities(T::\"a\":{}),", "entities(T::\"a\":{(})", "entities(T::\"K'7\":{},T::\"K\\'7\":{})",
];
pub const CONTEXTS: [&str; 16] = [
    "", "", "", "request_context()", "request_context(a)", "request_context(b:1,b:2)", "request_context(", "request_context(])",
    "request_context(][)", "request_context (a:1)", "request_context(a:\")\")", "request_context(z:1,b:2)",
    "request_context(a:(b))", "request_context(a:{b})", "request_context(a:1))", "request_context(,a:1,)",
];
pub const ENDS: [&str; 35] = [
    "", "x", "x(", "x)", ")(", "x)(", "x()", "x(a)", "::\"a(a)", "::\"a\"(a)", "::\"\"::k(a)", "::\"\"::k(a:1,a:2)", "::\"\"::k()",
    "::\"\"::k(:)", "::\"(\"::k()", "::\"\"::k)()", "::\"\"::::k()", ":::\"\"::k()", "::\"\"::()", "::\"\":k()", "::\"\\\"\"::k()",
    "::\"\"::k(a:1) b", "::\"\"::k(a:1))", "::\"\"::k(a:(1)(2))", "A::\"b\"::\"c\"::k()", "::\"\" :: k ()", "::\"\"::k(\"a\":1,a:2)",
    "::\"\"::k(,,a:1,)", "::\"\"::k(a:1,a:{b})", "::\"a::k(a:1)", "::::\"\"::k()", " B ::\"\"::k()", "::\"\\x41\"::k()", "::\"\"::k(a:],b:1)",
    "::\"\"::k(a:\")",
];

pub const FRONT_FAULTS: [&str; 8] = ["", "0 ", "x", "@", "@0", "@x", "@x ", "@ "];
pub const HEAD_FAULTS: [&str; 10] =
    ["", "x", "(", "x(", ")(", "::(", "::\"(", "::\"\"(", "::\"\"::(", "::\"\"::k("];

/// The parts of an entry.
pub const BEFORE_ENTRIES: [&str; 3] = ["", "T::\"a\":{},", "T::\"a\":{b:1}in[T::\"b\"],"];
pub const ENTRY_KEYS: [&str; 9] =
    ["T::\"a\"", "T::\"\\x61\"", "x", "[{a}]", "{a:1,a:1}", "", "T::\"a\" ", "T", "::\"\""];
pub const ENTRY_COLONS: [&str; 8] = [":", ":", ":", ":", "", " : ", "::", ":x"];
pub const ENTRY_RECORDS: [&str; 16] = [
    "{}", "{}", "{}", "{}", "{b:1}", "{b}", "{b:1,b:1}", "{b:1,b:{c}}", "{(}", "{", "{]", "{b)", "[{}]", "{\"}\"}", "{b:\"}\"}",
    "{b:{c:1}}",
];
pub const ENTRY_TAILS: [&str; 15] = [
    "", "", "y", "in", "i", "IN[]", "in[", "in[]", "in[1]", "in[{c}]", "in[T::\"a\"]", "in [ T::\"a\" , ]", "in[T::\"b\"],", "in[]]",
    "in[[]]",
];
pub const PARENTS: [&str; 7] = ["T::\"b\"", "T::\"b\"", "1", "x", "{c}", "[{c:1,c:1}]", ""];

pub const INNERMOST: [&str; 12] = ["", "", "1", " ", ",", "[]", "[]", "{}", "{a}", "\"x\"", "T::\"a\"", "{a:1,a:2}"];
pub const NESTINGS: [(&str, &str); 7] =
    [("[", "]"), ("{a:", "}"), ("[ ", "]"), ("{a:[", "]}"), ("[1,", "]"), ("{b:1,a:", "}"), ("[", " ,]")];

pub const SPECIAL: [&str; 27] = [
    "\"", "\"", "\\", "(", ")", "[", "]", "{", "}", ":", ":", "::", "::\"", ",", ",", "@", " ", "\n", "in", "in[", "scope(",
    "entities(", "request_context(", "a:1", "é", ".", "\u{feff}",
];

/// Bytes that no UTF-8 has in this order, and bytes at its edges that it has.
pub const BYTES: [&[u8]; 24] = [
    b"\xff", b"\x80", b"\xc3", b"\xe2\x80", b"\xf0\x9f\x98", b"\xc0\x80", b"\xc1\xbf", b"\xe0\x80\x80", b"\xe0\x9f\xbf", b"\xed\xa0\x80",
    b"\xed\xbf\xbf", b"\xf0\x80\x80\x80", b"\xf0\x8f\xbf\xbf", b"\xf4\x90\x80\x80", b"\xf5\x80\x80\x80", b"\xfe", b"\xc2\x80", b"\xdf\xbf",
    b"\xe0\xa0\x80", b"\xed\x9f\xbf", b"\xee\x80\x80", b"\xf0\x90\x80\x80", b"\xf4\x8f\xbf\xbf", b"\xef\xbf\xbf",
];

/// What stands behind an event, in lines that are to be merged, and their ends.
pub const TAILS: [&str; 10] = ["", "", "", "", " tail", "x", "\u{200b}", "\u{feff}", " \u{1c}", "(] \u{3000}y"];
pub const PAIR_ENDS: [&str; 12] = [
    "\n", "\n", "\n", "\n", "\n", "\r\n", "\n\n", "\n \r\n", "\n\u{3000}\n", "\u{85}\n", "\u{2003}\n\t", "\n\n\n",
];

pub const LINE_ENDS: [&str; 16] = [
    "\n", "\n", "\n", "\n", "\r\n", "\r\n", "\n\n", "\n \r\n", "\n\u{3000}\n", "\r", "\u{2028}", "\u{85}", "\u{b}", "\n\u{feff}", "\n\u{200b}\n",
    "\n\t\n\n",
];
