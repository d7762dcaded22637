//! Rule texts that are easily read wrongly, and long ones, with answers worked out by hand.

use crate::refusal::Refusal;

/// Document 01's P12.
pub const SECOND_DOSE: &str = "G (s0 -> X (!s0 U s1))";

/// Parts of a text, each so many times.
pub type Parts = Vec<(&'static str, usize)>;

/// Parts one after the other, each so many times.
pub fn repeated(parts: &[(&str, usize)]) -> Vec<u8> {
    parts.iter().map(|(part, count)| part.repeat(*count)).collect::<String>().into_bytes()
}

pub fn refused(number: u8, place: usize) -> Result<usize, Refusal> {
    Err(Refusal::new(number, place))
}

/// Texts, numbers of signals and lengths of files: six bytes, five for a signal or a prefix, four for a
/// constant, six for a binary sign.
pub const FITTING: [(&str, u8, usize); 14] = [
    (SECOND_DOSE, 2, 48),
    ("X s0 U s1", 2, 27),
    ("X (s0 U s1)", 2, 27),
    ("s0 U s1 U s2", 3, 33),
    ("s0 -> s1 -> s2", 3, 33),
    ("s0 & s1 & s2", 3, 33),
    ("s0Us1", 2, 22),
    ("trueUs0", 1, 21),
    ("trueUfalse", 1, 20),
    ("  ( ( s0 ) )  ", 1, 11),
    ("XXXXXXXs0", 1, 46),
    ("s3", 4, 11),
    ("true", 1, 10),
    ("FfalseU!Gtrue", 4, 35),
];

/// Texts that merely stop.
pub const STOPPING: [&str; 29] = [
    "",
    " ",
    "   ",
    "s",
    "t",
    "tru",
    "f",
    "fals",
    "!",
    "X",
    "F",
    "G",
    "! ",
    "(",
    "((",
    "(s0",
    "(s0 ",
    "((s0)",
    "s0 U",
    "s0 & ",
    "s0-",
    "s0 ->",
    "s0<",
    "s0 <-",
    "s0 <->",
    "s0 -> s",
    "(s0 U (s1 & fa",
    "s0 |",
    "X(",
];

/// Texts with a byte that cannot stand where it does.
pub const MISFITS: [(&str, usize); 44] = [
    (")", 0),
    ("()", 1),
    ("( )", 2),
    ("s0)", 2),
    ("(s0))", 4),
    ("(s0)(s1)", 4),
    ("s4", 1),
    ("s 0", 1),
    ("S0", 0),
    ("s0 s1", 3),
    ("s0s1", 2),
    ("s01", 2),
    ("s0 X s1", 3),
    ("s0!", 2),
    ("s0 true", 3),
    ("truefalse", 4),
    ("tr ue", 2),
    ("tRue", 1),
    ("falsee", 5),
    ("&s0", 0),
    ("U", 0),
    ("->", 0),
    ("- >", 0),
    ("<-", 0),
    ("<->", 0),
    ("s0 - > s1", 4),
    ("s0 < -> s1", 4),
    ("s0 <- > s1", 5),
    ("s0 <-s1", 5),
    ("s0 <> s1", 4),
    ("s0 -- s1", 4),
    ("s0 ->> s1", 5),
    ("s0 && s1", 4),
    ("s0 U U s1", 5),
    ("X & s0", 2),
    ("!)", 1),
    ("(s0 U )", 6),
    ("s0 = s1", 3),
    ("s0\t", 2),
    ("s0\n", 2),
    ("\ns0", 0),
    ("s0\0", 2),
    ("(s0 & s1)) -> s", 9),
    ("s0 U s1\r\n", 7),
];

/// Texts of about as many bytes as are taken, over one signal, and what is answered to them.
pub fn long_texts() -> Vec<(Parts, Result<usize, Refusal>)> {
    let s0 = ("s0", 1);
    vec![
        (vec![("(", 511), s0, (")", 511)], Ok(11)),
        (vec![("(", 510), s0, (")", 510)], Ok(11)),
        (vec![("( ", 255), s0, (" )", 256)], refused(15, 1023)),
        (vec![(" ", 1021), s0], Ok(11)),
        (vec![(" ", 1022), s0], Ok(11)),
        (vec![(" ", 1023), s0], refused(15, 1024)),
        (vec![s0, (" ", 1021)], Ok(11)),
        (vec![s0, (" ", 1022)], Ok(11)),
        (vec![s0, (" ", 1023)], refused(15, 1024)),
        (vec![(" ", 1023)], refused(15, 1023)),
        (vec![(" ", 1024)], refused(15, 1024)),
        (vec![("(", 1023)], refused(15, 1023)),
        (vec![("(", 1024)], refused(15, 1024)),
        (vec![("(", 512), s0, (")", 510)], refused(15, 1024)),
        (vec![("(", 510), s0, (")", 512)], refused(15, 1022)),
        (vec![("(", 1023), (")", 1)], refused(15, 1023)),
        (vec![("!", 1023)], refused(15, 1023)),
        (vec![("!", 1024)], refused(15, 1024)),
        (vec![("!", 1022), s0], refused(16, 0)),
        (vec![("X", 1022), s0], refused(16, 0)),
        (vec![("(!", 340), s0, (")", 340)], refused(16, 0)),
        (vec![("s0&", 340), s0], refused(16, 0)),
        (vec![("s0U", 340), s0], refused(16, 0)),
        (vec![("s0 -> ", 170), s0], refused(16, 0)),
        (vec![("s0 U ", 204), ("s0X", 1)], refused(15, 1022)),
        (vec![("s0|", 341)], refused(15, 1023)),
        (vec![("s0^", 341), ("s", 1)], refused(15, 1024)),
        (vec![("s0<->", 204), ("fals", 1)], refused(15, 1024)),
        (vec![(")", 1024)], refused(15, 0)),
        (vec![(" ", 1023), (")", 1)], refused(15, 1023)),
    ]
}
