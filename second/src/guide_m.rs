//! Guide M (rule book, section 9).

use crate::guide::{Guide, Kind};

/// The table of guide M as the rule book prints it.
pub const TABLE: &str = "\
| 1 | ST | 1–1 | 01! {855}; 02! AN 4–9 | |
| 2 | BAK | 1–1 | 01! {00}; 02! {AC AD AK RD RJ}; 03! AN 1–22; 04! D8; 05 AN 1–30; 09! D8 | |
| 3 | CUR | 0–1 | 01! {BY}; 02! ID 3 | |
| 4 | REF [IA] | 1–1 | 01! {IA}; 02! AN 1–30 | |
| 5 | N9 [L1], opens a loop | 0–1,000 | 01! {L1}; 02! AN 1–30 | |
| 6 | · MSG | 1–1,000 | 01! AN 1–264 | |
| 7 | N1 [VN] | 1–200 | 01! {VN}; 02! AN 1–60; 03! {92}; 04! AN 2–80 | |
| 8 | PO1, opens a loop | 1–100,000 | 01! AN 1–20; 02! Q 1–9; 03! ID 2; 04 R 1–17; 06 {BP}; 07 AN 1–48; 08 {VP}; 09 AN 1–48 | 06↔07, 08↔09 |
| 9 | · PID | 1–1,000 | 01! {F}; 02 {08}; 05! AN 1–80 | |
| 10 | · ACK | 1–104 | 01! ID 2; 02! Q 1–9; 03! ID 2; 04 {067}; 05 D8 | 04↔05 |
| 11 | CTT | 0–1 | 01! N0 1–6; 02 N0 1–10 | |
| 12 | SE | 1–1 | 01! N0 1–10; 02! AN 1–9 | |
";

/// Guide M.
pub fn guide() -> Guide {
    Guide {
        kinds: Vec::new(),
        other_kind: Kind::Original,
        needed: vec![(b"RD", 5), (b"RJ", 5)],
        holds_sums: false,
        ..Guide::from_table(TABLE, "00401", "004010")
    }
}
