//! Guide B (rule book, section 9).

use crate::guide::{Guide, Kind};

/// The table of guide B as the rule book prints it.
pub const TABLE: &str = "\
| 1 | ST | 1–1 | 01! {855}; 02! AN 1–9 | |
| 2 | BAK | 1–1 | 01! ID 2; 02! ID 2; 03! AN 1–22; 04! D8; 09! D8 | |
| 3 | CUR | 1–1 | 01! {BY SE}; 02! {CAD USD} | |
| 4 | N1 [BT] | 1–1 | 01! {BT}; 02 AN 1–35; 03! {15 1 12 14 ZZ}; 04! AN 2–20 | |
| 5 | N1 [ST] | 1–1 | 01! {ST}; 03! {15 1 12 14 ZZ}; 04! AN 2–20 | |
| 6 | N1 [VN] | 1–1 | 01! {VN}; 02 AN 1–35; 03! {15 1 12 14 ZZ}; 04! AN 2–20 | |
| 7 | PO1, opens a loop | 1–100,000 | 01! AN 1–20; 02! Q 1–9; 03! {UN EA}; 04 R 1–17; 06! {IB EN UK UP}; 07! AN 1–40; 08 {IB EN UK UP VN MG PO}; 09 AN 1–40 | 08↔09 |
| 8 | · CTP | 0–1 | 02 {SLP}; 03 R 1–17; 06 {DIS}; 07 R 1–10 | 02↔03, 06↔07 |
| 9 | · PID | 0–1 | 01! {F}; 05! AN 1–80 | |
| 10 | · ACK, opens a loop | 1–104 | 01! {IA IR}; 02! Q 1–9; 03! {UN EA}; 04 {067 068}; 05 D8; 27! {BI}; 28! {ACK}; 29! AN 1–30 | 04↔05 |
| 11 | · · SCH | 0–200 | 01! Q 1–9; 02! {UN EA}; 05! {067 068}; 06! D8 | |
| 12 | CTT | 1–1 | 01! N0 1–6; 02! N0 1–10 | |
| 13 | SE | 1–1 | 01! N0 1–10; 02! AN 1–9 | |
";

/// Guide B.
pub fn guide() -> Guide {
    Guide {
        kinds: vec![(b"00", b"AC", Kind::Original), (b"04", b"AE", Kind::FollowUp)],
        other_kind: Kind::Wrong,
        needed: Vec::new(),
        holds_sums: true,
        ..Guide::from_table(TABLE, "00401", "004010")
    }
}
