//! Every worked example of the rule book, with the values printed there.

use crate::derive::Tree;
use crate::guide::read_form;
use crate::judge::{read, read_bytes, Study};
use crate::register::{Register, Sizes};
use crate::segments::Interchange;
use crate::tables::{LoopRow, SegmentRow, Tables};
use crate::{guide_b, guide_m};

const HEADER: &str = "ISA*00*          *00*          *ZZ*TESTVENDOR     *ZZ*TESTBUYER      *050620*0930*U*00401*000000007*0*T*>~";
const REST_B: &str = "GS*PR*TESTVENDOR*TESTBUYER*20050620*0930*7*X*004010~ST*855*0001~BAK*00*AC*A17*20050601*****20050620~CUR*SE*CAD~N1*BT**15*1112223~N1*ST**15*1112223~N1*VN**15*4445556~PO1*1*5*EA***EN*9781565922259~ACK*IA*5*EA************************BI*ACK*AC~CTT*1*5~SE*10*0001~GE*1*7~IEA*1*000000007~";
const REST_M: &str = "GS*PR*TESTVENDOR*TESTBUYER*20050620*0930*7*X*004010~ST*855*0001~BAK*00*AC*A17*20050601*****20050620~REF*IA*V100~N1*VN*Test Vendor*92*4445556~PO1*1*5*EA~PID*F****Test Title~ACK*IA*5*EA~SE*8*0001~GE*1*7~IEA*1*000000007~";

fn base() -> String {
    format!("{HEADER}{REST_B}")
}

fn base_m() -> String {
    format!("{HEADER}{REST_M}")
}

fn tree_b() -> Tree {
    Tree::new(guide_b::guide())
}

fn tree_m() -> Tree {
    Tree::new(guide_m::guide())
}

/// Changes each first text to the second. Each first text must stand in the interchange.
fn changed(text: String, changes: &[(&str, &str)]) -> String {
    changes.iter().fold(text, |text, (from, to)| {
        assert!(text.contains(from), "{from} does not stand in the interchange");
        text.replacen(from, to, 1)
    })
}

fn line(tree: &Tree, text: &str) -> String {
    read(tree, text.as_bytes(), 4096, 4096).0.to_string()
}

fn line_b(changes: &[(&str, &str)]) -> String {
    line(&tree_b(), &changed(base(), changes))
}

fn line_m(changes: &[(&str, &str)]) -> String {
    line(&tree_m(), &changed(base_m(), changes))
}

/// Asserts the first of the faults 10, 11 and 12 of some elements; 0 means none.
fn assert_form(form: &str, elements: &[&str], expected: u8) {
    for element in elements {
        let faults = read_form(form).faults(element.as_bytes());
        assert_eq!(faults.iter().min().copied().unwrap_or(0), expected, "{form} {element}");
    }
}

#[test]
fn section_4_what_follows_iea() {
    let after = |tail: &str| line(&tree_b(), &format!("{}{tail}", base()));
    assert_eq!(after(""), "ACCEPTED 14 1 1 5");
    assert_eq!(after("\r\n\n"), "ACCEPTED 14 1 1 5");
    assert_eq!(after("~"), "REFUSED 5 1 15 0 388");
    assert_eq!(after("X~"), "REFUSED 5 1 15 0 388");
    assert_eq!(after("X"), "REFUSED 5 1 15 0 388");
    assert_eq!(after("ZZ"), "REFUSED 5 1 15 0 388");
    assert_eq!(after("X\r\n"), "REFUSED 4 1 15 0 388");
    assert_eq!(after("ZZ~"), "REFUSED 6 2 15 0 388");
    assert_eq!(after("IEA*1*000000007~"), "REFUSED 6 2 15 0 388");
}

#[test]
fn section_5_the_call_element() {
    let text = base();
    let found = Interchange::take_apart(text.as_bytes()).unwrap();
    assert_eq!(found.answer(1, 16), Some((104, &b">"[..])));
    assert_eq!(found.answer(1, 13), Some((90, &b"000000007"[..])));
    assert_eq!(found.answer(4, 5), None);
    assert_eq!(found.answer(4, 10), None);
    assert_eq!(found.answer(15, 0), None);
    assert_eq!(found.answer(0, 0), None);
    let starts = [4, 7, 18, 21, 32, 35, 51, 54, 70, 77, 82, 84, 90, 100, 102, 104];
    for (index, start) in starts.iter().enumerate() {
        assert_eq!(found.place(1, index + 1), *start);
    }
}

#[test]
fn section_6_days() {
    assert_form("D8", &["19000229"], 11);
    assert_form("D8", &["20000229"], 0);
}

#[test]
fn section_6_code_lists() {
    assert_eq!((read_form("{ACK}").least, read_form("{ACK}").greatest), (3, 3));
    let form = read_form("{15 1 12 14 ZZ}");
    assert_eq!((form.least, form.greatest), (1, 2));
    assert_form("{CAD USD}", &["USDD"], 10);
    assert_form("{CAD USD}", &["usd"], 11);
    assert_form("{CAD USD}", &["EUR"], 12);
    assert_form("{15 1 12 14 ZZ}", &["2"], 12);
    assert_form("{004010}", &["00401"], 10);
    assert_form("{004010}", &["004011"], 12);
    assert_form("{U}", &["^"], 11);
}

#[test]
fn section_6_decimals_text_dates_and_times() {
    assert_form("R 1–17", &["-5", ".5", "5.", "-.5", "-1234567890.1234567"], 0);
    assert_form("R 1–17", &["5-", "--5", "1.2.3", "+5", "1A", "- 5"], 11);
    assert_form("R 1–17", &["-", ".", "ABC", "123456789012345678"], 10);
    assert_form("AN 1–35", &[" ", "     "], 11);
    assert_form("D8", &["2005062", "200506201"], 10);
    assert_form("D8", &["2005062A", "20050631", "18991231", "21000101"], 11);
    assert_form("TM", &["2400", "0960"], 11);
    assert_form("TM", &["2359", "0000"], 0);
}

#[test]
fn section_10_places() {
    let ack = "ACK*IA*5*EA************************BI*ACK*AC~";
    assert_eq!(line_b(&[(ack, "ACK*IA*5*EA~")]), "REFUSED 8 3 10 27 312");
}

#[test]
fn section_13_first_in_two_segments() {
    let changes = [("GS*PR", "GS*PO"), ("CUR*SE*CAD", "CUR*SE*CA\x01")];
    assert_eq!(line_b(&changes), "REFUSED 12 3 2 1 109");
}

#[test]
fn section_13_first_in_one_segment() {
    assert_eq!(line_b(&[("CUR*SE*CAD", "CUR**CA\x01")]), "REFUSED 4 1 5 2 211");
    assert_eq!(line_b(&[("CUR*SE*CAD", "XYZ*A*B>")]), "REFUSED 4 1 5 2 212");
    assert_eq!(line_b(&[("SE*10*0001", "SE*11*0002")]), "REFUSED 15 4 12 1 357");
    assert_eq!(line_b(&[("SE*10*0001", "SE*10*0002")]), "REFUSED 14 4 12 2 360");
    assert_eq!(line_b(&[("CAD", "USDD")]), "REFUSED 10 3 5 2 213");
    let ninth = [("EN*9781565922259", "EN*9781565922259*VN")];
    assert_eq!(line_b(&ninth), "REFUSED 13 3 9 9 303");
}

#[test]
fn section_13_sums_before_repeated_lines() {
    let again =
        "PO1*1*5*EA***EN*9781565922259~ACK*IA*5*EA************************BI*ACK*AC~CTT*2*10~SE*12";
    let changes = [("ACK*IA*5", "ACK*IA*4"), ("CTT*1*5~SE*10", again)];
    assert_eq!(line_b(&changes), "REFUSED 16 4 11 0 346");
}

#[test]
fn section_13_the_end_before_sums() {
    let text = changed(base(), &[("ACK*IA*5", "ACK*IA*4")]);
    let cut = text.find("CTT").unwrap();
    assert_eq!(line(&tree_b(), &text[..cut]), "REFUSED 7 2 11 0 346");
}

#[test]
fn section_13_tails() {
    let tree = tree_b();
    let text = base();
    assert_eq!(line(&tree, &format!("{text}X*\x01")), "REFUSED 5 1 15 0 388");
    assert_eq!(line(&tree, &format!("{text}X\r\n")), "REFUSED 4 1 15 0 388");
    assert_eq!(line(&tree, &format!("{HEADER}{text}")), "REFUSED 4 1 2 16 210");
    assert_eq!(line(&tree, &text[..387]), "REFUSED 5 1 14 0 372");
    assert_eq!(line(&tree, &text[..372]), "REFUSED 7 2 14 0 372");
    assert_eq!(line(&tree, &format!("{HEADER}\r\n")), "REFUSED 7 2 2 0 108");
}

fn segment_rows(rows: &[(usize, usize, usize, usize)]) -> Vec<SegmentRow> {
    rows.iter()
        .map(|&(place, length, row, in_loop)| SegmentRow { place, length, row, in_loop })
        .collect()
}

fn loop_rows(rows: &[(usize, usize, usize, usize)]) -> Vec<LoopRow> {
    rows.iter().map(|&(opening, last, outer, row)| LoopRow { opening, last, outer, row }).collect()
}

#[test]
fn section_14_tables_of_the_base_interchange() {
    let segments = segment_rows(&[
        (0, 105, 0, 0),
        (106, 51, 0, 0),
        (158, 11, 1, 0),
        (170, 35, 2, 0),
        (206, 10, 3, 0),
        (217, 17, 4, 0),
        (235, 17, 5, 0),
        (253, 17, 6, 0),
        (271, 29, 7, 1),
        (301, 44, 10, 2),
        (346, 7, 12, 0),
        (354, 10, 13, 0),
        (365, 6, 0, 0),
        (372, 15, 0, 0),
    ]);
    let loops = loop_rows(&[(9, 10, 0, 7), (10, 10, 1, 10)]);
    let tables = read(&tree_b(), base().as_bytes(), 14, 2).1;
    assert_eq!(tables, Some(Tables { segments, loops }));
}

#[test]
fn section_14_sch_stands_in_the_last_ack_loop() {
    let text = changed(
        base(),
        &[
            ("ACK*IA*5", "ACK*IA*3"),
            ("ACK*IA*3", "ACK*IA*2*EA************************BI*ACK*AC~ACK*IA*3"),
            ("CTT*1*5~SE*10", "SCH*3*EA***067*20050701~CTT*1*5~SE*12"),
        ],
    );
    let tables = read(&tree_b(), text.as_bytes(), 16, 3).1.unwrap();
    let in_loops: Vec<usize> = tables.segments[8..12].iter().map(|row| row.in_loop).collect();
    assert_eq!(in_loops, [1, 2, 3, 3]);
    assert_eq!(tables.loops, loop_rows(&[(9, 12, 0, 7), (10, 10, 1, 10), (11, 12, 1, 10)]));
}

#[test]
fn section_14_too_few_rows() {
    let rows = |segments, loops| {
        let (verdict, tables) = read(&tree_b(), base().as_bytes(), segments, loops);
        (verdict.to_string(), tables.is_some())
    };
    assert_eq!(rows(14, 2), ("ACCEPTED 14 1 1 5".to_string(), true));
    assert_eq!(rows(13, 2), ("REFUSED 23 6 0 0 0".to_string(), false));
    assert_eq!(rows(14, 1), ("REFUSED 23 6 0 0 0".to_string(), false));
    assert_eq!(rows(0, 0), ("REFUSED 23 6 0 0 0".to_string(), false));
}

/// The base interchange with another control number and other changes.
fn with_control(control: &str, changes: &[(&str, &str)]) -> String {
    let text = changed(base(), changes);
    text.replace("000000007", &format!("{control:0>9}"))
}

#[test]
fn section_15_example() {
    let follow_up = ("BAK*00*AC", "BAK*04*AE");
    let calls = [
        (with_control("7", &[]), "ACCEPTED 14 1 1 5", (1, 1, 1)),
        (with_control("7", &[]), "REFUSED 18 5 1 13 90", (1, 1, 1)),
        (with_control("8", &[]), "REFUSED 19 5 4 3 180", (1, 1, 1)),
        (with_control("9", &[follow_up]), "ACCEPTED 14 1 1 5", (1, 1, 2)),
        (
            with_control("10", &[follow_up, ("PO1*1*5", "PO1*1*05")]),
            "REFUSED 21 5 9 2 277",
            (1, 1, 2),
        ),
        (
            with_control("10", &[follow_up, ("PO1*1*5", "PO1*2*5")]),
            "REFUSED 21 5 9 1 275",
            (1, 1, 2),
        ),
        (with_control("10", &[follow_up, ("*A17*", "*A18*")]), "REFUSED 20 5 4 3 180", (1, 1, 2)),
        (with_control("10", &[("*A17*", "*A18*")]), "ACCEPTED 14 1 1 5", (2, 2, 3)),
        (with_control("11", &[follow_up]), "REFUSED 22 5 0 0 0", (2, 2, 3)),
    ];
    let tree = tree_b();
    let mut register = Register::open(Sizes { orders: 2, lines: 2, controls: 3 });
    for (number, (text, expected, in_use)) in calls.iter().enumerate() {
        let verdict = register.lodge(&tree, text.as_bytes(), 4096, 4096).0.to_string();
        assert_eq!(verdict, *expected, "call {}", number + 1);
        let ledger = &register.ledger;
        let used = (ledger.originals.len(), ledger.line_count(), ledger.controls.len());
        assert_eq!(used, *in_use, "call {}", number + 1);
        assert_base_is_found(&register);
    }
}

fn assert_base_is_found(register: &Register) {
    let found = register.find(b"TESTVENDOR     ", b"A17").unwrap();
    assert_eq!(found.lines.len(), 1);
    let parts: Vec<&[u8]> = found.lines[0].parts.iter().map(Vec::as_slice).collect();
    assert_eq!(parts, [&b"1"[..], b"5", b"EA", b"EN", b"9781565922259"]);
    assert_eq!(register.find(b"TESTVENDOR", b"A17"), None);
    assert_eq!(register.find(b"TESTVENDOR     ", b"A17 "), None);
    assert_eq!(register.find(b"TESTVENDOR     ", b""), None);
}

#[test]
fn section_17_lengths() {
    assert_eq!((HEADER.len(), REST_B.len(), base().len()), (106, 282, 388));
}

#[test]
fn section_17_the_eight_cases() {
    assert_eq!(line_b(&[]), "ACCEPTED 14 1 1 5");
    assert_eq!(line_b(&[("SE*10", "SE*11")]), "REFUSED 15 4 12 1 357");
    assert_eq!(line_b(&[("CUR*SE*CAD~", "")]), "REFUSED 6 2 5 0 206");
    assert_eq!(line_b(&[("ACK*IA*5", "ACK*IA*4")]), "REFUSED 16 4 11 0 346");
    let ack = "ACK*IA*5*EA************************BI*ACK*AC~";
    let short = "ACK*IA*5*EA**********BI*ACK*AC~";
    assert_eq!(line_b(&[(ack, short)]), "REFUSED 9 3 10 13 322");
    let long = ("IEA*1*000000007", "IEA*1*0000000001");
    assert_eq!(line_b(&[long]), "REFUSED 10 3 14 2 378");
    assert_eq!(line_b(&[("20050601", "19000229")]), "REFUSED 11 3 4 4 184");
    assert_eq!(line_b(&[("20050601", "20000229")]), "ACCEPTED 14 1 1 5");
    assert_eq!(line(&tree_b(), &base()[..105]), "REFUSED 1 1 0 0 0");
}

#[test]
fn section_17_lodged_twice() {
    let tree = tree_b();
    let mut register = Register::open(Sizes { orders: 9, lines: 9, controls: 9 });
    let mut lodge = |text: String| register.lodge(&tree, text.as_bytes(), 99, 99).0.to_string();
    assert_eq!(lodge(base()), "ACCEPTED 14 1 1 5");
    assert_eq!(lodge(base()), "REFUSED 18 5 1 13 90");
    assert_eq!(lodge(with_control("8", &[])), "REFUSED 19 5 4 3 180");
}

/// The base interchange with two sets, each with its BAK01 and BAK02.
fn two_sets(first: &str, second: &str) -> String {
    let text = base();
    let (start, end) = (text.find("ST*855").unwrap(), text.find("GE*1").unwrap());
    let set = &text[start..end];
    let one = set.replace("BAK*00*AC", first);
    let other = set.replace("BAK*00*AC", second).replace("*0001~", "*0002~");
    format!("{}{one}{other}GE*2{}", &text[..start], &text[end + 4..])
}

#[test]
fn section_17_an_original_and_its_follow_up() {
    let tree = tree_b();
    let sizes = Sizes { orders: 1, lines: 1, controls: 1 };
    let lodge =
        |text: &str| Register::open(sizes).lodge(&tree, text.as_bytes(), 99, 99).0.to_string();
    let text = two_sets("BAK*00*AC", "BAK*04*AE");
    assert_eq!(line(&tree, &text), "ACCEPTED 24 2 2 10");
    assert_eq!(lodge(&text), "ACCEPTED 24 2 2 10");
    let reverse = two_sets("BAK*04*AE", "BAK*00*AC");
    assert_eq!(line(&tree, &reverse), "ACCEPTED 24 2 2 10");
    assert_eq!(lodge(&reverse), "REFUSED 20 5 4 3 180");
}

#[test]
fn section_17_an_interchange_under_m() {
    assert_eq!(line_m(&[]), "ACCEPTED 12 1 1 5");
    assert_eq!(line_m(&[("ACK*IA*5", "ACK*IA*4")]), "ACCEPTED 12 1 1 5");
    let rd = ("BAK*00*AC", "BAK*00*RD");
    assert_eq!(line_m(&[rd]), "REFUSED 13 3 10 0 290");
    assert_eq!(line_m(&[rd, ("SE*8", "SE*9")]), "REFUSED 13 3 10 0 290");
    let n9 = ("REF*IA*V100~", "REF*IA*V100~N9*L1*R1~MSG*Out of print~");
    assert_eq!(line_m(&[rd, n9, ("SE*8", "SE*10")]), "ACCEPTED 14 1 1 5");
    assert_eq!(line_m(&[("PO1*1*5*EA", "PO1*1*5*EA***BP")]), "REFUSED 13 3 7 7 262");
    assert_eq!(line_m(&[("REF*IA*V100~", "")]), "REFUSED 6 2 5 0 206");
    assert_eq!(line_m(&[("ST*855*0001", "ST*855*001")]), "REFUSED 10 3 3 2 165");
    assert_eq!(line_m(&[("SE*8*0001", "SE*8*001")]), "REFUSED 14 4 10 2 295");
}

#[test]
fn layer_1_alone() {
    let bytes = |text: &str| match read_bytes(text.as_bytes()) {
        Ok(count) => format!("READ {count}"),
        Err(verdict) => verdict.to_string(),
    };
    assert_eq!(bytes(&base()), "READ 14");
    assert_eq!(bytes(HEADER), "READ 1");
    assert_eq!(bytes(&format!("{HEADER}\r\n~")), "REFUSED 5 1 2 0 108");
    assert_eq!(bytes(&HEADER.replace('>', "A")), "REFUSED 3 1 1 0 0");
    assert_eq!(bytes(&HEADER.replace('>', "*")), "REFUSED 2 1 1 0 0");
    assert_eq!(bytes(&HEADER.replace('>', "~")), "REFUSED 2 1 1 0 0");
    assert_eq!(bytes(&HEADER.replace("TESTVENDOR ", "TESTVENDOR>")), "REFUSED 4 1 1 6 35");
}

/// All faults met, as (number, segment, element) in rank order.
fn all_faults(text: &str) -> Vec<(u8, usize, usize)> {
    let mut faults = Study::new(&tree_b(), text.as_bytes()).faults;
    faults.sort_by_key(|fault| (fault.segment, fault.layer(), fault.element, fault.number));
    faults.iter().map(|fault| (fault.number, fault.segment, fault.element)).collect()
}

/// The column "Faults met" of section 13, where it does not say "among others". Behind IEA the
/// segment X is also taken by no row; the book leaves this 6 out in two lines.
#[test]
fn section_13_faults_met() {
    let met = |changes: &[(&str, &str)]| all_faults(&changed(base(), changes));
    let tail = |text: &str| all_faults(&format!("{}{text}", base()));
    assert_eq!(met(&[]), []);
    assert_eq!(met(&[("CUR*SE*CAD", "XYZ*A*B>")]), [(4, 5, 2), (6, 5, 0)]);
    assert_eq!(met(&[("SE*10*0001", "SE*11*0002")]), [(15, 12, 1), (14, 12, 2)]);
    assert_eq!(met(&[("SE*10*0001", "SE*10*0002")]), [(14, 12, 2)]);
    let again =
        "PO1*1*5*EA***EN*9781565922259~ACK*IA*5*EA************************BI*ACK*AC~CTT*2*10~SE*12";
    let changes = [("ACK*IA*5", "ACK*IA*4"), ("CTT*1*5~SE*10", again)];
    assert_eq!(met(&changes), [(16, 11, 0), (17, 11, 1)]);
    assert_eq!(all_faults(&changed(base(), &changes[..1])[..346]), [(7, 11, 0)]);
    assert_eq!(tail("X*\x01"), [(5, 15, 0), (4, 15, 1), (6, 15, 0)]);
    assert_eq!(tail("X\r\n"), [(4, 15, 0), (5, 15, 0), (6, 15, 0)]);
    assert_eq!(all_faults(&format!("{HEADER}{}", base())), [(4, 2, 16), (6, 2, 0)]);
    assert_eq!(met(&[("CAD", "USDD")]), [(10, 5, 2), (12, 5, 2)]);
    let ninth = [("EN*9781565922259", "EN*9781565922259*VN")];
    assert_eq!(met(&ninth), [(13, 9, 9)]);
    assert_eq!(all_faults(&base()[..387]), [(5, 14, 0)]);
    assert_eq!(all_faults(&base()[..372]), [(7, 14, 0)]);
    assert_eq!(all_faults(&format!("{HEADER}\r\n")), [(7, 2, 0)]);
}
