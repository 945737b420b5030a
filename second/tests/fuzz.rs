//! No input makes the judge panic, and the generator keeps what it promises.

use second::derive::Tree;
use second::generate::prng::Prng;
use second::generate::{calls, file, FileKind};
use second::judge::{read, read_bytes};
use second::rank::Verdict;
use second::register::{Register, Sizes};
use second::{guide_b, guide_m};

const HEADER: &[u8] = b"ISA*00*          *00*          *ZZ*TESTVENDOR     *ZZ*TESTBUYER      *050620*0930*U*00401*000000007*0*T*>~";

fn trees() -> [Tree; 2] {
    [Tree::new(guide_b::guide()), Tree::new(guide_m::guide())]
}

/// Random bytes: of any value, or of those that matter, after a header or not.
fn random_file(prng: &mut Prng) -> Vec<u8> {
    let mut bytes = if prng.chance(700) { HEADER.to_vec() } else { Vec::new() };
    let length = match prng.below(100) {
        0 => prng.below(70_000),
        1..=20 => prng.below(2000),
        _ => prng.below(300),
    };
    let taste = prng.below(3);
    for _ in 0..length {
        let byte = match taste {
            0 => prng.byte(),
            1 => prng.pick_of(b"~~**>\r\n AZ09az.-STGEIPO1N"),
            _ => prng.pick_of(b"~****ISAGSTEBKCUNPO10123"),
        };
        bytes.push(byte);
    }
    if prng.chance(300) && !bytes.is_empty() {
        let at = prng.below(bytes.len().min(110));
        bytes[at] = prng.byte();
    }
    bytes
}

fn judge_all(trees: &[Tree; 2], input: &[u8]) {
    let layer_1 = read_bytes(input);
    for tree in trees {
        let (verdict, tables) = read(tree, input, 4096, 4096);
        assert_eq!(matches!(verdict, Verdict::Accepted(_)), tables.is_some());
        if let (Ok(_), Verdict::Refused(fault, _)) = (&layer_1, &verdict) {
            assert!(fault.layer() > 1, "a fault of layer 1 that the other mode does not see");
        }
        let sizes = Sizes { orders: 9, lines: 9, controls: 9 };
        let lodged = Register::open(sizes).lodge(tree, input, 4096, 4096).0;
        if let Verdict::Refused(fault, _) = verdict {
            if fault.number < 18 {
                assert_eq!(lodged, verdict);
            }
        }
    }
}

fn fuzz(files: usize, seed: u64) {
    let trees = trees();
    let mut prng = Prng::new(seed);
    for _ in 0..files {
        judge_all(&trees, &random_file(&mut prng));
    }
}

#[test]
fn random_bytes_never_make_the_judge_panic() {
    fuzz(5_000, 1);
}

/// The long run: `cargo test --release -- --ignored`.
#[test]
#[ignore = "takes a while"]
fn two_hundred_thousand_random_files_never_make_the_judge_panic() {
    fuzz(200_000, 2);
}

/// The long run of the generator.
#[test]
#[ignore = "takes a while"]
fn many_generated_files_and_calls_never_make_anything_panic() {
    for tree in trees() {
        for index in 0..150_000 {
            let input = file(FileKind::Damaged, 21, index, &tree);
            read(&tree, &input, 4096, 4096);
        }
        for index in 0..5_000 {
            let list = calls::list(22, index, &tree);
            let mut register = Register::open(list.sizes);
            list.calls.iter().for_each(|call| {
                call.run(&tree, &mut register);
            });
        }
    }
    let tree = &trees()[0];
    for index in 0..300_000 {
        let _ = read_bytes(&file(FileKind::Bytes, 23, index, tree));
    }
}

#[test]
fn valid_files_are_accepted_or_have_too_many_segments() {
    for tree in trees() {
        for index in 0..1500 {
            let input = file(FileKind::Valid, 3, index, &tree);
            match read(&tree, &input, 4096, 4096).0 {
                Verdict::Accepted(_) => {}
                Verdict::Refused(fault, _) => assert_eq!(fault.number, 23, "file {index}"),
            }
            assert!(matches!(read(&tree, &input, 9999, 9999).0, Verdict::Accepted(_)));
        }
    }
}

#[test]
fn damaged_files_meet_every_refusal_number() {
    for (tree, missing) in trees().iter().zip([None, Some(16)]) {
        let mut times = [0; 24];
        let files = 4000;
        for index in 0..files {
            let input = file(FileKind::Damaged, 4, index, tree);
            if let Verdict::Refused(fault, _) = read(tree, &input, 4096, 4096).0 {
                times[usize::from(fault.number)] += 1;
            }
        }
        for number in (1..=17).chain([23]).filter(|number| Some(*number) != missing) {
            assert!(times[number] >= files / 400, "{number} came {} times", times[number]);
        }
    }
}

#[test]
fn files_of_layer_1_meet_its_five_refusals() {
    let tree = &trees()[0];
    let mut times = [0; 6];
    for index in 0..2000 {
        match read_bytes(&file(FileKind::Bytes, 5, index, tree)) {
            Err(Verdict::Refused(fault, _)) => times[usize::from(fault.number)] += 1,
            _ => times[0] += 1,
        }
    }
    assert!(times.iter().all(|&times| times >= 20), "{times:?}");
}

#[test]
fn lists_of_calls_meet_the_refusals_of_the_register() {
    let wanted: [&[u8]; 2] = [&[18, 19, 20, 21, 22, 23], &[18, 19, 22, 23]];
    for (tree, wanted) in trees().iter().zip(wanted) {
        let mut text = String::new();
        for index in 0..300 {
            let list = calls::list(6, index, tree);
            let mut register = Register::open(list.sizes);
            for call in &list.calls {
                text.push_str(&call.run(tree, &mut register));
            }
        }
        for number in wanted {
            assert!(text.contains(&format!("REFUSED {number} ")), "{number} does not come");
        }
        assert!(text.contains("FOUND") && text.contains("NONE") && text.contains("ACCEPTED"));
    }
}
