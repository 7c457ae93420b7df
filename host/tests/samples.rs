//! The scope's samples, both sides of each line, and the words of a refusal.

use crate::common::diagrams::OwnedDiagram;
use crate::common::driver::{said, Said};
use binnaclebox::{Diagram, Refusal};

const S1: Diagram = Diagram {
    domains: &[2],
    layers: &[1],
    targets: &[0, 1],
};
const S3: Diagram = Diagram {
    domains: &[2, 2],
    layers: &[1, 2],
    targets: &[3, 0, 0, 1],
};

#[rustfmt::skip]
const S1_WORDS: [i32; 42] = [
    1, 2, 0, -1, -2, 0, 4, 0, -3, 0, 5, 0, -5, 6, 7, 0,
    -6, 5, 0, -6, 3, 0, -6, 1, 0, -3, -1, 6, 0,
    -7, 5, 0, -7, 4, 0, -7, 2, 0, -4, -2, 7, 0,
];

const S1_TEXT: &str =
    "p cnf 7 14\n1 2 0\n-1 -2 0\n4 0\n-3 0\n5 0\n-5 6 7 0\n-6 5 0\n-6 3 0\n-6 1 0\n-3 -1 6 0\n\
                       -7 5 0\n-7 4 0\n-7 2 0\n-4 -2 7 0\n";

fn encode(diagram: &Diagram, room: usize) -> Said {
    said(binnaclebox::encode(diagram, &mut vec![0; room]))
}

fn check(domains: &[u32], layers: &[u32], targets: &[u32]) -> Said {
    said(binnaclebox::check(&Diagram {
        domains,
        layers,
        targets,
    }))
}

#[test]
fn the_words_and_the_text_of_s1() {
    let mut words = [9; 43];
    assert_eq!(
        said(binnaclebox::encode(&S1, &mut words)),
        Ok([42, 14, 7, 0])
    );
    assert_eq!(words[..42], S1_WORDS);
    assert_eq!(words[42], 9);
    let mut text = vec![b'x'; S1_TEXT.len()];
    assert_eq!(
        said(binnaclebox::write_text(7, &words[..42], &mut text)),
        Ok([S1_TEXT.len() as u64, 0, 0, 0])
    );
    assert_eq!(String::from_utf8(text).as_deref(), Ok(S1_TEXT));
}

#[test]
fn encoding() {
    let s2 = Diagram {
        domains: &[1],
        layers: &[1],
        targets: &[1],
    };
    assert_eq!(encode(&s2, 24), Ok([24, 9, 5, 0]));
    assert_eq!(encode(&S3, 78), Ok([78, 25, 12, 0]));
    assert_eq!(encode(&S3, 77), Err((7, 78)));
}

#[test]
fn judging() {
    assert_eq!(binnaclebox::judge(&S3, &[0, 1]), Ok(true));
    assert_eq!(binnaclebox::judge(&S3, &[1, 1]), Ok(false));
}

#[test]
fn checking() {
    assert_eq!(check(&[2, 2], &[1, 2], &[1, 0, 0, 1]), Err((6, 0)));
    assert_eq!(check(&[2, 2], &[1, 2], &[3, 0, 0]), Err((5, 0)));
    assert_eq!(check(&[2, 0], &[1, 2], &[3, 0]), Err((2, 1)));
    assert_eq!(check(&[33], &[1], &[0; 33]), Err((2, 0)));
    assert_eq!(check(&[32], &[1], &[0; 32]), Ok([0; 4]));
    assert_eq!(check(&[], &[1], &[]), Err((1, 0)));
    assert_eq!(check(&[1; 65], &[1], &[0]), Err((1, 0)));
    assert_eq!(check(&[1; 64], &[1], &[0]), Ok([0; 4]));
    assert_eq!(check(&[2], &[], &[]), Err((3, 0)));
    assert_eq!(check(&[2, 2], &[1, 1], &[0; 4]), Err((4, 1)));
}

/// The most that a diagram can have, in counts and in words; one more node is refused.
#[test]
fn the_largest_diagram() {
    let mut diagram = OwnedDiagram {
        domains: vec![32; 64],
        layers: vec![64; 4_096],
        targets: vec![0; 131_072],
    };
    diagram.layers[0] = 1;
    let variables = 64 * 32 + 4_096 + 2 + 131_072;
    assert_eq!(
        encode(&diagram.lib(), 1_940_550),
        Ok([1_940_550, 560_195, variables, 0])
    );
    assert_eq!(encode(&diagram.lib(), 1_940_549), Err((7, 1_940_550)));
    diagram.layers.push(64);
    assert_eq!(encode(&diagram.lib(), 1_940_550), Err((3, 0)));
}

#[test]
fn models() {
    let mut build = [7, 7];
    for model in [&[-1, 2][..], &[2]] {
        assert_eq!(binnaclebox::read_model(&S1, model, &mut build), Ok(1));
        assert_eq!(build, [1, 7]);
        build = [7, 7];
    }
    let refused: [(&[i32], u32, usize); 7] = [
        (&[1], 13, 0),
        (&[], 12, 0),
        (&[1, 2], 12, 0),
        (&[2, -2], 11, 1),
        (&[8], 10, 0),
        (&[0], 10, 0),
        (&[i32::MIN], 10, 0),
    ];
    for (model, number, place) in refused {
        assert_eq!(
            binnaclebox::read_model(&S1, model, &mut build),
            Err(Refusal { number, place }),
            "{model:?}"
        );
        assert_eq!(build, [7, 7], "{model:?}");
    }
}

#[test]
fn texts() {
    let cases: [(&str, Said, &[i32]); 6] = [
        ("p cnf 1 1\n1 0", Ok([2, 1, 1, 0]), &[1, 0]),
        ("p cnf 1 1\n1", Err((15, 11)), &[]),
        ("p cnf 1 1\n2 0", Err((14, 10)), &[]),
        ("p cnf 1 1\n-0", Err((18, 10)), &[]),
        ("p cnf 1 2\n1 0", Err((19, 1)), &[]),
        ("p cnf 0 0\n", Ok([0; 4]), &[]),
    ];
    for (text, expected, words) in cases {
        let mut out = [9; 3];
        assert_eq!(
            said(binnaclebox::read_text(text.as_bytes(), &mut out)),
            expected,
            "{text:?}"
        );
        assert_eq!(&out[..words.len()], words, "{text:?}");
        assert!(out[words.len()..].iter().all(|&word| word == 9), "{text:?}");
    }
}

#[test]
fn a_refusal_in_words() {
    let words = |number, place| Refusal { number, place }.to_string();
    assert_eq!(words(1, 0), "refusal 1: options not 1 to 64");
    assert_eq!(
        words(7, 78),
        "refusal 7: lent result buffer too short; length needed 78"
    );
    assert_eq!(
        words(19, 1),
        "refusal 19: clauses found differ from the header; number found 1"
    );
    assert_eq!(
        words(0, 2),
        "refusal 0: not a refusal of the library; place 2"
    );
}
