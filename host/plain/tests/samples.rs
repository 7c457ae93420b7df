//! The samples S1 to S8 and the text samples, both sides of each line.

use plain::{check, encode, judge, read_model, read_text, usual, write_text};
use plain::{Diagram, Refusal, Tally};

const S1: Diagram = Diagram {
    domains: &[2],
    layers: &[1],
    targets: &[0, 1],
};
const S2: Diagram = Diagram {
    domains: &[1],
    layers: &[1],
    targets: &[1],
};
const S3: Diagram = Diagram {
    domains: &[2, 2],
    layers: &[1, 2],
    targets: &[3, 0, 0, 1],
};

/// What stands in a lent word before a call.
const MARK: i32 = 77_777;

const S1_TEXT: &str = "p cnf 7 14\n1 2 0\n-1 -2 0\n4 0\n-3 0\n5 0\n-5 6 7 0\n\
    -6 5 0\n-6 3 0\n-6 1 0\n-3 -1 6 0\n-7 5 0\n-7 4 0\n-7 2 0\n-4 -2 7 0\n";

fn refused<T>(number: u32, place: usize) -> Result<T, Refusal> {
    Err(Refusal { number, place })
}

fn tally(words: usize, clauses: u32, variables: u32) -> Tally {
    Tally {
        words,
        clauses,
        variables,
    }
}

/// A call that must be refused, with every lent word kept.
fn encode_refused(d: &Diagram, room: usize, number: u32, place: usize) {
    let mut out = vec![MARK; room];
    assert_eq!(encode(d, &mut out), refused(number, place));
    assert!(out.iter().all(|&w| w == MARK));
}

#[test]
fn s1_counts_and_text() {
    let mut words = [MARK; 50];
    assert_eq!(encode(&S1, &mut words), Ok(tally(42, 14, 7)));
    assert!(words[42..].iter().all(|&w| w == MARK));
    let mut text = [b'~'; 200];
    let length = write_text(7, &words[..42], &mut text).unwrap();
    assert_eq!(&text[..length], S1_TEXT.as_bytes());
    assert!(text[length..].iter().all(|&b| b == b'~'));
    let mut back = [MARK; 50];
    assert_eq!(
        read_text(S1_TEXT.as_bytes(), &mut back),
        Ok(tally(42, 14, 7))
    );
    assert_eq!(words, back);
}

#[test]
fn s2_counts() {
    let mut words = [MARK; 24];
    assert_eq!(encode(&S2, &mut words), Ok(tally(24, 9, 5)));
    let wanted = [
        1, 0, 3, 0, -2, 0, 4, 0, -4, 5, 0, -5, 4, 0, -5, 3, 0, -5, 1, 0, -3, -1, 5, 0,
    ];
    assert_eq!(words, wanted);
}

#[test]
fn s3_and_s4_counts_builds_and_room() {
    let mut words = [MARK; 78];
    assert_eq!(encode(&S3, &mut words), Ok(tally(78, 25, 12)));
    encode_refused(&S3, 77, 7, 78);
    assert_eq!(judge(&S3, &[0, 1]), Ok(true));
    assert_eq!(judge(&S3, &[1, 1]), Ok(false));
    assert_eq!(judge(&S3, &[0, 0]), Ok(false));
    assert_eq!(judge(&S3, &[0]), refused(8, 0));
    assert_eq!(judge(&S3, &[0, 1, 0]), refused(8, 0));
    assert_eq!(judge(&S3, &[0, 2]), refused(9, 1));
    assert_eq!(judge(&S3, &[2, 2]), refused(9, 0));
}

#[test]
fn s5_targets() {
    let refuse = |targets, number, place| {
        encode_refused(&Diagram { targets, ..S3 }, 100, number, place);
    };
    refuse(&[1, 0, 0, 1], 6, 0);
    refuse(&[3, 0, 0], 5, 0);
    refuse(&[3, 4, 0, 1], 6, 1);
    refuse(&[3, 2, 0, 1], 6, 1);
    refuse(&[3, 0, 3, 1], 6, 2);
    refuse(&[3, 0, 0, u32::MAX], 6, 3);
}

#[test]
fn s6_domains() {
    let at = |domains, layers, targets| {
        check(&Diagram {
            domains,
            layers,
            targets,
        })
    };
    assert_eq!(at(&[2, 0], &[1, 2], &[]), refused(2, 1));
    assert_eq!(at(&[33], &[1], &[0; 33]), refused(2, 0));
    assert_eq!(at(&[32], &[1], &[0; 32]), Ok(()));
    assert_eq!(at(&[u32::MAX], &[1], &[]), refused(2, 0));
}

#[test]
fn s7_counts_and_layers() {
    let at = |domains, layers| {
        check(&Diagram {
            domains,
            layers,
            targets: &[],
        })
    };
    assert_eq!(at(&[], &[1]), refused(1, 0));
    assert_eq!(at(&[1; 65], &[1]), refused(1, 0));
    assert_eq!(at(&[2, 2], &[]), refused(3, 0));
    assert_eq!(at(&[2, 2], &[1; 4097]), refused(3, 0));
    assert_eq!(at(&[2, 2], &[1, 1]), refused(4, 1));
    assert_eq!(at(&[2, 2], &[2, 1]), refused(4, 0));
    assert_eq!(at(&[2, 2], &[1, 3]), refused(4, 1));
    assert_eq!(at(&[2, 2, 2], &[1, 3, 2]), refused(4, 2));
    assert_eq!(at(&[2, 2, 2], &[1, 2, 0]), refused(4, 2));
    assert_eq!(at(&[2, 2, 2], &[1, 2, u32::MAX]), refused(4, 2));
    assert_eq!(at(&[2, 2, 2], &[1, 2, 3]), refused(5, 0));
}

#[test]
fn empty_layers_let_only_false_through() {
    let empty = Diagram {
        domains: &[1, 1, 1],
        layers: &[1, 3],
        targets: &[0, 1],
    };
    assert_eq!(check(&empty), Ok(()));
    assert_eq!(judge(&empty, &[0, 0, 0]), Ok(false));
    assert_eq!(
        check(&Diagram {
            targets: &[3, 1],
            ..empty
        }),
        refused(6, 0)
    );
    assert_eq!(
        check(&Diagram {
            layers: &[1],
            targets: &[1],
            ..empty
        }),
        refused(6, 0)
    );
}

/// A model of S1 with its answer; a refusal keeps the lent list.
fn model(literals: &[i32], wanted: Result<u32, Refusal>) {
    for read_model in [read_model, usual::read_model] {
        let mut out = [99, 98];
        let got = read_model(&S1, literals, &mut out);
        assert_eq!(got, wanted.map(|_| 1));
        assert_eq!(out, [wanted.unwrap_or(99), 98]);
    }
}

#[test]
fn s8_models() {
    model(&[-1, 2], Ok(1));
    model(&[2], Ok(1));
    model(&[7, 7, -3, 2, -7], Ok(1));
    model(&[1], refused(13, 0));
    model(&[], refused(12, 0));
    model(&[1, 2], refused(12, 0));
    model(&[2, -2], refused(11, 1));
    model(&[8], refused(10, 0));
    model(&[0], refused(10, 0));
    model(&[i32::MIN], refused(10, 0));
    model(&[2, -2, -8], refused(10, 2));
    assert_eq!(read_model(&S1, &[8], &mut []), refused(7, 1));
}

/// A text with its answer; a refusal keeps the lent list.
fn text(text: &str, wanted: Result<&[i32], (u32, usize)>) {
    text_by(read_text, text, wanted);
    text_by(usual::read_text, text, wanted);
}

fn text_by(
    read_text: impl Fn(&[u8], &mut [i32]) -> Result<Tally, Refusal>,
    text: &str,
    wanted: Result<&[i32], (u32, usize)>,
) {
    let mut out = [MARK; 8];
    let got = read_text(text.as_bytes(), &mut out);
    let kept = match wanted {
        Ok(words) => {
            assert_eq!(got.map(|t| t.words), Ok(words.len()), "{text:?}");
            assert_eq!(&out[..words.len()], words, "{text:?}");
            words.len()
        }
        Err((number, place)) => {
            assert_eq!(got, refused(number, place), "{text:?}");
            0
        }
    };
    assert!(out[kept..].iter().all(|&w| w == MARK), "{text:?}");
}

#[test]
fn text_samples() {
    text("p cnf 1 1\n1 0", Ok(&[1, 0]));
    text("p cnf 1 1\n1", Err((15, 11)));
    text("p cnf 1 1\n2 0", Err((14, 10)));
    text("p cnf 1 1\n-0", Err((18, 10)));
    text("p cnf 1 2\n1 0", Err((19, 1)));
    text("p cnf 0 0\n", Ok(&[]));
    text("c one\nc\np cnf 1 1\n\t 1\r\n 0 \n", Ok(&[1, 0]));
    text(
        "p cnf 1000000 1\n-1000000 1000000 0\n",
        Ok(&[-1_000_000, 1_000_000, 0]),
    );
    text("p cnf 1 9\n1 0 0 0 0 0 0 0 0 0\n", Err((7, 10)));
}

#[test]
fn text_headers() {
    text("", Err((17, 0)));
    text("c only", Err((17, 6)));
    text("c only\n", Err((17, 7)));
    text("c x\n\np cnf 1 1\n1 0", Err((17, 4)));
    for line in [
        "p cnf 1 1",
        "p cnf 01 1\n",
        "p cnf 1  1\n",
        "p cnf 1 1 \n",
        "p cnf 1 1\r\n",
    ] {
        text(line, Err((17, 0)));
    }
    for line in [
        "p cnf  1\n",
        "p cnf 1\n",
        "P cnf 1 1\n",
        " p cnf 1 1\n",
        "p cnf -1 1\n",
    ] {
        text(line, Err((17, 0)));
    }
    text("c\np cnf 1000001 0\n", Err((16, 2)));
    text("c\np cnf 0 4000001\n", Err((16, 2)));
    text("p cnf 99999999999999999999999999999 0\n-", Err((16, 0)));
    text("p cnf 4294967297 0\n", Err((16, 0)));
    text("p cnf 99999999999999999999999999999 0", Err((17, 0)));
}

#[test]
fn text_tokens() {
    for token in [
        "-", "--1", "01", "+1", "1x", "-01", "1-", "c", "00", "1\0", "\u{b}", ":",
    ] {
        text(&format!("p cnf 1 1\n1 0 {token} 9"), Err((18, 14)));
        text(&format!("p cnf 1 1\n1 0 {token}"), Err((18, 14)));
    }
    for token in [
        "2",
        "-2",
        "10",
        "99999999999999999999",
        "-4294967297",
        "18446744073709551617",
    ] {
        text(&format!("p cnf 1 1\n1 0 {token} x"), Err((14, 14)));
        text(&format!("p cnf 1 1\n1 0 {token}"), Err((14, 14)));
        text(&format!("p cnf 1 1\n1 0 {token}x 2"), Err((18, 14)));
    }
}

#[test]
fn text_out_refusals() {
    let mut out = [b'~'; 40];
    let mut refuse = |variables, words: &[i32], number, place| {
        for write_text in [write_text, usual::write_text] {
            let got = write_text(variables, words, &mut out);
            assert_eq!(got, refused(number, place));
            assert!(out.iter().all(|&b| b == b'~'));
        }
    };
    refuse(1_000_001, &[5], 16, 0);
    refuse(2, &[1, -3, 4], 14, 1);
    refuse(2, &[1, 2, i32::MIN], 14, 2);
    refuse(0, &[0, 1], 14, 1);
    refuse(2, &[1, 0, 2], 15, 3);
    refuse(2, &[0; 20], 7, 51);
    refuse(2, &vec![0; 4_000_000], 7, 8_000_016);
    refuse(2, &vec![0; 4_000_001], 16, 0);
}

#[test]
fn text_out_words() {
    let mut out = [b'~'; 64];
    let words = [-1_000_000, 1_000_000, 0, 0, -999_999, 10, -9, 0];
    let wanted = b"p cnf 1000000 3\n-1000000 1000000 0\n0\n-999999 10 -9 0\n~";
    assert_eq!(
        write_text(1_000_000, &words, &mut out[..52]),
        refused(7, 53)
    );
    let length = write_text(1_000_000, &words, &mut out).unwrap();
    assert_eq!(&out[..length + 1], wanted);
    assert_eq!(write_text(0, &[], &mut out), Ok(10));
    assert_eq!(&out[..10], b"p cnf 0 0\n");
}
