//! The examples worked out in the documents, word for word.

use second::plan;

const MORNING: &str = "S 8 300\nO 3\n0 31\n1 32\n7 0\nM 5\n11 2\nT 0 31\nP 4 31\n12 2\nT 1 32\nP 5 32\n13 3\nL 7 0\nT 4 31\nP 6 31\n14 2\nT 5 32\nP 0 32\n15 1\nL 7 0\nC 2\n0\n1\n";
const SLIP: &str = "S 6 300\nO 3\n0 41\n1 42\n5 0\nM 3\n31 2\nT 0 41\nP 2 41\n32 2\nT 1 42\nP 3 42\n33 1\nL 5 0\nC 2\n1\n3\n";
const APART: &str = "Q 3\n2 0 2\n1 1\n1 4\nR 1\n3\n";
const TOGETHER: &str = "Q 2\n4 0 1 2 3\n1 4\nR 0\n";
const ENDS: &str = "E 5\n11 1 0 0\n12 1 0 0\n13 1 0 0\n14 1 0 0\n15 1 0 0\nV 3\n0 32\n1 0\n6 31\n";

fn with_share(share: &str) -> String {
    MORNING.replacen("S 8 300", &format!("S 8 {share}"), 1)
}

#[test]
fn the_worked_listing() {
    assert_eq!(plan(MORNING.as_bytes()), format!("{APART}{ENDS}"));
}

#[test]
fn other_shares() {
    assert_eq!(plan(with_share("200").as_bytes()), format!("{TOGETHER}{ENDS}"));
    assert_eq!(plan(with_share("201").as_bytes()), format!("{APART}{ENDS}"));
}

#[test]
fn no_choices() {
    let sheet = MORNING.replacen("C 2\n0\n1\n", "C 0\n", 1);
    assert_eq!(plan(sheet.as_bytes()), format!("{TOGETHER}{ENDS}"));
}

#[test]
fn no_moves() {
    assert_eq!(plan(b"S 8 300\nO 3\n0 31\n1 32\n7 0\nM 0\nC 0\n"), "Q 0\nR 0\nE 0\nV 0\n");
}

#[test]
fn orders_of_feeders() {
    let sheet = b"F 2 1\nO 2\n0 900 1000\n1 5 4\nM 4\n1 1\nA 0 100\n2 1\nA 0 101\n3 1\nH 1 0\n4 1\nS 1 5\nC 0\n";
    let due = "Q 2\n2 0 1\n2 2 3\nR 0\nE 4\n1 1 0 0\n2 2 1 27\n3 2 1 29\n4 1 0 0\nV 2\n0 1000 1000\n1 0 4\n";
    assert_eq!(plan(sheet), due);
}

#[test]
fn slips() {
    assert_eq!(plan(SLIP.as_bytes()), "N 4 17 1\n");
    assert_eq!(plan(b""), "N 9 1 0\n");
    assert_eq!(plan(b"\n"), "N 3 1 0\n");
    assert_eq!(plan(b"S 8 300\nO 0\n"), "N 6 2 2\n");
    assert_eq!(plan(&[b'x'; 32_769]), "N 10 0 0\n");
}
