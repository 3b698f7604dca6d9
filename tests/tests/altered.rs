//! Document 02's R-7: records whose stored finding was altered. The proved program `altered` hands
//! them to the engine's step and prints what it answers beside what the rules give, and the ground
//! that R-9's tool names.

use std::collections::BTreeSet;

use irga_tests::altered::text;

/// The proved program is held to this text, so that its figures have a source of their own.
#[test]
fn the_proved_program_is_held_to_this_text() {
    assert_eq!(text(), include_str!("../../crates/altered/stdout"));
}

/// A row of the first table: K, R and raw, the answer's four numbers twice, and the ground.
struct Row {
    case: Vec<String>,
    step: Vec<i64>,
    by_rules: Vec<i64>,
    ground: u8,
}

fn rows() -> Vec<Row> {
    let text = text();
    let table = text.lines().skip(1).take_while(|line| !line.starts_with("event"));
    let numbers = |part: &str| part.split(' ').map(|word| word.parse().unwrap()).collect();
    table
        .map(|line| {
            let parts: Vec<&str> = line.split(" | ").collect();
            assert_eq!(parts.len(), 4, "{line}");
            let case = parts[0].split(' ').map(str::to_string).collect();
            let (step, by_rules) = (numbers(parts[1]), numbers(parts[2]));
            Row { case, step, by_rules, ground: parts[3].parse().unwrap() }
        })
        .collect()
}

/// At the stored P and T the answer is the rules' with the stored R, whatever it is: R itself where
/// the sample is accepted, 9 where nothing is stored as found.
#[test]
fn a_stored_signal_is_answered() {
    let rows = rows();
    assert_eq!(rows.len(), 2 * 12 * 4);
    let mut accepted_at_k_or_above = 0;
    for Row { case, step, by_rules, .. } in &rows {
        assert_eq!(step, by_rules, "{case:?}");
        match case[1].parse::<i64>() {
            Ok(r) => {
                assert!(step[0] != 9 && (step[0] != 0 || step[1] == r), "{case:?}");
                let k: i64 = case[0].parse().unwrap();
                accepted_at_k_or_above += u32::from(step[0] == 0 && r >= k);
            }
            Err(_) => assert_eq!(step[0], 9, "{case:?}"),
        }
    }
    assert!(accepted_at_k_or_above >= 2);
}

/// By hand from document 01: K 10,000,000, R 150,000,000, V 10,500,000 is read at
/// 150,000,000 + 10,500,000 − 157,500,000 = 3,000,000, where z is that and f is near(z h1 / 10^7) with
/// h2 = 5,000,000 + 1,500,000 and h1 = 150,000,000 + 1,950,000.
#[test]
fn a_signal_above_k_by_hand() {
    let (h2, z) = (5_000_000 + 1_500_000, 3_000_000_i64);
    let h1 = 150_000_000 + h2 * z / 10_000_000;
    let wet = z * h1 / 10_000_000;
    let answer = format!("0 150000000 {wet} {wet}");
    let row = format!("10000000 150000000 10500000 | {answer} | {answer} | 0\n");
    assert!(text().contains(&row), "{row}");
}

/// Document 02's R-9, with the stored R, whatever it is: a ground exactly where the answer is 8. All four
/// occur, and each refusal that has none.
#[test]
fn a_ground_where_the_answer_is_8() {
    let (mut grounds, mut others) = ([0; 5], BTreeSet::new());
    for Row { case, step, ground, .. } in rows() {
        assert_eq!(ground != 0, step[0] == 8, "{case:?}");
        grounds[usize::from(ground)] += 1;
        others.extend((ground == 0).then_some(step[0]));
    }
    assert!(grounds.iter().all(|count| *count > 0), "{grounds:?}");
    assert_eq!(others, BTreeSet::from([0, 7, 9]));
}

/// By hand from document 01. With K 200,000,000 and R 80,000,000, V 0 is read at 80,000,000, where h2 is
/// 5,000,000 + 40,000,000, h1 150,000,000 + 360,000,000, and the wet value 4,080,000,000; V -20,000,000 is
/// read at 80,000,000 - 20,000,000 + 8,000,000 = 68,000,000, where it is 6.8 (150,000,000 +
/// 6.8 × 39,000,000) = 2,823,360,000. With K 10,000,000 it is read at 80,000,000 - 20,000,000 + 160,000,000,
/// above 150,000,000 and K, V 0 at 80,000,000, not above 150,000,000 but above K, and V 10,500,000 at
/// 80,000,000 + 10,500,000 - 84,000,000 = 6,500,000. With R 150,000,000, V 0 is read at 150,000,000: not
/// above that, and below K 200,000,000, but z is above 10^8.
#[test]
fn grounds_by_hand() {
    for (case, refusal, ground) in [
        ("200000000 80000000 0", 8, 4),
        ("200000000 80000000 -20000000", 0, 0),
        ("10000000 80000000 -20000000", 8, 1),
        ("10000000 80000000 0", 8, 2),
        ("10000000 80000000 10500000", 0, 0),
        ("200000000 150000000 0", 8, 3),
        ("200000000 nothing 0", 9, 0),
    ] {
        let rows = rows();
        let row = rows.iter().find(|row| row.case.join(" ") == case).expect(case);
        assert_eq!((row.step[0], row.ground), (refusal, ground), "{case}");
    }
    assert!(text().contains("200000000 80000000 -20000000 | 0 80000000 2823360000 "));
}
