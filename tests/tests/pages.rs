//! Pages for the lab book: those worked out by hand, what the invented sessions reach, and
//! pages that are wrong: a comparison that could not fail would be worth nothing.

use std::path::Path;

use irga_tests::engine::SAMPLE;
use irga_tests::figures::decimal;
use irga_tests::file::{Outcome, Session};
use irga_tests::harness::{check_page, Campaign};
use irga_tests::page::by_hand::{self, OwedPage};
use irga_tests::page::{self, figure, hundredths, page, Page, Sample, EVERY};
use irga_tests::rules::Refusal;
use irga_tests::sessions;

fn campaign(sessions: u64) -> Campaign {
    let folder = Path::new(env!("CARGO_TARGET_TMPDIR")).to_path_buf();
    Campaign { seed: 0x6277, sessions, folder }
}

const HEADER: &str = "    no           wet           dry          diff                        \n";
const EXAMPLE: &str = "     3       1388.16       1388.16        388.16                        \n";

/// Column by column, the whole width of it.
#[test]
fn the_example_of_the_paper() {
    let mut out = [b'#'; 147];
    let outcome = page(&by_hand::example().session.to_bytes(), 40, &mut out);
    assert_eq!(outcome, Outcome { status: 0, written: 146 });
    assert_eq!(String::from_utf8_lossy(&out), format!("{HEADER}{EXAMPLE}#"));
    assert_eq!(by_hand::example().bytes(), out[..146]);
    assert_eq!([HEADER, EXAMPLE].map(str::len), [72 + 1; 2]);
}

#[test]
fn pages_worked_out_by_hand() {
    for owed in by_hand::pages() {
        assert_eq!(check_page(&owed, &page), Ok(()));
    }
}

/// The differences that these pages are about, to the last pmol/mol.
#[test]
fn differences_are_what_is_said_of_them() {
    let differences = |owed: OwedPage| {
        let samples = page::samples(&owed.session);
        samples.iter().filter_map(|sample| sample.values()[2]).collect::<Vec<i64>>()
    };
    let around_nothing = [-4_000, -5_000, -4_999, -10_000, 5_000, 4_999];
    assert_eq!(differences(by_hand::differences()), around_nothing);
    assert_eq!(differences(by_hand::faint_cylinders()), around_nothing);
    assert_eq!(differences(by_hand::rounded_by_itself()), [2_000, 8_000]);
}

/// 12 before 16 before 17. Nothing is written then.
#[test]
fn a_page_that_is_turned_away() {
    let sound = by_hand::example().session.to_bytes();
    let no_file = &sound[1..];
    for (file, every, room, status) in [
        (no_file, 40, 1_000, 12),
        (no_file, 0, 0, 12),
        (no_file, 1_000, 0, 12),
        (&sound, 0, 1_000, 16),
        (&sound, 1_000, 1_000, 16),
        (&sound, u32::MAX, 0, 16),
        (&sound, 1, 0, 17),
        (&sound, 999, 145, 17),
    ] {
        let mut out = vec![b'#'; room];
        assert_eq!(page(file, every, &mut out), Outcome { status, written: 0 });
        assert_eq!(out, vec![b'#'; room]);
    }
}

/// An empty page fits a buffer of no bytes, and does not excuse an N that is none.
#[test]
fn pages_without_a_line() {
    for OwedPage { session, .. } in by_hand::empty() {
        let file = session.to_bytes();
        for (every, status) in [(0, 16), (1, 0), (999, 0), (1_000, 16)] {
            assert_eq!(page(&file, every, &mut []), Outcome { status, written: 0 });
        }
    }
}

#[test]
fn the_longest_page() {
    let file = by_hand::longest().to_bytes();
    let mut out = vec![b'#'; 394_055];
    assert_eq!(page(&file, 1, &mut out), Outcome { status: 0, written: 394_054 });
    assert_eq!((page::LONGEST, out[394_054]), (394_054, b'#'));
    let text = String::from_utf8_lossy(&out[..394_054]);
    let words = |line: &str| line.split_whitespace().map(str::to_string).collect::<Vec<String>>();
    for (at, pair) in text.lines().collect::<Vec<&str>>().chunks(2).enumerate() {
        assert_eq!(pair.iter().map(|line| line.len()).collect::<Vec<usize>>(), [72; 2]);
        assert_eq!(words(pair[0]), ["no", "wet", "dry", "diff"]);
        assert_eq!(words(pair[1]), [&(at + 2).to_string(), "1000.00", "1000.00"]);
    }
    let mut short = vec![b'#'; 394_053];
    assert_eq!(page(&file, 1, &mut short), Outcome { status: 17, written: 0 });
    assert_eq!(short, vec![b'#'; 394_053]);
}

/// A seed and a number make the same session at any time.
#[test]
fn sessions_are_made_again() {
    assert_eq!(sessions::pages::aimed(3, 7), sessions::pages::aimed(3, 7));
    assert_ne!(sessions::pages::aimed(3, 7), sessions::pages::aimed(3, 8));
}

/// Every status, N, buffer and figure, by our own pages.
#[test]
fn what_invented_sessions_reach() {
    let met = campaign(2_000).against_page(&page).unwrap_or_else(|why| panic!("{why}"));
    println!("{met}");
    let rare = met.rarer_than(20);
    assert!(rare.is_empty(), "{rare:?}");
}

/// A page that is wrong in one thing.
struct Wrong {
    what: &'static str,
    says: &'static str,
    page: Box<Page>,
}

const OUTCOME: &str = ": expected Outcome";
const LINE: &str = ": line ";
const TOUCHED: &str = "after the page was touched";

/// A page of other text, turned away as ours is.
fn wrong_text(
    what: &'static str,
    says: &'static str,
    text: impl Fn(&Session, usize) -> String + 'static,
) -> Wrong {
    let wrong = move |file: &[u8], every: u32, out: &mut [u8]| {
        let Some(session) = Session::open(file).filter(|_| EVERY.contains(&every)) else {
            return page(file, every, out);
        };
        let text = text(&session, every as usize);
        Outcome::filling(out, text.as_bytes(), Refusal::PageTooLong)
    };
    Wrong { what, says, page: Box::new(wrong) }
}

/// Our text with something done to it.
fn wrong_afterwards(what: &'static str, says: &'static str, change: fn(String) -> String) -> Wrong {
    wrong_text(what, says, move |session, every| change(page::text(&page::samples(session), every)))
}

/// A page of other samples, from the right ones and their session.
fn wrong_samples(
    what: &'static str,
    says: &'static str,
    change: fn(Vec<Sample>, &Session) -> Vec<Sample>,
) -> Wrong {
    wrong_text(what, says, move |session, every| {
        page::text(&change(page::samples(session), session), every)
    })
}

/// A page whose lines have other cells.
fn wrong_cells(what: &'static str, cells: impl Fn(&Sample) -> [String; 4] + 'static) -> Wrong {
    wrong_text(what, LINE, move |session, every| {
        let rows: Vec<[String; 4]> = page::samples(session).iter().map(&cells).collect();
        page::under_headers(&rows, every)
    })
}

/// A page whose figures are made by another rule.
fn wrong_figures(what: &'static str, figure: fn(i64) -> String) -> Wrong {
    wrong_cells(what, move |sample| {
        let values = sample.values().map(|value| value.map_or(String::new(), figure));
        let [wet, dry, difference] = values;
        [sample.ordinal.to_string(), wet, dry, difference]
    })
}

/// A page whose differences are made by another rule, from the sample and its Cr.
fn wrong_difference(what: &'static str, difference: fn(&Sample, i64) -> String) -> Wrong {
    wrong_cells(what, move |sample| {
        let [ordinal, wet, dry, _] = sample.cells();
        let cell = sample.cylinder.map_or(String::new(), |cylinder| difference(sample, cylinder));
        [ordinal, wet, dry, cell]
    })
}

fn wrong_outcome(
    what: &'static str,
    says: &'static str,
    page: fn(&[u8], u32, &mut [u8]) -> Outcome,
) -> Wrong {
    Wrong { what, says, page: Box::new(page) }
}

/// Other widths, and header lines in other places.
fn wrong_layouts() -> Vec<Wrong> {
    let each_line = |text: &str, change: fn(&str) -> String| -> String {
        text.lines().map(|line| change(line) + "\n").collect()
    };
    vec![
        wrong_afterwards("71 columns", OUTCOME, |text| text.replace(" \n", "\n")),
        wrong_text("lines end with their last figure", OUTCOME, move |session, every| {
            let text = page::text(&page::samples(session), every);
            each_line(&text, |line| line.trim_end().to_string())
        }),
        wrong_text("wet in 13 columns", LINE, move |session, every| {
            let text = page::text(&page::samples(session), every);
            each_line(&text, |line| format!("{}{} ", &line[..6], &line[7..]))
        }),
        wrong_text("a header line after the last line", OUTCOME, |session, every| {
            let samples = page::samples(session);
            let full = !samples.is_empty() && samples.len() % every == 0;
            page::text(&samples, every) + if full { HEADER } else { "" }
        }),
        wrong_text("a header line at the top alone", OUTCOME, |session, _| {
            page::text(&page::samples(session), usize::MAX)
        }),
        wrong_afterwards("a header line above an empty page", OUTCOME, |text| {
            Some(text).filter(|text| !text.is_empty()).unwrap_or(HEADER.to_string())
        }),
        wrong_text("the second header line comes one line late", LINE, |session, every| {
            let samples = page::samples(session);
            let (first, rest) = samples.split_at(samples.len().min(every + 1));
            let late = page::text(first, every + 1) + &page::text(rest, every);
            let right = page::text(&samples, every);
            Some(late).filter(|late| late.len() == right.len()).unwrap_or(right)
        }),
    ]
}

/// Figures and differences by other rules.
fn wrong_rules() -> Vec<Wrong> {
    vec![
        wrong_figures("-0.00", |value| {
            let sign = if value < 0 && hundredths(value) == 0 { "-" } else { "" };
            format!("{sign}{}", figure(value))
        }),
        wrong_figures("a sign that is lost between -1 and 0", |value| {
            let hundredths = hundredths(value);
            format!("{}.{:02}", hundredths / 100, (hundredths % 100).abs())
        }),
        wrong_figures("figures that are cut", |value| decimal(value / 10_000, 2)),
        wrong_figures("halves that go up", |value| {
            decimal((2 * value + 10_000).div_euclid(20_000), 2)
        }),
        wrong_figures("halves that go toward zero", |value| {
            decimal(value.signum() * ((2 * value.abs() + 9_999) / 20_000), 2)
        }),
        wrong_figures("halves that go to the even figure", |value| {
            let (down, rest) = (value.div_euclid(10_000), value.rem_euclid(10_000));
            let up = rest > 5_000 || (rest == 5_000 && down % 2 != 0);
            decimal(down + i64::from(up), 2)
        }),
        wrong_difference("the difference of the figures", |sample, cylinder| {
            decimal(hundredths(sample.wet) - hundredths(cylinder), 2)
        }),
        wrong_difference("dry less Cr", |sample, cylinder| figure(sample.dry - cylinder)),
        wrong_cells("a difference in absolute mode", |sample| {
            Sample { cylinder: sample.cylinder.or(Some(0)), ..*sample }.cells()
        }),
    ]
}

/// Other samples, or samples with something of another one.
fn wrong_choices() -> Vec<Wrong> {
    vec![
        wrong_samples("a later reference's Cr", LINE, |mut samples, _| {
            let last = samples.iter().rev().find_map(|sample| sample.cylinder);
            samples.iter_mut().for_each(|sample| sample.cylinder = sample.cylinder.and(last));
            samples
        }),
        wrong_samples("ordinals of samples", LINE, |mut samples, _| {
            samples.iter_mut().zip(1..).for_each(|(sample, ordinal)| sample.ordinal = ordinal);
            samples
        }),
        wrong_samples("ordinals from 0", LINE, |mut samples, _| {
            samples.iter_mut().for_each(|sample| sample.ordinal -= 1);
            samples
        }),
        wrong_samples("refused samples have a line", OUTCOME, |_, session| {
            let all = (1..).zip(session.walk()).filter(|(_, (_, answer))| answer.kind == SAMPLE);
            all.map(|(ordinal, (state, answer))| Sample::read(ordinal, &state, &answer)).collect()
        }),
    ]
}

/// Says a status where something holds, and is right otherwise.
fn said_if(holds: bool, status: u8, file: &[u8], every: u32, out: &mut [u8]) -> Outcome {
    if holds {
        Outcome { status, written: 0 }
    } else {
        page(file, every, out)
    }
}

/// Whether a buffer is too short for the page under 1.
fn is_short(file: &[u8], out: &[u8]) -> bool {
    page(file, 1, &mut out.to_vec()).status == 17
}

/// Other orders of the refusals, and other limits.
fn wrong_refusals() -> Vec<Wrong> {
    vec![
        wrong_outcome("16 before 12", OUTCOME, |file, every, out| {
            said_if(!EVERY.contains(&every), 16, file, every, out)
        }),
        wrong_outcome("17 before 12", OUTCOME, |file, every, out| {
            let no_file = Session::open(file).is_none();
            said_if(no_file && out.is_empty(), 17, file, every, out)
        }),
        wrong_outcome("17 before 16", OUTCOME, |file, every, out| {
            let both = !EVERY.contains(&every) && is_short(file, out);
            said_if(both, 17, file, every, out)
        }),
        wrong_outcome("N 0 is taken for 1", OUTCOME, |file, every, out| {
            page(file, every.max(1), out)
        }),
        wrong_outcome("N above 999 is taken for 999", OUTCOME, |file, every, out| {
            page(file, every.min(999), out)
        }),
        wrong_outcome("N in eight bits", OUTCOME, |file, every, out| {
            page(file, if EVERY.contains(&every) { every % 256 } else { every }, out)
        }),
        wrong_outcome("N in sixteen bits", OUTCOME, |file, every, out| {
            page(file, every % 65_536, out)
        }),
        wrong_outcome("146 bytes are asked for each event", OUTCOME, |file, every, out| {
            let events = Session::open(file).map_or(0, |session| session.events.len());
            let short = EVERY.contains(&every) && out.len() < 146 * events;
            said_if(short, 17, file, every, out)
        }),
    ]
}

/// Bytes that are touched and are to stay, and other lengths.
fn wrong_bytes() -> Vec<Wrong> {
    vec![
        wrong_outcome("a header line before the room is looked at", TOUCHED, |file, every, out| {
            let outcome = page(file, every, out);
            if outcome.status == 17 && out.len() >= HEADER.len() {
                out[..HEADER.len()].copy_from_slice(HEADER.as_bytes());
            }
            outcome
        }),
        wrong_outcome("the rest of the buffer is cleared", TOUCHED, |file, every, out| {
            let outcome = page(file, every, out);
            out[outcome.written..].fill(0);
            outcome
        }),
        wrong_outcome("a zero byte ends the page", TOUCHED, |file, every, out| {
            let outcome = page(file, every, out);
            let end = if outcome.status == 0 { outcome.written } else { out.len() };
            out[end..].iter_mut().take(1).for_each(|byte| *byte = 0);
            outcome
        }),
        wrong_outcome("a length where nothing is written", OUTCOME, |file, every, out| {
            let Outcome { status, written } = page(file, every, out);
            Outcome { status, written: written.max(73) }
        }),
    ]
}

#[test]
fn wrong_pages_are_caught() {
    let groups = [wrong_layouts(), wrong_rules(), wrong_choices(), wrong_refusals(), wrong_bytes()];
    for Wrong { what, says, page } in groups.into_iter().flatten() {
        let message = campaign(1_000).against_page(&*page).expect_err(what);
        assert!(message.contains(says), "{what}: {message}");
    }
}

/// The same pages, but for those that are wrong in a refusal, beside those worked out by hand.
#[test]
fn wrong_pages_are_caught_by_hand() {
    let groups = [wrong_layouts(), wrong_rules(), wrong_choices(), wrong_bytes()];
    for Wrong { what, page, .. } in groups.into_iter().flatten() {
        let caught = by_hand::pages().iter().any(|owed| check_page(owed, &*page).is_err());
        assert!(caught, "{what}");
    }
}
