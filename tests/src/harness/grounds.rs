//! The grounds of over range beside this implementation's: over invented sessions, and over such
//! that aim at the four limits, in buffers of every kind.

use crate::engine::{Entry, Event, Mode, State};
use crate::file::{Outcome, Session};
use crate::grounds::by_hand::Owed;
use crate::grounds::{self, Ground, Sample, GROUNDS};
use crate::random::Random;
use crate::rules::{self, Refusal};
use crate::sessions;
use crate::store::{self, Stored};

use super::tally::{room_name, ROOMS};
use super::{Campaign, Engine, Filled, Tally};

impl Campaign {
    /// Compares the grounds of events with this implementation's, byte by byte.
    pub fn against_grounds(&self, tool: &mut dyn Engine) -> Result<Tally, String> {
        let mut met = Tally::owing(owed_names());
        for number in 0..self.sessions {
            let mut random = Random::of_session(!self.seed, number);
            let aimed = sessions::grounds::aimed(self.seed, number).to_bytes();
            for file in [sessions::make(self.seed, number).file, aimed] {
                compare(tool, &file, &mut random, &mut met)
                    .map_err(|why| self.report(number, &file, &why))?;
            }
        }
        Ok(met)
    }
}

const SPARE: usize = 60;

/// One buffer that is just long enough, and one of another kind. A file that is none is taken for one of
/// three events.
fn compare(
    tool: &mut dyn Engine,
    file: &[u8],
    random: &mut Random,
    met: &mut Tally,
) -> Result<(), String> {
    let session = Session::open(file);
    let count = session.as_ref().map_or(3, |session| session.events.len());
    let old = sessions::old_bytes(random, count + SPARE);
    let other = random.pick(&[0, count / 2, count.saturating_sub(1), count + 1, count + SPARE]);
    for room in [count, other] {
        let ours = Filled::by(&old[..room], |out| grounds::grounds(file, out));
        let theirs = Filled::by(&old[..room], |out| tool.run(file, out));
        ours.compare(&theirs, "grounds", differing_ground)
            .map_err(|why| format!("{room} bytes lent: {why}"))?;
        met.meet(status_name(ours.outcome.status));
        if let (0 | 13, 1..) = (ours.outcome.status, count) {
            met.meet(buffer_name(room_name(room, count)));
        }
    }
    session.iter().for_each(|session| met.add_session(session));
    Ok(())
}

fn differing_ground(ours: &[u8], theirs: &[u8], at: usize) -> String {
    format!("event {}: expected ground {}, was given {}", at + 1, ours[at], theirs[at])
}

/// Holds a tool to grounds that were worked out by hand, in buffers of every kind.
pub fn check_grounds(owed: &Owed, tool: &mut dyn Engine) -> Result<(), String> {
    let (file, bytes) = (owed.session.to_bytes(), &owed.grounds);
    for room in [0, bytes.len().saturating_sub(1), bytes.len(), bytes.len() + 1, 2_701] {
        let lent = sessions::old_bytes(&mut Random::new(room as u64), room);
        let right = Filled::by(&lent, |out| Outcome::filling(out, bytes, Refusal::OutputTooShort));
        let given = Filled::by(&lent, |out| tool.run(&file, out));
        right
            .compare(&given, "grounds", differing_ground)
            .map_err(|why| format!("{}, {room} bytes lent: {why}", owed.name))?;
    }
    Ok(())
}

const MODES: [&str; 2] = ["in absolute mode", "against a reference"];

fn mode_name(state: &State) -> &'static str {
    MODES[usize::from(state.mode != Mode::Absolute)]
}

impl Tally {
    fn add_session(&mut self, session: &Session) {
        for ((state, stored, answer), record) in store::walk(session, None).zip(&session.events) {
            match (record.entry(), record.event_of_kind()) {
                (entry @ Entry::Known(Event::Sample { .. }), _) => {
                    self.meet(sample_name(mode_name(&state), answer.refusal));
                    self.add_sample(&state, stored, &entry);
                }
                // What it would be if its bytes were as they must be.
                (Entry::Malformed(_), Some(event @ Event::Sample { .. }))
                    if is_over(&state, stored, &event) =>
                {
                    self.meet(MALFORMED.to_string());
                }
                (Entry::Known(Event::Span { raw, p, t, e, .. }), _)
                    if answer.refusal == 5
                        && is_over(&state, stored, &Event::Sample { raw, p, t, e }) =>
                {
                    self.meet(SPAN.to_string());
                }
                _ => {}
            }
        }
    }

    /// The ground of a sample, and where its signal lies beside each limit.
    fn add_sample(&mut self, state: &State, stored: Stored, entry: &Entry) {
        self.meet(ground_name(grounds::ground(state, stored, entry), mode_name(state)));
        let Some(sample) = Sample::of(entry) else {
            return;
        };
        let Some((sheet, signal)) = grounds::signal(state, stored, &sample) else {
            return;
        };
        let [before, passed, after] = [signal - 1, signal, signal + 1]
            .map(|signal| grounds::passed(&sheet, &sample.air, signal));
        for (place, ground) in GROUNDS.into_iter().enumerate() {
            let ends = [!passed[place] && after[place], passed[place] && !before[place]];
            for (end, _) in ENDS.iter().zip(ends).filter(|(_, met)| *met) {
                self.meet(limit_name(end, ground, mode_name(state)));
            }
        }
        let steps = rules::steps(&sheet, &sample.air, signal);
        let exactly = [steps.z == rules::Z_LIMIT, steps.c == rules::WET_LIMIT];
        for (name, _) in EXACTLY.iter().zip(exactly).filter(|(_, met)| *met) {
            self.meet(exact_name(name, mode_name(state)));
        }
    }
}

fn is_over(state: &State, stored: Stored, event: &Event) -> bool {
    grounds::ground(state, stored, &Entry::Known(*event)) != Ground::None
}

const MALFORMED: &str = "malformed sample, over range by its fields";
const SPAN: &str = "span refused with 5, its raw over range as a sample";

/// The last signal that does not pass a limit, and the first that does.
const ENDS: [&str; 2] = ["last signal within the limit", "first signal beyond the limit"];
const EXACTLY: [&str; 2] = ["z 100000000", "wet 3000000000"];

fn status_name(status: u8) -> String {
    format!("grounds, status {status}")
}

fn buffer_name(room: &str) -> String {
    format!("grounds, {room}")
}

fn sample_name(mode: &str, refusal: u8) -> String {
    format!("sample {mode}, refused with {refusal}")
}

fn ground_name(ground: Ground, mode: &str) -> String {
    format!("ground {} {mode}", ground.number())
}

fn limit_name(end: &str, ground: Ground, mode: &str) -> String {
    format!("{end} of ground {} {mode}", ground.number())
}

fn exact_name(name: &str, mode: &str) -> String {
    format!("{name} {mode}")
}

/// Names of all that a campaign over grounds has to meet. Without a sheet the mode is absolute, and
/// without a reference there is no 9.
fn owed_names() -> Vec<String> {
    let mut names: Vec<String> = [0, 12, 13].map(status_name).to_vec();
    names.extend(ROOMS.map(buffer_name));
    names.extend([MALFORMED, SPAN].map(str::to_string));
    names.extend([sample_name(MODES[0], 1), sample_name(MODES[1], 9)]);
    for mode in MODES {
        names.extend([0, 6, 7, 8].map(|number| sample_name(mode, number)));
        names.push(ground_name(Ground::None, mode));
        names.extend(GROUNDS.map(|ground| ground_name(ground, mode)));
        names.extend(EXACTLY.map(|name| exact_name(name, mode)));
        for end in ENDS {
            names.extend(GROUNDS.map(|ground| limit_name(end, ground, mode)));
        }
    }
    names
}
