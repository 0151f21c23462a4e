//! Reports of the library: the number returned and every byte of both buffers, for text buffers of several lengths.
use super::lent::Lent;
use crate::{office, second, Outcome};

/// What `read_log` returned, and the answer buffer as it left it.
pub(super) struct Read {
    pub(super) outcome: Outcome,
    pub(super) buffer: Lent,
}

/// What a report can be.
pub(super) const REPORTS: [&str; 3] = ["whole", "of a refused log", "of a too short answer buffer"];

/// The length of a text buffer, from the length that its report needs.
type LengthFor = fn(usize) -> usize;

/// The text buffers that each report is written to; the last two are too short for it.
pub(super) const TEXT_BUFFERS: [(&str, LengthFor); 5] = [
    ("of the length needed", |needed| needed),
    ("one byte longer", |needed| needed + 1),
    ("much longer", |needed| 2 * needed + 100),
    ("one byte short", |needed| needed - 1),
    ("empty", |_| 0),
];

/// The texts that were the same, by what the report is and by its buffer.
#[derive(Default)]
pub(super) struct ReportTally(pub(super) [[u64; TEXT_BUFFERS.len()]; REPORTS.len()]);

impl ReportTally {
    /// A log's report into each text buffer, with an answer buffer of this length and pattern; `read` is what `read_log`
    /// made of it.
    pub(super) fn check(
        &mut self,
        log: &[u8],
        report: &str,
        length: usize,
        turned: bool,
        read: &Read,
    ) -> Result<(), String> {
        let short_line;
        let (kind, report) = match read.outcome {
            Outcome::Written(_) => (0, report),
            Outcome::Refused(12, needed) => {
                short_line = second::refused_line(12, needed);
                (2, &short_line[..])
            }
            Outcome::Refused(..) => (1, report),
        };
        for (room, (_, text_length)) in TEXT_BUFFERS.iter().enumerate() {
            let text_length = text_length(report.len());
            let differs =
                |difference: String| format!("text buffer of {text_length}: {difference}");
            let mut answers = Lent::new(turned, length);
            let mut text = Lent::new(turned, text_length);
            let mut expected_text = text.clone();
            let given = office::report(log, answers.lend(), text.lend());
            let expected = second::put(report.as_bytes(), expected_text.lend());
            if given != expected {
                return Err(differs(format!(
                    "{given:?}, the second implementation {expected:?}"
                )));
            }
            text.same_as(&expected_text).map_err(differs)?;
            answers
                .same_as(&read.buffer)
                .map_err(|difference| differs(format!("of the answers, {difference}")))?;
            self.0[kind][room] += 1;
        }
        Ok(())
    }

    fn of_kind(&self, kind: usize) -> u64 {
        self.0[kind].iter().sum()
    }

    fn in_room(&self, room: usize) -> u64 {
        self.0.iter().map(|of_kind| of_kind[room]).sum()
    }

    pub(super) fn print(&self) {
        let listed = |names: &mut dyn Iterator<Item = (&str, u64)>| {
            let parts: Vec<_> = names.map(|(name, met)| format!("{name} {met}")).collect();
            parts.join(", ")
        };
        let kinds = &mut (0..).zip(REPORTS).map(|(i, name)| (name, self.of_kind(i)));
        let rooms = &mut (0..)
            .zip(TEXT_BUFFERS)
            .map(|(i, (name, _))| (name, self.in_room(i)));
        println!("reports: {}; text buffer {}", listed(kinds), listed(rooms));
    }
}
