//! A run followed record by record, by the same receiver of the library's that makes the report.

use crate::choice::Settings;
use crate::columns::{Columns, Step};
use crate::failure::{Failure, Outcome};
use crate::gaps::Gaps;
use crate::run::{Frame, Mark, Refused, Run};
use eiderwagon::capture::{Counts, Reading};
use eiderwagon::early::{Answer, EarlyReceiver};
use eiderwagon::mold::{Datagram, Kind};
use std::collections::BTreeMap;

pub struct Follow {
    receiver: EarlyReceiver,
    settings: Settings,
    /// The highest next number that a datagram told.
    told: u64,
    records: u64,
    counts: Counts,
    ended: Option<Mark>,
    gaps: Gaps,
    refusals: BTreeMap<u32, Refused>,
    columns: Columns,
}

impl Follow {
    pub fn start(settings: Settings) -> Outcome<Self> {
        let Settings { session, next, limit, .. } = settings;
        // settings that the library read start its receiver, too
        let receiver = EarlyReceiver::start(&session, next, limit)
            .map_err(|refusal| Failure::new(refusal.to_string()))?;
        Ok(Follow {
            receiver,
            settings,
            told: next,
            records: 0,
            counts: Counts::default(),
            ended: None,
            gaps: Gaps::default(),
            refusals: BTreeMap::new(),
            columns: Columns::new(),
        })
    }

    /// Takes a record.
    pub fn take(&mut self, datagram: &[u8], frame: Option<Frame>) {
        self.records += 1;
        let mark = Mark { record: self.records, frame };
        let request = match self.receiver.take(datagram) {
            Err(refusal) => return self.refuse(refusal.number(), mark),
            Ok(taken) => {
                match taken.answer {
                    Answer::Deliver(messages) => self.counts.delivered += messages.len() as u64,
                    Answer::Old => self.counts.old += 1,
                    Answer::Quiet => self.counts.quiet += 1,
                    Answer::Ended => self.ended = Some(mark),
                    _ => {}
                }
                taken.request
            }
        };
        let known = self.told;
        self.told = known.max(next_told(datagram));
        self.counts.asked += u64::from(request.is_some());
        let (lost, closed) =
            self.gaps.step(&self.receiver, known, self.told, request.as_ref(), mark);
        self.add(Step { lost, asked: request.is_some(), closed, ..Step::default() });
    }

    /// Takes the record that the file's end cut short, which is a refusal without a number.
    pub fn take_cut(&mut self) {
        self.records += 1;
        self.refuse(0, Mark { record: self.records, frame: None });
    }

    fn refuse(&mut self, number: u32, mark: Mark) {
        self.counts.refused += 1;
        let new = Refused { times: 0, first: mark };
        self.refusals.entry(number).or_insert(new).times += 1;
        self.add(Step { refused: true, ..Step::default() });
    }

    fn add(&mut self, step: Step) {
        self.columns.add(&Step { next: self.receiver.next(), told: self.told, ..step });
    }

    /// The run, which has to be the one that the report is of.
    pub fn finish(self, reading: &Reading) -> Outcome<Run> {
        let next = self.receiver.next();
        let reported = (reading.next(), reading.is_ended(), reading.counts());
        let counts = Counts { records: reported.2.records, ..self.counts };
        let followed = (next, self.receiver.is_ended(), counts);
        if reported != followed {
            return Err(Failure::new(format!(
                "this is a fault of the program: the report has {reported:?}, and its records {followed:?}"
            )));
        }
        let open_gaps = self.gaps.open_count();
        let (gaps, more_gaps) = self.gaps.finish();
        Ok(Run {
            session: String::from_utf8_lossy(&self.settings.session).into_owned(),
            start: self.settings.next,
            next,
            told: self.told,
            records: self.records,
            delivered: counts.delivered,
            asked: counts.asked,
            refused: counts.refused,
            ended: self.ended,
            gaps,
            more_gaps,
            open_gaps,
            refusals: self.refusals,
            columns: self.columns,
        })
    }
}

/// The next number that a datagram tells; 0 of one that the library refuses.
pub fn next_told(datagram: &[u8]) -> u64 {
    match Datagram::read(datagram) {
        Ok(read) => match read.kind() {
            Kind::Data { count } => read.number() + u64::from(count),
            _ => read.number(),
        },
        Err(_) => 0,
    }
}
