//! What C may do with one frame, step by step: open it, offer files, ask for lines. A whole history
//! is one request to the bridge, and the reference says what the whole answer must be.

use crate::accept::{demand, numbers, Refusal};
use crate::assemble::{self, Record, Slate, MARKS, SLATE};
use crate::proved::six_bytes;

#[derive(Clone, Copy, Debug)]
pub enum Step {
    Open,
    /// Offers one of the history's files.
    Offer(u16),
    Line(u16),
}

pub struct History {
    pub slate: Slate,
    /// Marks and frame as they are lent at first.
    pub stage: Stage,
    pub leader: Vec<u16>,
    /// How many counts the output for a line has.
    pub room: usize,
    /// Whether marks and frame are told after every opening and offer, and not only at the end.
    pub watched: bool,
    pub files: Vec<Vec<u8>>,
    pub steps: Vec<Step>,
}

/// The memory that is lent to every step.
#[derive(Clone, Debug, PartialEq, Eq)]
pub struct Stage {
    /// A byte for each mark, 0 or 1; anything else can be lent, too.
    pub marks: Vec<u8>,
    pub frame: Vec<u16>,
}

/// What a step answers.
#[derive(Clone, Debug, PartialEq, Eq)]
pub enum Told {
    /// The refusal, if it is one, and the stage afterwards if it is watched.
    Answer(Result<(), Refusal>, Option<Stage>),
    /// How many counts the line has, and the whole output.
    Line(u64, Vec<u16>),
}

pub struct Played {
    pub told: Vec<Told>,
    pub last: Stage,
}

/// With this the output for a line is filled before each is asked for.
const UNTOUCHED: u16 = 0xaaaa;

impl History {
    pub fn play(&self) -> Played {
        let mut stage = self.stage.clone();
        let told = self
            .steps
            .iter()
            .map(|step| match *step {
                Step::Open => self.answer(stage.open(&self.slate), &stage),
                Step::Offer(file) => {
                    let file = &self.files[usize::from(file)];
                    self.answer(stage.offer(&self.slate, file), &stage)
                }
                Step::Line(line) => self.line(&stage, line),
            })
            .collect();
        Played { told, last: stage }
    }

    fn answer(&self, answer: Result<(), Refusal>, stage: &Stage) -> Told {
        Told::Answer(answer, self.watched.then(|| stage.clone()))
    }

    /// A line that is refused or has no room leaves the output as it was.
    fn line(&self, stage: &Stage, line: u16) -> Told {
        let mut out = vec![UNTOUCHED; self.room];
        let Ok(record) = stage.record() else {
            return Told::Line(0, out);
        };
        let part = assemble::line(&self.slate, &record, &stage.frame, &self.leader, line);
        match out.get_mut(..part.len()) {
            Some(front) => front.copy_from_slice(part),
            None => return Told::Line(0, out),
        }
        Told::Line(part.len() as u64, out)
    }

    /// As `bridge.c` reads it.
    pub fn request(&self) -> Vec<u8> {
        let mut bytes = slate_bytes(&self.slate).to_vec();
        bytes.extend(u64::from(self.watched).to_le_bytes());
        for length in [
            self.files.len(),
            self.stage.frame.len(),
            self.leader.len(),
            self.steps.len(),
            self.stage.marks.len(),
            self.room,
        ] {
            bytes.extend((length as u64).to_le_bytes());
        }
        for file in &self.files {
            bytes.extend((file.len() as u64).to_le_bytes());
        }
        write_counts(&self.stage.frame, &mut bytes);
        write_counts(&self.leader, &mut bytes);
        for step in &self.steps {
            let pair = match *step {
                Step::Open => [0, 0],
                Step::Offer(file) => [1, file],
                Step::Line(line) => [2, line],
            };
            write_counts(&pair, &mut bytes);
        }
        bytes.extend(&self.stage.marks);
        bytes.extend(self.files.iter().flatten());
        bytes
    }
}

impl Stage {
    /// Bytes that are no marks are no record.
    fn record(&self) -> Result<Record, Refusal> {
        demand(self.marks.len() == MARKS, SLATE, 0)?;
        demand(self.marks.iter().all(|&mark| mark <= 1), SLATE, 0)?;
        let mut marks = [false; MARKS];
        for (mark, byte) in marks.iter_mut().zip(&self.marks) {
            *mark = *byte == 1;
        }
        Ok(Record { marks })
    }

    fn keep(&mut self, record: &Record) {
        self.marks = record.marks.map(u8::from).to_vec();
    }

    pub fn open(&mut self, slate: &Slate) -> Result<(), Refusal> {
        // a record is made and none is read: of the lent marks only their number counts
        demand(self.marks.len() == MARKS, SLATE, 0)?;
        let record = assemble::open(slate, &mut self.frame)?;
        self.keep(&record);
        Ok(())
    }

    pub fn offer(&mut self, slate: &Slate, file: &[u8]) -> Result<(), Refusal> {
        let mut record = self.record()?;
        assemble::offer(slate, &mut record, &mut self.frame, file)?;
        self.keep(&record);
        Ok(())
    }

    fn write(&self, bytes: &mut Vec<u8>) {
        write_counts(&self.frame, bytes);
        bytes.extend(&self.marks);
    }
}

impl Told {
    /// As `bridge.c` answers it.
    pub fn bytes(&self) -> Vec<u8> {
        let mut bytes = Vec::new();
        match self {
            Told::Answer(answer, stage) => {
                bytes.extend(six_bytes(numbers(answer)));
                if let Some(stage) = stage {
                    stage.write(&mut bytes);
                }
            }
            Told::Line(length, out) => {
                bytes.extend(length.to_le_bytes());
                write_counts(out, &mut bytes);
            }
        }
        bytes
    }
}

impl Played {
    /// The whole answer: every step's, and the stage at the end.
    pub fn bytes(&self) -> Vec<u8> {
        let mut bytes: Vec<u8> = self.told.iter().flat_map(Told::bytes).collect();
        self.last.write(&mut bytes);
        bytes
    }
}

fn write_counts(counts: &[u16], bytes: &mut Vec<u8>) {
    bytes.extend(counts.iter().flat_map(|count| count.to_le_bytes()));
}

/// An HsdSlate as it stands in memory. Two bytes of padding before the day may hold anything.
pub(crate) fn slate_bytes(slate: &Slate) -> Vec<u8> {
    let mut bytes = vec![slate.satellite, slate.total];
    write_counts(&[slate.timeline, slate.band, slate.columns], &mut bytes);
    write_counts(&slate.heights, &mut bytes);
    bytes.extend([0xaa; 2]);
    bytes.extend(slate.day.to_le_bytes());
    bytes.extend(u32::from_be_bytes(slate.area).to_le_bytes());
    bytes
}
