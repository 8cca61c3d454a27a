//! The proved library's acceptance, marks, film frame numbers, assembly, reels, night totals and why a file is not one of a
//! slate's, asked over the bridge, and the comparison of an acceptance with the reference's.

use std::io::{self, BufReader, BufWriter, Read, Write};
use std::process::{Child, ChildStdin, ChildStdout, Command, Stdio};

use crate::accept::{numbers, Answer, Facts, Refusal};
use crate::assemble::Slate;
use crate::histories::{slate_bytes, History};
use crate::night::Run;

/// What `hsd_accept` gives back. 0 is accepted, with the offset 0; on a refusal everything but refusal, block and offset
/// is 0.
#[derive(Debug)]
pub struct HsdFile {
    pub refusal: u8,
    pub block: u8,
    pub satellite: u8,
    pub quality: u8,
    pub offset: u32,
    pub day: u32,
    pub timeline: u16,
    pub band: u16,
    /// The four letters, the first one highest.
    pub area: u32,
    pub columns: u16,
    pub lines: u16,
    pub number: u8,
    pub total: u8,
    pub first_line: u16,
    pub valid_bits: u16,
    /// 0 little-endian, 1 big-endian.
    pub order: u8,
    pub header_length: u32,
    pub gain: f64,
    pub constant: f64,
}

/// The two ends of a bridge that runs: requests go in at one while answers come out at the other.
pub struct Bridge {
    pub requests: Requests,
    pub answers: Answers,
}

pub struct Requests(BufWriter<ChildStdin>);

pub struct Answers {
    from: BufReader<ChildStdout>,
    child: Child,
}

impl Bridge {
    /// Starts the program that `host/bridge/build` made.
    pub fn start() -> Bridge {
        let root = concat!(env!("CARGO_MANIFEST_DIR"), "/../..");
        let mut child = Command::new(format!("{root}/target/host/bridge"))
            .stdin(Stdio::piped())
            .stdout(Stdio::piped())
            .spawn()
            .expect("the bridge starts");
        let requests = child.stdin.take().expect("it is piped");
        let answers = child.stdout.take().expect("it is piped");
        Bridge {
            requests: Requests(BufWriter::with_capacity(1 << 20, requests)),
            answers: Answers {
                from: BufReader::with_capacity(1 << 20, answers),
                child,
            },
        }
    }
}

impl Requests {
    pub fn ask(&mut self, file: &[u8]) -> io::Result<()> {
        self.0.write_all(&(file.len() as u64).to_le_bytes())?;
        self.0.write_all(file)
    }

    /// Asks how long acceptance of the file takes.
    pub fn ask_time(&mut self, file: &[u8]) -> io::Result<()> {
        self.0
            .write_all(&(file.len() as u64 | 1 << 63).to_le_bytes())?;
        self.0.write_all(file)
    }

    /// Asks for a whole history. Nothing stays behind, so that its answer can be waited for.
    pub fn ask_history(&mut self, history: &History) -> io::Result<()> {
        let request = history.request();
        self.0
            .write_all(&(request.len() as u64 | 1 << 62).to_le_bytes())?;
        self.0.write_all(&request)?;
        self.0.flush()
    }

    /// Asks what quality flag 1 says, question 0.
    pub fn ask_quality(&mut self, flag: u8) -> io::Result<()> {
        self.question(0, &[&[flag]])
    }

    /// Asks to open a reel, question 1.
    pub fn ask_reel_open(&mut self, reel: &[u8]) -> io::Result<()> {
        self.question(1, &[reel])
    }

    /// Asks for a part by its number, question 2.
    pub fn ask_reel_part(&mut self, reel: &[u8], number: u16) -> io::Result<()> {
        self.question(2, &[&u64::from(number).to_le_bytes(), reel])
    }

    /// Asks to write the reel of files that stand end to end to an output of so many bytes, question 3.
    pub fn ask_reel_write(&mut self, files: &[u8], lengths: &[u32], room: usize) -> io::Result<()> {
        self.ask_writer(3, files, lengths, room)
    }

    /// Asks to write their trailer alone, question 4.
    pub fn ask_reel_seal(&mut self, files: &[u8], lengths: &[u32], room: usize) -> io::Result<()> {
        self.ask_writer(4, files, lengths, room)
    }

    /// Asks how many bytes a trailer of so many files has, question 5.
    pub fn ask_reel_trailer(&mut self, files: u64) -> io::Result<()> {
        self.question(5, &[&files.to_le_bytes()])
    }

    /// Asks for the number of a shot, day and timeline, on the film of a first one, question 6.
    pub fn ask_frame_number(&mut self, first: (u32, u16), shot: (u32, u16)) -> io::Result<()> {
        let numbers = [first.0, u32::from(first.1), shot.0, u32::from(shot.1)];
        let numbers = numbers.map(|number| u64::from(number).to_le_bytes());
        self.question(6, &[&numbers.concat()])
    }

    /// Asks to add a file to a run, question 7. Four bytes of padding end the run, which may hold anything.
    pub fn ask_night(&mut self, run: &Run, file: &[u8]) -> io::Result<()> {
        let totals = run.totals.map(u64::to_le_bytes).concat();
        let accepted = run.accepted.to_le_bytes();
        let refused = run.refused.map(u32::to_le_bytes).concat();
        self.question(7, &[&totals, &accepted, &refused, &[0xaa; 4], file])
    }

    /// Asks why a file is not one of a slate's, question 8.
    pub fn ask_why(&mut self, slate: &Slate, file: &[u8]) -> io::Result<()> {
        self.question(8, &[&slate_bytes(slate), file])
    }

    fn ask_writer(
        &mut self,
        question: u64,
        files: &[u8],
        lengths: &[u32],
        room: usize,
    ) -> io::Result<()> {
        let numbers = [lengths.len(), room].map(|number| (number as u64).to_le_bytes());
        let lengths: Vec<u8> = lengths.iter().flat_map(|l| l.to_le_bytes()).collect();
        self.question(question, &[&numbers.concat(), &lengths, files])
    }

    /// A question by its number, and what it is about.
    fn question(&mut self, question: u64, parts: &[&[u8]]) -> io::Result<()> {
        let length: usize = parts.iter().map(|part| part.len()).sum();
        self.0
            .write_all(&((8 + length) as u64 | 3 << 62).to_le_bytes())?;
        self.0.write_all(&question.to_le_bytes())?;
        parts.iter().try_for_each(|part| self.0.write_all(part))
    }

    /// No more requests: the bridge gives its last answers and ends.
    pub fn end(mut self) -> io::Result<()> {
        self.0.flush()
    }
}

impl Answers {
    pub fn next_file(&mut self) -> io::Result<HsdFile> {
        let b: [u8; 56] = self.next_bytes()?;
        Ok(HsdFile {
            refusal: b[0],
            block: b[1],
            satellite: b[2],
            quality: b[3],
            offset: four(&b, 4),
            day: four(&b, 8),
            timeline: two(&b, 12),
            band: two(&b, 14),
            area: four(&b, 16),
            columns: two(&b, 20),
            lines: two(&b, 22),
            number: b[24],
            total: b[25],
            first_line: two(&b, 26),
            valid_bits: two(&b, 28),
            order: b[30],
            header_length: four(&b, 32),
            gain: f64::from_bits(eight(&b, 40)),
            constant: f64::from_bits(eight(&b, 48)),
        })
    }

    pub fn next_time(&mut self) -> io::Result<f64> {
        Ok(f64::from_le_bytes(self.next_bytes()?))
    }

    /// The members of an `HsdQuality`, in order.
    pub fn next_quality(&mut self) -> io::Result<[u8; 8]> {
        self.next_bytes()
    }

    /// The members of an `HsdReel`: refusal, block and offset, and the number of files.
    pub fn next_reel_open(&mut self) -> io::Result<(Answer, u16)> {
        let b: [u8; 8] = self.next_bytes()?;
        Ok(((b[0], b[1], four(&b, 4)), two(&b, 2)))
    }

    /// The members of an `HsdPart`: offset and length.
    pub fn next_reel_part(&mut self) -> io::Result<(u32, u32)> {
        let b: [u8; 8] = self.next_bytes()?;
        Ok((four(&b, 0), four(&b, 4)))
    }

    /// The answer to a reel or a trailer that was asked to be written, and the whole output of so many bytes.
    pub fn next_reel_output(&mut self, room: usize) -> io::Result<(Answer, Vec<u8>)> {
        let b: [u8; 6] = self.next_bytes()?;
        let mut out = vec![0; room];
        self.from.read_exact(&mut out)?;
        Ok(((b[0], b[1], four(&b, 2)), out))
    }

    pub fn next_reel_trailer(&mut self) -> io::Result<u64> {
        Ok(u64::from_le_bytes(self.next_bytes()?))
    }

    /// The members of an `HsdFrameNumber`: refusal, block and offset, and the number.
    pub fn next_frame_number(&mut self) -> io::Result<(Answer, i64)> {
        let b: [u8; 16] = self.next_bytes()?;
        Ok(((b[0], b[1], four(&b, 4)), eight(&b, 8) as i64))
    }

    /// The members of an `HsdNight`: refusal, block and offset, the extra error pixels, and the run.
    pub fn next_night(&mut self) -> io::Result<(Answer, i64, Run)> {
        let b: [u8; 320] = self.next_bytes()?;
        let run = Run {
            totals: std::array::from_fn(|kind| eight(&b, 16 + 8 * kind)),
            accepted: four(&b, 56),
            refused: std::array::from_fn(|number| four(&b, 60 + 4 * number)),
        };
        Ok(((b[0], b[1], four(&b, 4)), eight(&b, 8) as i64, run))
    }

    /// The members of an `HsdWhy`: refusal, block and offset, the part's number, and its value for the slate and for the
    /// file.
    pub fn next_why(&mut self) -> io::Result<(Answer, u8, u64, u64)> {
        let b: [u8; 24] = self.next_bytes()?;
        Ok(((b[0], b[1], four(&b, 4)), b[2], eight(&b, 8), eight(&b, 16)))
    }

    /// So many bytes of a history's answer.
    pub fn next_history(&mut self, length: usize) -> io::Result<Vec<u8>> {
        let mut given = vec![0; length];
        self.from.read_exact(&mut given)?;
        Ok(given)
    }

    fn next_bytes<const LENGTH: usize>(&mut self) -> io::Result<[u8; LENGTH]> {
        let mut bytes = [0; LENGTH];
        self.from.read_exact(&mut bytes)?;
        Ok(bytes)
    }

    /// Whether the bridge ended well and had nothing more to say.
    pub fn ended_well(mut self) -> bool {
        let mut more = Vec::new();
        self.from.read_to_end(&mut more).is_ok()
            && more.is_empty()
            && self.child.wait().is_ok_and(|status| status.success())
    }
}

fn two(b: &[u8], at: usize) -> u16 {
    u16::from_le_bytes([b[at], b[at + 1]])
}

fn four(b: &[u8], at: usize) -> u32 {
    u32::from(two(b, at)) | u32::from(two(b, at + 2)) << 16
}

fn eight(b: &[u8], at: usize) -> u64 {
    u64::from(four(b, at)) | u64::from(four(b, at + 4)) << 32
}

/// Refusal and block, a byte each, and the offset, four bytes with the lowest first: as the bridge and the program
/// `rewrite` tell an answer.
pub fn six_bytes(answer: Answer) -> [u8; 6] {
    let (refusal, block, offset) = answer;
    let [o0, o1, o2, o3] = offset.to_le_bytes();
    [refusal, block, o0, o1, o2, o3]
}

/// Whether the proved answer is the one that the reference expects.
pub fn agrees(expected: &Result<Facts, Refusal>, given: &HsdFile) -> bool {
    let facts = expected.as_ref().unwrap_or(&NO_FACTS);
    (given.refusal, given.block, given.offset) == numbers(expected)
        && given.satellite == facts.satellite
        && given.quality == facts.quality
        && given.day == facts.day
        && given.timeline == facts.timeline
        && given.band == facts.band
        && given.area == u32::from_be_bytes(facts.area)
        && given.columns == facts.columns
        && given.lines == facts.lines
        && given.number == facts.number
        && given.total == facts.total
        && given.first_line == facts.first_line
        && given.valid_bits == facts.valid_bits
        && given.order == facts.order
        && given.header_length == facts.header_length
        && is_double(facts.gain, given.gain)
        && is_double(facts.constant, given.constant)
}

/// A NaN may come back as any NaN; every other pattern comes back exactly.
fn is_double(bits: u64, given: f64) -> bool {
    if f64::from_bits(bits).is_nan() {
        given.is_nan()
    } else {
        given.to_bits() == bits
    }
}

const NO_FACTS: Facts = Facts {
    satellite: 0,
    day: 0,
    timeline: 0,
    band: 0,
    area: [0; 4],
    columns: 0,
    lines: 0,
    number: 0,
    total: 0,
    first_line: 0,
    valid_bits: 0,
    gain: 0,
    constant: 0,
    quality: 0,
    header_length: 0,
    order: 0,
    a: 0,
    b: 0,
    c: 0,
};
