//! A load's step that sends: the machine has answered a segment, and the next
//! one goes out. The step checks the image, reads the answer, counts it, finds
//! the segment and writes its frame. And one on an answer that has come before,
//! which is counted and nothing else.

use std::hint::black_box;

use mop_plain::counts::Counts;
use mop_plain::load::{self, Progress, Session, Settings};
use mop_plain::step::Verdict;
use mop_plain::version::Version;
use mop_proved::{Load, LoadSettings, mop_load_frame};

use crate::{SEGMENT_SIZE, VERSION, compare, proved};

const REPEATS: u32 = 3;

/// What is loaded: an image, and perhaps a parameter string behind it.
#[derive(Clone, Copy)]
struct Job<'a> {
    file: &'a [u8],
    string: Option<&'a [u8]>,
}

/// The host's record with a segment on its way, and the frame that answers it.
struct Answered {
    proved: Load,
    plain: Session,
    frame: [u8; 3],
}

impl Answered {
    fn new(position: u64) -> Answered {
        let sent = position + 1;
        Answered {
            proved: Load {
                position,
                sent,
                ..Load::default()
            },
            plain: Session::Begun(Progress {
                verdict: Verdict::Running,
                position,
                repeats: 0,
                restarts: 0,
                sent,
                counts: Counts::default(),
            }),
            frame: [10, sent as u8, 0],
        }
    }

    /// The same, but the frame is the answer before, once more.
    fn doubled(position: u64) -> Answered {
        Answered {
            frame: [10, position as u8, 0],
            ..Answered::new(position)
        }
    }

    /// Both give the length of the frame that is now in `reply`, 0 for none.
    fn proved(&self, job: Job, reply: &mut [u8]) -> usize {
        let settings = LoadSettings {
            segment_size: SEGMENT_SIZE,
            repeats: REPEATS,
            with_parameters: job.string.is_some().into(),
            version: VERSION,
            restart: 0,
        };
        let string = job.string.unwrap_or_default();
        // The pointers are good for these lengths, and reply overlaps nothing.
        let step = unsafe {
            mop_load_frame(
                settings,
                self.proved,
                job.file.as_ptr(),
                job.file.len(),
                string.as_ptr(),
                string.len(),
                self.frame.as_ptr(),
                self.frame.len(),
                reply.as_mut_ptr(),
                reply.len(),
            )
        };
        black_box(step).answer.length
    }

    fn plain(&self, job: Job, reply: &mut [u8]) -> usize {
        let settings = Settings {
            segment_size: SEGMENT_SIZE,
            repeats: REPEATS,
            parameters: job.string,
            version: Version::V3_0,
            restart: None,
        };
        let mut session = self.plain;
        let sent = load::frame(settings, &mut session, job.file, &self.frame, reply);
        black_box(session);
        sent.expect("a good frame").unwrap_or(0)
    }
}

/// Every segment but the first in turn.
pub fn step(name: &str, file: &[u8], string: Option<&[u8]>) {
    step_on(name, Job { file, string }, Answered::new, true);
}

/// The same segments, each answer a doubled one.
pub fn ignored(name: &str, file: &[u8]) {
    let string = None;
    step_on(name, Job { file, string }, Answered::doubled, false);
}

fn step_on(name: &str, job: Job, answered: fn(u64) -> Answered, sends: bool) {
    let count = proved::image_check(job.file, SEGMENT_SIZE).segments;
    let inputs: Vec<Answered> = (0..count - 1).map(answered).collect();
    let (mut reply, mut other) = ([0; 1500], [0; 1500]);
    for input in &inputs {
        let length = input.proved(job, &mut reply);
        assert_eq!(length > 0, sends, "a frame goes out, or none");
        assert_eq!(length, input.plain(job, &mut other));
        assert_eq!(reply[..length], other[..length], "the same frame");
    }
    compare(
        name,
        &inputs,
        |input| {
            black_box(input.proved(black_box(job), black_box(&mut reply)));
        },
        |input| {
            black_box(input.plain(black_box(job), black_box(&mut other)));
        },
    );
}
