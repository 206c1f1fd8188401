//! A rehearsal in parts, and what the protocol claims of its end.

use crate::file::{Region, build};

/// The longest input.
pub const INPUT_MOST: usize = 8192;

#[derive(Clone)]
pub struct Job {
    /// The machine's memory length.
    pub memory: usize,
    /// S, the bytes of a segment.
    pub size: usize,
    /// R, the repeats allowed per frame.
    pub repeats: usize,
    pub body: Vec<u8>,
    pub regions: Vec<Region>,
    pub transfer: u32,
    pub events: Vec<u8>,
}

/// The three lines of an input, each without its line feed.
#[derive(Clone)]
pub struct Lines {
    pub numbers: Vec<u8>,
    pub image: Vec<u8>,
    pub events: Vec<u8>,
}

impl Lines {
    pub fn text(&self) -> Vec<u8> {
        let end = b"\n";
        [&self.numbers[..], end, &self.image, end, &self.events, end].concat()
    }
}

impl Job {
    pub fn lines(&self) -> Lines {
        self.with_file(&self.file())
    }

    pub fn text(&self) -> Vec<u8> {
        self.lines().text()
    }

    pub fn file(&self) -> Vec<u8> {
        build(&self.body, &self.regions, self.transfer)
    }

    /// The lines with another image file.
    pub fn with_file(&self, file: &[u8]) -> Lines {
        let numbers = [self.memory, self.size, self.repeats].map(|number| number.to_string());
        Lines {
            numbers: numbers.join(" ").into_bytes(),
            image: hexadecimal(file),
            events: self.events.clone(),
        }
    }

    /// The letters that still have room in the input.
    pub fn room(&self) -> usize {
        INPUT_MOST.saturating_sub(self.text().len())
    }

    /// N, the number of segments.
    pub fn segments(&self) -> usize {
        self.pieces().len()
    }

    /// The first address behind all regions.
    pub fn memory_end(&self) -> usize {
        self.regions.last().map_or(0, |last| last.end() as usize)
    }

    /// Address and bytes of each segment.
    fn pieces(&self) -> Vec<(usize, &[u8])> {
        let mut pieces = Vec::new();
        for region in &self.regions {
            let bytes = &self.body[region.offset as usize..][..region.length as usize];
            let mut address = region.address as usize;
            for part in bytes.chunks(self.size) {
                pieces.push((address, part));
                address += part.len();
            }
        }
        pieces
    }

    /// Paper 01's claim of a load, as far as a transcript shows it: frames
    /// sent are the host frames printed; the first k segments are in, as the
    /// verdict says; the machine has started exactly if all are.
    pub fn claim(&self, printed: &[u8]) -> Result<(), String> {
        let end = End::read(printed).ok_or("no good END line")?;
        let pieces = self.pieces();
        let segments = pieces.len();
        let shown = printed.split(|&byte| byte == b'\n');
        let frames = shown.filter(|line| line.starts_with(b"H ")).count();
        if end.sent != frames || frames > segments * (self.repeats + 1) {
            return Err(format!("{frames} host frames are printed"));
        }
        let started = end.transfer.is_some();
        if started && end.transfer != Some(self.transfer) {
            return Err("started at another address".to_string());
        }
        let misfit = |&(address, bytes): &(usize, &[u8])| address + bytes.len() > self.memory;
        let fitting = pieces.iter().position(misfit).unwrap_or(segments);
        let possible = match end.verdict {
            0 => 0..=segments,
            1 => segments..=segments,
            2 => fitting..=fitting,
            3 => 0..=segments - 1,
            _ => segments - 1..=segments,
        };
        let mut memory = vec![0; self.memory];
        for count in 0..=fitting {
            let wanted = possible.contains(&count) && started == (count == segments);
            if wanted && memory == end.memory {
                return Ok(());
            }
            if count < fitting {
                let (address, bytes) = pieces[count];
                memory[address..address + bytes.len()].copy_from_slice(bytes);
            }
        }
        Err("memory has the first segments, or the machine has started".to_string())
    }
}

/// The last line of a transcript.
pub struct End {
    pub verdict: u8,
    pub sent: usize,
    /// None if the machine has not started.
    pub transfer: Option<u32>,
    pub memory: Vec<u8>,
}

impl End {
    pub fn read(printed: &[u8]) -> Option<End> {
        let text = std::str::from_utf8(printed).ok()?.strip_suffix('\n')?;
        let last = text.rsplit('\n').next()?.strip_prefix("END ")?;
        let fields: Vec<&str> = last.split(' ').collect();
        let [verdict, sent, transfer, memory] = fields[..] else {
            return None;
        };
        Some(End {
            verdict: verdict.parse().ok()?,
            sent: sent.parse().ok()?,
            transfer: match transfer {
                "-" => None,
                digits => Some(u32::from_str_radix(digits, 16).ok()?),
            },
            memory: memory
                .as_bytes()
                .chunks(2)
                .map(byte)
                .collect::<Option<_>>()?,
        })
    }
}

fn byte(pair: &[u8]) -> Option<u8> {
    u8::from_str_radix(std::str::from_utf8(pair).ok()?, 16).ok()
}

pub fn hexadecimal(bytes: &[u8]) -> Vec<u8> {
    let digit = |value: u8| b"0123456789ABCDEF"[usize::from(value)];
    let pairs = bytes
        .iter()
        .map(|&byte| [digit(byte / 16), digit(byte % 16)]);
    pairs.flatten().collect()
}
