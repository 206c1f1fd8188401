//! Compares every call under versions that are none, and refusal 11 with those
//! before and behind it (PROTOCOL 7, "The order").

use super::blocks::small_memory;
use super::dump::five_bytes;
use super::load::{ended, example, running};
use super::load_parameters::example_with;
use super::looping::test;
use super::machine::{IDLE, Machine, Purpose, STARTED, state};
use super::machine_windows::{window, with_window};
use super::{Case, End, Event, ROOM, first, frames, room_refusal};
use crate::Compare;
use crate::make::{NO_VERSIONS, V2_1, V3_0, VERSIONS};
use crate::tally::Hex;
use mop_proved::MachineSettings;

const KIND: &str = "versions that are none";

/// Lengths of memory about the least of version 2.1.
const MEMORIES: [usize; 10] = [0, 1, 14, 62, 63, 64, 65, 66, 67, 300];

/// Settings of a machine, without a fault and with one, and its refusal.
type Fault = fn(&mut MachineSettings);
const FAULTS: [(Fault, u8); 5] = [
    (|_| (), 0),
    (|settings| settings.reply_bytes = 0, 10),
    (|settings| settings.reply_bytes = 1496, 10),
    (|settings| settings.window = window((1, u64::MAX)), 10),
    (|settings| settings.version = 22, 10),
];

impl Compare {
    /// Each memory under each version: 11 behind every 10 and before 9.
    pub fn machine_versions(&mut self) {
        for version in NO_VERSIONS {
            for memory in [0, 63, 64] {
                for room in [ROOM, ROOM - 1] {
                    let mut end = with_window((0, 0));
                    end.settings.version = version;
                    self.every_call(KIND, end, 10, memory, room);
                }
            }
        }
        for (version, kind) in [
            (V2_1, "2.1: 11 between 10 and 9"),
            (V3_0, "memories about 64 bytes"),
        ] {
            for memory in MEMORIES {
                for (fault, refusal) in FAULTS {
                    for room in [0, ROOM - 1, ROOM] {
                        let mut end = with_window((0, 0));
                        end.settings.version = version;
                        fault(&mut end.settings);
                        self.every_call(kind, end, refusal, memory, room);
                    }
                }
            }
        }
    }

    /// Every call of a machine in every state, and with a state that is none;
    /// `settings` is the refusal of its settings, 10 or 0.
    pub fn every_call(
        &mut self,
        kind: &'static str,
        mut end: Machine,
        settings: u8,
        memory: usize,
        room: usize,
    ) {
        let load = frames::load(0, 3, &[1, 2, 3], None);
        let last = frames::load(0, 3, &[1, 2, 3], Some(5));
        let parameters = frames::parameters(0, &[], 9);
        let dump = frames::request_dump(2, 20);
        let unread = [&[][..], &[10, 1, 0, 0], &[16], &[8, 0, 1, 3, 0, 0]];
        let frames = [&load[..], &last, &parameters, &dump];
        let frames = frames.into_iter().chain(unread);
        let events: Vec<Event> = frames.map(|frame| Event::Frame(Hex(frame))).collect();
        let small = small_memory(end.settings.version, memory);
        let short = room_refusal(room);
        for number in IDLE..=STARTED + 1 {
            let bad_state = if number > STARTED { 10 } else { 0 };
            for &event in events.iter().chain(&[Event::Timer]) {
                let wanted = [settings, bad_state, small, short, event.refusal(&end)];
                let wanted = first(&wanted);
                self.call(kind, &end, state(number), event, room, wanted, memory);
            }
        }
        let wanted = first(&[settings, small, short]);
        for purpose in [Purpose::Load, Purpose::Dump] {
            end.purpose = purpose;
            self.call(kind, &end, state(0), Event::Start, room, wanted, memory);
        }
    }

    /// One call, with a store of so many bytes.
    #[allow(clippy::too_many_arguments)]
    fn call<E: End>(
        &mut self,
        kind: &'static str,
        end: &E,
        record: E::Record,
        event: Event,
        room: usize,
        wanted: u8,
        store: usize,
    ) {
        let case = Case {
            kind,
            end,
            record,
            event,
            room,
            wanted,
        };
        let mut store = self.random.bytes(store);
        self.step(case, &mut store);
    }

    /// Every call of the host under versions that are none, and a timer of
    /// each end under every number.
    pub fn host_versions(&mut self) {
        for version in 0..=255 {
            self.timers(version);
        }
        for version in NO_VERSIONS {
            for room in [ROOM, ROOM - 1] {
                self.loads_of_no_version(version, room);
                self.dumps_of_no_version(version, room);
                self.loops_of_no_version(version, room);
            }
        }
    }

    fn timers(&mut self, version: u8) {
        const KIND: &str = "every version number";
        let wanted = if VERSIONS.contains(&version) { 0 } else { 10 };
        let mut machine = with_window((0, 0));
        machine.settings.version = version;
        let file = example();
        let load = example_with(version, &file, 0, &[]);
        let (dump, looped) = (five_bytes(version), test(version, 1, 515, &[1, 2]));
        let timer = Event::Timer;
        self.call(KIND, &machine, state(IDLE), timer, ROOM, wanted, 64);
        self.call(KIND, &load, load.begun(), timer, ROOM, wanted, 0);
        self.call(KIND, &dump, dump.begun(), timer, ROOM, wanted, 5);
        self.call(KIND, &looped, looped.begun(), timer, ROOM, wanted, 0);
    }

    /// With good and bad images and strings.
    fn loads_of_no_version(&mut self, version: u8, room: usize) {
        let file = example();
        for file in [&file[..], &[]] {
            for (mark, string) in [(0, &[][..]), (1, &[1, 1, 65]), (1, &[6])] {
                let end = example_with(version, file, mark, string);
                for record in [end.begun(), running(0, 0, 1), ended(1, 9, 0, 1)] {
                    self.every_event(KIND, &end, record, room, 10);
                }
            }
        }
    }

    fn dumps_of_no_version(&mut self, version: u8, room: usize) {
        let end = five_bytes(version);
        let asking = mop_proved::Dump::default();
        for record in [end.begun(), asking] {
            for frame in [&[12, 0, 1, 0, 0, 0, 0, 0][..], &[14, 7, 0, 0, 0, 1], &[16]] {
                let event = Event::Frame(Hex(frame));
                self.call(KIND, &end, record, event, room, 10, 5);
            }
            self.call(KIND, &end, record, Event::Timer, room, 10, 5);
        }
    }

    fn loops_of_no_version(&mut self, version: u8, room: usize) {
        let end = test(version, 1, 515, &[1, 2]);
        let frames = [&[26, 3, 2, 1, 2][..], &[24], &[16]];
        let events = frames.map(|frame| Event::Frame(Hex(frame)));
        for event in events.into_iter().chain([Event::Timer]) {
            self.call(KIND, &end, end.begun(), event, room, 10, 0);
        }
        self.call(KIND, &end, Default::default(), Event::Start, room, 10, 0);
    }
}
