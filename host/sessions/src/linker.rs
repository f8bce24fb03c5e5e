//! A step made by the host's wrapper.

use crate::{Call, Step};
use fillqhano::raw::Answer;
use fillqhano::{Area, Linker, LoadArguments, Window};

impl Step {
    /// What a load of this step is asked for. Its auto-link is 1 or 0, as the wrapper has it.
    fn load_arguments(&self) -> LoadArguments {
        LoadArguments {
            base: self.base,
            size: self.size,
            data_segment: Area { at: self.data_segment, size: self.data_segment_size },
            bss_segment: Area { at: self.bss_segment, size: self.bss_segment_size },
            auto_link: self.auto_link != 0,
            fix_level: self.fix_level,
        }
    }

    /// Makes the step; gives what the library answered.
    pub fn call(&self, linker: &mut Linker, window: &mut Window) -> Answer {
        let answer = match self.call {
            Call::Initialize => linker.initialize(window, self.base, self.size).map(|()| 0),
            Call::Load => linker.load(window, self.load_arguments()),
            Call::Unload => linker.unload(window, self.base).map(|left| left as u32),
        };
        let (number, value) = answer.map_or_else(|error| (error.number(), 0), |value| (0, value));
        Answer::new(number, value, linker.touch())
    }
}
