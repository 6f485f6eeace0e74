use crate::ffi::COMMAND_WORDS;
use core::fmt;
use core::ops::Deref;

/// What a supervisor commands.
#[derive(Clone, Copy, Debug, Default, PartialEq, Eq)]
pub struct Command {
    /// From 0, as the site table lists its commands.
    pub number: u32,
    /// In the command's range.
    pub value: i32,
}

/// The commands of a packet, sixteen at most, in the order in which to carry them out.
#[derive(Clone, Copy, Default)]
pub struct Commands {
    all: [Command; COMMAND_WORDS],
    count: usize,
}

impl Commands {
    /// A word is the command's number and, in its low half, the value's bits.
    pub(crate) fn of_words(words: &[u64; COMMAND_WORDS], count: usize) -> Commands {
        let mut commands = Commands { count: count.min(COMMAND_WORDS), ..Commands::default() };
        for (command, word) in commands.all[..commands.count].iter_mut().zip(words) {
            *command = Command { number: (word >> 32) as u32, value: *word as u32 as i32 };
        }
        commands
    }

    pub fn as_slice(&self) -> &[Command] {
        &self.all[..self.count]
    }
}

impl Deref for Commands {
    type Target = [Command];

    fn deref(&self) -> &[Command] {
        self.as_slice()
    }
}

impl<'a> IntoIterator for &'a Commands {
    type Item = &'a Command;
    type IntoIter = core::slice::Iter<'a, Command>;

    fn into_iter(self) -> core::slice::Iter<'a, Command> {
        self.as_slice().iter()
    }
}

impl PartialEq for Commands {
    fn eq(&self, other: &Commands) -> bool {
        self.as_slice() == other.as_slice()
    }
}

impl Eq for Commands {}

impl fmt::Debug for Commands {
    fn fmt(&self, formatter: &mut fmt::Formatter) -> fmt::Result {
        formatter.debug_list().entries(self).finish()
    }
}
