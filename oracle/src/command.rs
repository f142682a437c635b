//! One place a command for what a handle asks and its resource reads. A newer command takes the place of an older.

use std::sync::{Arc, Mutex, MutexGuard};

use crate::{Tween, Tweenable, Value};

/// Asks a parameter to move to a target.
pub struct ValueChangeCommand<T: Tweenable> {
    pub target: Value<T>,
    pub tween: Tween,
}

struct Place<T>(Arc<Mutex<Option<T>>>);

impl<T> Clone for Place<T> {
    fn clone(&self) -> Self {
        Self(self.0.clone())
    }
}

impl<T> Place<T> {
    fn open(&self) -> MutexGuard<'_, Option<T>> {
        self.0.lock().expect("no holder of the lock has failed")
    }
}

pub struct CommandWriter<T>(Place<T>);

impl<T> CommandWriter<T> {
    pub fn write(&mut self, command: T) {
        *self.0.open() = Some(command);
    }
}

pub struct CommandReader<T>(Place<T>);

/// A copy reads from the same place.
impl<T> Clone for CommandReader<T> {
    fn clone(&self) -> Self {
        Self(self.0.clone())
    }
}

impl<T> CommandReader<T> {
    pub fn read(&mut self) -> Option<T> {
        self.0.open().take()
    }
}

pub fn command_writer_and_reader<T>() -> (CommandWriter<T>, CommandReader<T>) {
    let place = Place(Arc::new(Mutex::new(None)));
    (CommandWriter(place.clone()), CommandReader(place))
}

/// Makes the two ends of a resource's commands, a field a command.
macro_rules! command_writers_and_readers {
    ($($name:ident: $kind:ty),* $(,)?) => {
        pub(crate) struct CommandWriters {
            $(pub $name: $crate::command::CommandWriter<$kind>,)*
        }

        #[derive(Clone)]
        pub(crate) struct CommandReaders {
            $(pub $name: $crate::command::CommandReader<$kind>,)*
        }

        fn command_writers_and_readers() -> (CommandWriters, CommandReaders) {
            $(let $name = $crate::command::command_writer_and_reader();)*
            (
                CommandWriters { $($name: $name.0,)* },
                CommandReaders { $($name: $name.1,)* },
            )
        }
    };
}

/// Lets each named parameter read its own command. Names cannot be joined here, so each has a line.
macro_rules! read_commands_into_parameters {
    ($owner:ident, $($name:ident),+ $(,)?) => {
        $($crate::command::read_command!($owner, $name);)+
    };
}

macro_rules! read_command {
    ($owner:ident, speed) => {
        $owner
            .speed
            .read_command(&mut $owner.command_readers.set_speed)
    };
    ($owner:ident, frequency) => {
        $owner
            .frequency
            .read_command(&mut $owner.command_readers.set_frequency)
    };
    ($owner:ident, amplitude) => {
        $owner
            .amplitude
            .read_command(&mut $owner.command_readers.set_amplitude)
    };
    ($owner:ident, offset) => {
        $owner
            .offset
            .read_command(&mut $owner.command_readers.set_offset)
    };
    ($owner:ident, position) => {
        $owner
            .position
            .read_command(&mut $owner.command_readers.set_position)
    };
    ($owner:ident, orientation) => {
        $owner
            .orientation
            .read_command(&mut $owner.command_readers.set_orientation)
    };
}

pub(crate) use {command_writers_and_readers, read_command, read_commands_into_parameters};
