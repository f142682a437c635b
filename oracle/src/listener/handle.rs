//! The original asks for this type when it makes a listener. No call of the bench does.

use std::sync::Arc;

use super::{CommandWriters, ListenerId, ListenerShared};

pub struct ListenerHandle {
    pub(super) id: ListenerId,
    pub(super) shared: Arc<ListenerShared>,
    pub(super) command_writers: CommandWriters,
}
