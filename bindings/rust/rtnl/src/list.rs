//! Messages that are kept.

use crate::tape::Event;
use crate::{Message, Order};
use std::fmt;
use std::iter::FusedIterator;

/// Messages that outlive their datagrams: a copy of the bytes of each, and of its heads.
///
/// ```
/// use rtnl::{MessageList, Options, Order, Tape};
///
/// let mut tape = Tape::with_options(Options::new().order(Order::Little));
/// let mut list = MessageList::new();
/// for byte in [7, 8] {
///     let done = [20, 0, 0, 0, 3, 0, 2, 0, byte, 0, 0, 0, 0, 0, 0, 0, 0, 0, 0, 0];
///     list.extend(tape.read(&done)?);
/// }
/// assert_eq!(list.len(), 2);
/// assert_eq!(list.get(1).unwrap().sequence(), 8);
/// # Ok::<(), rtnl::Error>(())
/// ```
#[derive(Clone, Default)]
pub struct MessageList {
    /// The messages, one behind another.
    bytes: Vec<u8>,
    /// The events of each, by places in the message.
    events: Vec<Event>,
    ends: Vec<End>,
}

/// Where the bytes and the events of a message end, and the order of its numbers.
#[derive(Clone, Copy)]
struct End {
    bytes: usize,
    events: usize,
    order: Order,
}

impl MessageList {
    /// A list of none.
    pub const fn new() -> MessageList {
        MessageList { bytes: Vec::new(), events: Vec::new(), ends: Vec::new() }
    }

    /// Keeps a message behind the others.
    pub fn push(&mut self, message: Message<'_>) {
        let place = message.place();
        self.bytes.extend_from_slice(message.as_bytes());
        let begin = self.events.len();
        self.events.extend_from_slice(message.events());
        self.events[begin..].iter_mut().for_each(|it| it.count_from(place));
        let (bytes, events) = (self.bytes.len(), self.events.len());
        self.ends.push(End { bytes, events, order: message.order() });
    }

    /// How many there are.
    pub fn len(&self) -> usize {
        self.ends.len()
    }

    /// Whether there are none.
    pub fn is_empty(&self) -> bool {
        self.ends.is_empty()
    }

    /// The message of an index from 0 on.
    #[inline]
    pub fn get(&self, index: usize) -> Option<Message<'_>> {
        let end = self.ends.get(index)?;
        let begin = index.checked_sub(1).and_then(|it| self.ends.get(it));
        let (bytes, events) = begin.map_or((0, 0), |it| (it.bytes, it.events));
        Message::new(&self.bytes[bytes..end.bytes], &self.events[events..end.events], end.order)
    }

    /// All of them, one after another.
    pub fn iter(&self) -> MessageListIter<'_> {
        MessageListIter { list: self, at: 0, end: self.len() }
    }

    /// Drops all of them; the memory is kept for others.
    pub fn clear(&mut self) {
        self.bytes.clear();
        self.events.clear();
        self.ends.clear();
    }
}

impl<'a> Extend<Message<'a>> for MessageList {
    fn extend<I: IntoIterator<Item = Message<'a>>>(&mut self, messages: I) {
        messages.into_iter().for_each(|it| self.push(it));
    }
}

impl<'a> FromIterator<Message<'a>> for MessageList {
    fn from_iter<I: IntoIterator<Item = Message<'a>>>(messages: I) -> MessageList {
        let mut list = MessageList::new();
        list.extend(messages);
        list
    }
}

impl<'a> IntoIterator for &'a MessageList {
    type Item = Message<'a>;
    type IntoIter = MessageListIter<'a>;

    fn into_iter(self) -> MessageListIter<'a> {
        self.iter()
    }
}

impl fmt::Debug for MessageList {
    fn fmt(&self, f: &mut fmt::Formatter<'_>) -> fmt::Result {
        f.debug_list().entries(self).finish()
    }
}

/// An iterator over a [`MessageList`], or over the entries of a [`Table`](crate::Table).
#[derive(Clone, Debug)]
pub struct MessageListIter<'a> {
    list: &'a MessageList,
    at: usize,
    end: usize,
}

impl<'a> Iterator for MessageListIter<'a> {
    type Item = Message<'a>;

    #[inline]
    fn next(&mut self) -> Option<Message<'a>> {
        let at = (self.at < self.end).then_some(self.at)?;
        self.at += 1;
        self.list.get(at)
    }

    fn size_hint(&self) -> (usize, Option<usize>) {
        let left = self.end - self.at;
        (left, Some(left))
    }
}

impl DoubleEndedIterator for MessageListIter<'_> {
    fn next_back(&mut self) -> Option<Self::Item> {
        self.end = self.end.checked_sub(1).filter(|it| *it >= self.at)?;
        self.list.get(self.end)
    }
}

impl ExactSizeIterator for MessageListIter<'_> {}
impl FusedIterator for MessageListIter<'_> {}
