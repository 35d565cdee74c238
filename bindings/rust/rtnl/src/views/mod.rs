//! What messages of the five families say, by the names of their fields and attributes.
//!
//! Each view reads its head as the struct that it is in C, and looks its attributes up in the
//! heads of the datagram when it is asked. [`None`] is what the kernel has left out, or what has
//! another size than the attribute's.

mod address;
mod link;
mod neighbour;
mod route;
mod rule;

pub use address::Address;
pub use link::Link;
pub use neighbour::Neighbour;
pub use route::Route;
pub use rule::Rule;

/// A view of a message: its struct with a head of so many bytes, and what all views have.
macro_rules! view {
    ($(#[$doc:meta])* $name:ident, $size:literal, $family:expr) => {
        $(#[$doc])*
        #[derive(Clone, Copy)]
        pub struct $name<'a> {
            head: &'a [u8; $size],
            message: $crate::Message<'a>,
        }

        impl<'a> $name<'a> {
            #[inline]
            pub(crate) fn new(message: $crate::Message<'a>) -> Option<$name<'a>> {
                Some($name { head: message.head($family)?, message })
            }

            /// The message that says it.
            #[inline]
            pub fn message(&self) -> $crate::Message<'a> {
                self.message
            }

            /// All of its attributes.
            #[inline]
            pub fn attributes(&self) -> $crate::Attributes<'a> {
                self.message.attributes_of(($family).context())
            }

            #[inline]
            fn find(&self, number: u16) -> Option<$crate::Attribute<'a>> {
                self.attributes().find(number)
            }

            /// The number of four bytes in the head.
            #[inline]
            fn u32_at(&self, place: usize) -> u32 {
                let h = self.head;
                self.message.order().u32([h[place], h[place + 1], h[place + 2], h[place + 3]])
            }
        }
    };
}
pub(crate) use view;
