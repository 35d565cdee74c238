//! The five families of objects that rtnetlink has dumps of.

use crate::constants::*;
use crate::names::Context;

/// What a dump is of. An address family, as IPv4, is another thing: a number in a head.
#[derive(Clone, Copy, Debug, PartialEq, Eq, PartialOrd, Ord, Hash)]
pub enum Family {
    /// Interfaces: `RTM_*LINK`.
    Link,
    /// Addresses of interfaces: `RTM_*ADDR`.
    Address,
    /// Routes: `RTM_*ROUTE`.
    Route,
    /// Neighbours, as those of ARP: `RTM_*NEIGH`.
    Neighbour,
    /// Rules that choose a table of routes: `RTM_*RULE`.
    Rule,
}

impl Family {
    /// All of them.
    pub const ALL: [Family; 5] =
        [Family::Link, Family::Address, Family::Route, Family::Neighbour, Family::Rule];

    /// That of a message type, as [`RTM_NEWLINK`] or [`RTM_GETLINK`].
    #[inline]
    pub const fn of(kind: u16) -> Option<Family> {
        Some(match kind {
            RTM_NEWLINK | RTM_DELLINK | RTM_GETLINK | RTM_SETLINK => Family::Link,
            RTM_NEWADDR | RTM_DELADDR | RTM_GETADDR => Family::Address,
            RTM_NEWROUTE | RTM_DELROUTE | RTM_GETROUTE => Family::Route,
            RTM_NEWNEIGH | RTM_DELNEIGH | RTM_GETNEIGH => Family::Neighbour,
            RTM_NEWRULE | RTM_DELRULE | RTM_GETRULE => Family::Rule,
            _ => return None,
        })
    }

    /// The type of the messages that its entries are, as [`RTM_NEWLINK`].
    #[inline]
    pub const fn new_type(self) -> u16 {
        match self {
            Family::Link => RTM_NEWLINK,
            Family::Address => RTM_NEWADDR,
            Family::Route => RTM_NEWROUTE,
            Family::Neighbour => RTM_NEWNEIGH,
            Family::Rule => RTM_NEWRULE,
        }
    }

    /// What the numbers of its attributes mean.
    #[inline]
    pub(crate) const fn context(self) -> Context {
        match self {
            Family::Link => Context::Link,
            Family::Address => Context::Address,
            Family::Route => Context::Route,
            Family::Neighbour => Context::Neighbour,
            Family::Rule => Context::Rule,
        }
    }
}

#[cfg(test)]
mod tests {
    use super::*;

    #[test]
    fn families_are_those_of_the_library() {
        for kind in 0..=u16::MAX {
            // SAFETY: any number is taken.
            let of = unsafe { rtnlc_sys::rtnlc_family_of(kind) };
            let is_get = kind % 4 == 2;
            let context = Family::of(kind).filter(|_| !is_get).map_or(0, |it| it.context().code());
            assert_eq!(of.context, context, "{kind}");
        }
    }

    #[test]
    fn entries_are_of_the_family() {
        for family in Family::ALL {
            assert_eq!(Family::of(family.new_type()), Some(family));
        }
    }
}
