use super::view;
use crate::constants::*;
use crate::{Family, Prefix};
use std::ffi::OsStr;
use std::fmt;

view! {
    /// A rule that chooses a table of routes: `struct fib_rule_hdr`, and attributes `FRA_*`.
    Rule, 12, Family::Rule
}

impl<'a> Rule<'a> {
    /// The address family, as [`AF_INET`].
    #[inline]
    pub fn address_family(&self) -> u8 {
        self.head[0]
    }

    /// What it does, `FR_ACT_*`.
    pub fn action(&self) -> u8 {
        self.head[7]
    }

    /// Its flags, `FIB_RULE_*`.
    pub fn flags(&self) -> u32 {
        self.u32_at(8)
    }

    /// The number of the table that it chooses: `FRA_TABLE`, or where it isn't there that of the
    /// head.
    pub fn table(&self) -> u32 {
        self.find(FRA_TABLE).and_then(|it| it.u32()).unwrap_or_else(|| self.head[4].into())
    }

    /// Its priority, of which the least is taken first: `FRA_PRIORITY`. The kernel leaves out 0.
    pub fn priority(&self) -> Option<u32> {
        self.find(FRA_PRIORITY)?.u32()
    }

    /// The mark that packets must have: `FRA_FWMARK`.
    pub fn mark(&self) -> Option<u32> {
        self.find(FRA_FWMARK)?.u32()
    }

    /// Which bits of the mark count: `FRA_FWMASK`.
    pub fn mark_mask(&self) -> Option<u32> {
        self.find(FRA_FWMASK)?.u32()
    }

    /// Where packets must come from: `FRA_SRC`.
    pub fn from(&self) -> Option<Prefix> {
        self.prefix(FRA_SRC, self.head[2])
    }

    /// Where packets must go to: `FRA_DST`.
    pub fn to(&self) -> Option<Prefix> {
        self.prefix(FRA_DST, self.head[1])
    }

    /// The name of the interface that packets must come in by: `FRA_IIFNAME`.
    pub fn in_interface(&self) -> Option<&'a OsStr> {
        self.find(FRA_IIFNAME)?.text()
    }

    /// The name of the interface that packets must be bound to: `FRA_OIFNAME`.
    pub fn out_interface(&self) -> Option<&'a OsStr> {
        self.find(FRA_OIFNAME)?.text()
    }

    fn prefix(&self, number: u16, len: u8) -> Option<Prefix> {
        let address = self.find(number)?.address_of(self.address_family())?;
        Some(Prefix { address, len })
    }
}

impl fmt::Debug for Rule<'_> {
    fn fmt(&self, f: &mut fmt::Formatter<'_>) -> fmt::Result {
        f.debug_struct("Rule")
            .field("address_family", &self.address_family())
            .field("table", &self.table())
            .field("priority", &self.priority())
            .field("mark", &self.mark())
            .field("from", &self.from())
            .field("to", &self.to())
            .finish_non_exhaustive()
    }
}
