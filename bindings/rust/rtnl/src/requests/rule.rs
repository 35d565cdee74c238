use super::{address_of, family_or, len_of, raw_text, Octets};
use crate::constants::AF_INET;
use crate::Prefix;
use rtnlc_sys::*;
use std::ffi::OsStr;

/// What is asked for of a rule, as by `ip rule`: it is added or taken away.
///
/// One that is added has `FR_ACT_TO_TBL` and a table, or another action and the table 0; ip(8)
/// takes one away with the action 0. A field that is [`None`], or a text of no byte, isn't put.
///
/// ```
/// use rtnl::constants::FR_ACT_TO_TBL;
/// use rtnl::{Operation, Order, RuleRequest};
///
/// // ip rule add fwmark 0x10/0xff table 1000 priority 103
/// let rule = RuleRequest {
///     action: FR_ACT_TO_TBL,
///     table: 1_000,
///     mark: Some(0x10),
///     mark_mask: Some(0xff),
///     priority: Some(103),
///     ..RuleRequest::default()
/// };
/// let mut buffer = [0; 128];
/// let request = rule.put(Operation::Add, 1, Order::NATIVE, &mut buffer)?;
/// assert_eq!(request.len(), 60);
/// # Ok::<(), rtnl::Error>(())
/// ```
#[derive(Clone, Copy, Debug, Default, PartialEq, Eq, Hash)]
pub struct RuleRequest<'a> {
    /// As `AF_INET6`; where it is `AF_UNSPEC`, that of `from` is put, or else that of `to`, and
    /// `AF_INET` where there is neither, as by ip(8).
    pub address_family: u8,
    /// Where packets must come from: `FRA_SRC`.
    pub from: Option<Prefix>,
    /// Where packets must go to: `FRA_DST`.
    pub to: Option<Prefix>,
    /// The type of service that packets must have.
    pub type_of_service: u8,
    /// The table that it chooses, `RT_TABLE_*`: `FRA_TABLE` where it is above 255.
    pub table: u32,
    /// What it does, `FR_ACT_*`.
    pub action: u8,
    /// Whether it is for the packets that aren't as it says: `FIB_RULE_INVERT`.
    pub is_inverted: bool,
    /// The mark that packets must have: `FRA_FWMARK`.
    pub mark: Option<u32>,
    /// Which bits of the mark count: `FRA_FWMASK`. The kernel takes all where it isn't put.
    pub mark_mask: Option<u32>,
    /// The name of the interface that packets must come in by: `FRA_IIFNAME`.
    pub in_interface: Option<&'a OsStr>,
    /// The name of the interface that packets must be bound to: `FRA_OIFNAME`.
    pub out_interface: Option<&'a OsStr>,
    /// The priority of the rule that it goes on with, under `FR_ACT_GOTO`: `FRA_GOTO`.
    pub target: Option<u32>,
    /// Routes of the table that have no more bits of their destination than this are passed over:
    /// `FRA_SUPPRESS_PREFIXLEN`. With 0 these are the default routes.
    pub suppress_prefix_len: Option<u32>,
    /// Its priority, of which the least is taken first: `FRA_PRIORITY`. The kernel chooses it
    /// where it isn't put.
    pub priority: Option<u32>,
}

impl RuleRequest<'_> {
    fn with_raw(&self, call: impl FnOnce(&rtnlc_rule_request) -> rtnlc_put) -> rtnlc_put {
        let (source, destination) = (Octets::of_prefix(self.from), Octets::of_prefix(self.to));
        let addresses = [self.from, self.to].map(address_of);
        call(&rtnlc_rule_request {
            source: source.raw(),
            destination: destination.raw(),
            iif: raw_text(self.in_interface),
            oif: raw_text(self.out_interface),
            table: self.table,
            mark: self.mark.unwrap_or(0),
            mask: self.mark_mask.unwrap_or(0),
            target: self.target.unwrap_or(0),
            suppress_prefix_length: self.suppress_prefix_len.unwrap_or(0),
            priority: self.priority.unwrap_or(0),
            has_mark: self.mark.is_some(),
            has_mask: self.mark_mask.is_some(),
            has_target: self.target.is_some(),
            has_suppress_prefix_length: self.suppress_prefix_len.is_some(),
            has_priority: self.priority.is_some(),
            invert: self.is_inverted,
            family: family_or(self.address_family, addresses, AF_INET),
            source_length: len_of(self.from),
            destination_length: len_of(self.to),
            tos: self.type_of_service,
            action: self.action,
        })
    }
}

super::put!(RuleRequest, rtnlc_request_rule);
