//! Values that the standard library has no type for.

use crate::constants::{AF_INET, AF_INET6, RTNL_FAMILY_IP6MR, RTNL_FAMILY_IPMR};
use crate::text::{Text, ROOM};
use std::fmt;
use std::net::{IpAddr, Ipv4Addr, Ipv6Addr};

/// The address of an address family in as many bytes as it has; of other families none.
pub(crate) fn address_of(family: u16, bytes: &[u8]) -> Option<IpAddr> {
    let family = u8::try_from(family).ok()?;
    match family {
        AF_INET | RTNL_FAMILY_IPMR => {
            <[u8; 4]>::try_from(bytes).ok().map(|it| Ipv4Addr::from(it).into())
        }
        AF_INET6 | RTNL_FAMILY_IP6MR => {
            <[u8; 16]>::try_from(bytes).ok().map(|it| Ipv6Addr::from(it).into())
        }
        _ => None,
    }
}

/// An address, and how many of its bits count.
#[derive(Clone, Copy, Debug, PartialEq, Eq, PartialOrd, Ord, Hash)]
pub struct Prefix {
    /// The address.
    pub address: IpAddr,
    /// How many bits of it count: 32 or 128 at most, where the kernel has sent it.
    pub len: u8,
}

/// As `192.0.2.0/24`.
impl fmt::Display for Prefix {
    fn fmt(&self, f: &mut fmt::Formatter<'_>) -> fmt::Result {
        let mut text = Text::new();
        match self.address {
            IpAddr::V4(it) => text.push_ipv4(it),
            IpAddr::V6(it) => text.push_ipv6(it),
        }
        text.push(b'/');
        text.push_decimal(self.len);
        f.write_str(text.as_str())
    }
}

/// The address of a device in its link layer: six bytes of Ethernet, other numbers elsewhere.
#[derive(Clone, Copy, PartialEq, Eq, PartialOrd, Ord, Hash)]
pub struct HardwareAddress<'a>(&'a [u8]);

impl<'a> HardwareAddress<'a> {
    /// That of these bytes, where there is one at least.
    ///
    /// ```
    /// use rtnl::HardwareAddress;
    ///
    /// let address = HardwareAddress::new(&[2, 0, 0x5e, 0x10, 0, 1]).unwrap();
    /// assert_eq!(address.to_string(), "02:00:5e:10:00:01");
    /// assert!(HardwareAddress::new(&[]).is_none());
    /// ```
    pub fn new(bytes: &'a [u8]) -> Option<HardwareAddress<'a>> {
        (!bytes.is_empty()).then_some(HardwareAddress(bytes))
    }

    /// Its bytes, at least one.
    pub fn as_bytes(&self) -> &'a [u8] {
        self.0
    }
}

impl AsRef<[u8]> for HardwareAddress<'_> {
    fn as_ref(&self) -> &[u8] {
        self.0
    }
}

/// As `02:00:5e:10:00:01`.
impl fmt::Display for HardwareAddress<'_> {
    fn fmt(&self, f: &mut fmt::Formatter<'_>) -> fmt::Result {
        for (at, bytes) in self.0.chunks(ROOM / 3).enumerate() {
            let mut text = Text::new();
            for byte in bytes {
                text.push(b':');
                text.push_digit(byte >> 4);
                text.push_digit(byte & 15);
            }
            // No colon stands before the first byte.
            f.write_str(&text.as_str()[usize::from(at == 0)..])?;
        }
        Ok(())
    }
}

impl fmt::Debug for HardwareAddress<'_> {
    fn fmt(&self, f: &mut fmt::Formatter<'_>) -> fmt::Result {
        fmt::Display::fmt(self, f)
    }
}

/// The operational state of a link, `IFLA_OPERSTATE` (RFC 2863).
#[derive(Clone, Copy, Debug, PartialEq, Eq, PartialOrd, Ord, Hash)]
#[non_exhaustive]
pub enum OperationalState {
    /// `IF_OPER_UNKNOWN`: its driver doesn't say.
    Unknown,
    /// `IF_OPER_NOTPRESENT`: a part of the device is missing.
    NotPresent,
    /// `IF_OPER_DOWN`.
    Down,
    /// `IF_OPER_LOWERLAYERDOWN`: the device below is down.
    LowerLayerDown,
    /// `IF_OPER_TESTING`.
    Testing,
    /// `IF_OPER_DORMANT`: it waits, as for a login.
    Dormant,
    /// `IF_OPER_UP`.
    Up,
    /// A number that the kernel's headers don't have.
    Other(u8),
}

impl From<u8> for OperationalState {
    fn from(number: u8) -> OperationalState {
        match number {
            0 => OperationalState::Unknown,
            1 => OperationalState::NotPresent,
            2 => OperationalState::Down,
            3 => OperationalState::LowerLayerDown,
            4 => OperationalState::Testing,
            5 => OperationalState::Dormant,
            6 => OperationalState::Up,
            other => OperationalState::Other(other),
        }
    }
}

impl OperationalState {
    /// The word that ip(8) has for it, as `LOWERLAYERDOWN`; of [`OperationalState::Other`] none.
    pub fn word(self) -> Option<&'static str> {
        Some(match self {
            OperationalState::Unknown => "UNKNOWN",
            OperationalState::NotPresent => "NOTPRESENT",
            OperationalState::Down => "DOWN",
            OperationalState::LowerLayerDown => "LOWERLAYERDOWN",
            OperationalState::Testing => "TESTING",
            OperationalState::Dormant => "DORMANT",
            OperationalState::Up => "UP",
            OperationalState::Other(_) => return None,
        })
    }
}

/// Its word; of [`OperationalState::Other`] the number.
impl fmt::Display for OperationalState {
    fn fmt(&self, f: &mut fmt::Formatter<'_>) -> fmt::Result {
        match self {
            OperationalState::Other(number) => number.fmt(f),
            known => f.pad(known.word().unwrap_or_default()),
        }
    }
}

#[cfg(test)]
mod tests {
    use super::*;

    #[test]
    fn prefixes_have_their_length() {
        let text = |address: &str, len| {
            Prefix { address: address.parse().expect("an address"), len }.to_string()
        };
        assert_eq!(text("0.0.0.0", 0), "0.0.0.0/0");
        assert_eq!(text("255.255.255.255", 32), "255.255.255.255/32");
        let longest = "2001:1db8:1111:2222:3333:4444:5555:6666";
        assert_eq!(text(longest, 128), format!("{longest}/128"));
    }

    #[test]
    fn hardware_addresses_of_any_length_have_colons_between_their_bytes() {
        let bytes: Vec<u8> = (0..=255).collect();
        let texts: Vec<String> = bytes.iter().map(|it| format!("{it:02x}")).collect();
        for len in 1..=bytes.len() {
            let address = HardwareAddress::new(&bytes[..len]).expect("a byte at least");
            assert_eq!(address.to_string(), texts[..len].join(":"));
        }
    }
}
