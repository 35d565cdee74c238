//! Texts of addresses, put together on the stack: a formatter gets each as one piece.

use std::net::{Ipv4Addr, Ipv6Addr};
use std::ops::Range;

/// More than the 43 bytes of the longest prefix.
pub(crate) const ROOM: usize = 48;

/// A short text in ASCII. What is pushed behind its room is left out.
pub(crate) struct Text {
    room: [u8; ROOM],
    len: usize,
}

impl Text {
    #[inline]
    pub(crate) fn new() -> Text {
        Text { room: [0; ROOM], len: 0 }
    }

    #[inline]
    pub(crate) fn as_str(&self) -> &str {
        let text = self.room.get(..self.len).unwrap_or_default();
        std::str::from_utf8(text).unwrap_or_default()
    }

    #[inline]
    pub(crate) fn push(&mut self, character: u8) {
        if let Some(to) = self.room.get_mut(self.len) {
            *to = character;
            self.len += 1;
        }
    }

    /// A digit of 0 to 15.
    #[inline]
    pub(crate) fn push_digit(&mut self, digit: u8) {
        self.push(b"0123456789abcdef"[usize::from(digit & 15)]);
    }

    #[inline]
    pub(crate) fn push_decimal(&mut self, number: u8) {
        if number >= 100 {
            self.push_digit(number / 100);
        }
        if number >= 10 {
            self.push_digit(number / 10 % 10);
        }
        self.push_digit(number % 10);
    }

    #[inline]
    fn push_hexadecimal(&mut self, number: u16) {
        for shift in [12, 8, 4] {
            if number >> shift != 0 {
                self.push_digit((number >> shift & 15) as u8);
            }
        }
        self.push_digit((number & 15) as u8);
    }

    /// The address as its `Display` has it.
    #[inline]
    pub(crate) fn push_ipv4(&mut self, address: Ipv4Addr) {
        let [first, others @ ..] = address.octets();
        self.push_decimal(first);
        for octet in others {
            self.push(b'.');
            self.push_decimal(octet);
        }
    }

    /// The address as its `Display` has it: by RFC 5952, the last four bytes of one that stands
    /// for an IPv4 address as that.
    #[inline]
    pub(crate) fn push_ipv6(&mut self, address: Ipv6Addr) {
        if let Some(mapped) = address.to_ipv4_mapped() {
            b"::ffff:".iter().for_each(|it| self.push(*it));
            return self.push_ipv4(mapped);
        }
        let segments = address.segments();
        let zeros = longest_zeros(&segments);
        for (at, segment) in segments.iter().enumerate() {
            let is_left_out = zeros.contains(&at);
            if at == zeros.start || (at > 0 && !is_left_out) {
                self.push(b':');
            }
            if !is_left_out {
                self.push_hexadecimal(*segment);
            }
        }
        if zeros.end == segments.len() {
            self.push(b':');
        }
    }
}

/// Where most zeros stand one after another, two at least; of two such places the first. Where
/// there is none it is behind all segments.
#[inline]
fn longest_zeros(segments: &[u16; 8]) -> Range<usize> {
    let (mut run, mut longest, mut end) = (0, 1, usize::MAX);
    for (at, segment) in segments.iter().enumerate() {
        run = if *segment == 0 { run + 1 } else { 0 };
        if run > longest {
            (longest, end) = (run, at + 1);
        }
    }
    end - longest..end
}

#[cfg(test)]
mod tests {
    use super::*;

    fn text(push: impl FnOnce(&mut Text)) -> String {
        let mut text = Text::new();
        push(&mut text);
        text.as_str().into()
    }

    fn ipv6(segments: [u16; 8]) -> String {
        text(|it| it.push_ipv6(segments.into()))
    }

    #[test]
    fn numbers_have_no_zeros_in_front() {
        for number in 0..=u8::MAX {
            assert_eq!(text(|it| it.push_decimal(number)), number.to_string());
        }
        for number in 0..=u16::MAX {
            assert_eq!(text(|it| it.push_hexadecimal(number)), format!("{number:x}"));
        }
    }

    #[test]
    fn addresses_are_as_the_standard_library_has_them() {
        for address in [[0, 0, 0, 0], [192, 0, 2, 10], [255, 255, 255, 255]].map(Ipv4Addr::from) {
            assert_eq!(text(|it| it.push_ipv4(address)), address.to_string());
        }
        // Each choice of segments that are zero. Where the first six are, an older standard
        // library has an IPv4 address behind them.
        let full = [0x2001, 0xdb8, 0xa, 0xb0, 0xc00, 0xd000, 0xffff, 0x1];
        for mask in (0_u8..=255).filter(|it| it & 63 != 0) {
            let mut segments = full;
            for (at, segment) in segments.iter_mut().enumerate() {
                *segment *= u16::from(mask >> at & 1);
            }
            assert_eq!(ipv6(segments), Ipv6Addr::from(segments).to_string());
        }
    }

    #[test]
    fn addresses_are_as_rfc_5952_has_them() {
        assert_eq!(ipv6([0, 0, 0, 0, 0, 0, 0, 0]), "::");
        assert_eq!(ipv6([0, 0, 0, 0, 0, 0, 0, 1]), "::1");
        assert_eq!(ipv6([0x2001, 0xdb8, 0, 0, 1, 0, 0, 1]), "2001:db8::1:0:0:1");
        assert_eq!(ipv6([0x2001, 0xdb8, 0, 1, 1, 1, 1, 1]), "2001:db8:0:1:1:1:1:1");
        assert_eq!(ipv6([0, 0, 0, 0, 0, 0xffff, 0xc000, 0x201]), "::ffff:192.0.2.1");
    }

    #[test]
    fn what_has_no_room_is_left_out() {
        let found = text(|it| (0..ROOM + 1).for_each(|_| it.push(b'x')));
        assert_eq!(found, "x".repeat(ROOM));
    }
}
