//! Compares the constants of rtnl with the kernel's headers, by the C compiler, and with the names
//! that the library has.

use checks::{preprocessed, printed, words};
use rtnl::{attribute_name, type_name, Context};
use std::collections::{BTreeMap, BTreeSet};
use std::fmt::Write;

const SOURCE: &str = include_str!("../../rtnl/src/constants.rs");
const HEADERS: &str = "#include <stdio.h>\n#include <sys/socket.h>\n\
    #include <linux/if.h>\n#include <linux/netlink.h>\n#include <linux/rtnetlink.h>\n\
    #include <linux/if_link.h>\n#include <linux/if_addr.h>\n#include <linux/neighbour.h>\n\
    #include <linux/fib_rules.h>\n";

/// A constant, and what its group says that it is.
struct Row {
    group: &'static str,
    name: &'static str,
    number: u64,
}

fn number_of(text: &str) -> u64 {
    let found = match text.strip_prefix("0x") {
        Some(digits) => u64::from_str_radix(digits, 16),
        None => text.parse(),
    };
    found.expect("a number")
}

/// The rows of which the constants are made.
fn rows() -> Vec<Row> {
    let (_, table) = SOURCE.split_once("numbers! {").expect("there is a table");
    let mut found = Vec::new();
    for part in table.split("}\n").filter(|it| it.contains('{')) {
        let (front, row) = part.split_once('{').unwrap();
        let group = front.split('"').nth(1).expect("a group says what it is");
        let cells: Vec<&str> = row.split_whitespace().collect();
        found.extend(cells.chunks(2).map(|it| Row {
            group,
            name: it[0],
            number: number_of(it[1]),
        }));
    }
    found
}

/// The numbers of these names in the kernel's headers.
fn in_the_headers(names: &[&str]) -> BTreeMap<String, u64> {
    let mut source = format!("{HEADERS}int main(void) {{\n");
    for name in names {
        writeln!(source, "printf(\"{name} %llu\\n\", (unsigned long long)({name}));").unwrap();
    }
    source += "return 0; }\n";
    let rows = printed("constants", &source);
    let rows = rows.lines().map(|it| it.split_once(' ').unwrap());
    rows.map(|(name, number)| (name.into(), number.parse().unwrap())).collect()
}

#[test]
fn numbers_are_those_of_the_kernel() {
    let text = preprocessed(HEADERS);
    let there: BTreeSet<&str> = words(&text).collect();
    let rows = rows();
    let names: Vec<&str> = rows.iter().map(|it| it.name).filter(|it| there.contains(it)).collect();
    let found = in_the_headers(&names);
    assert!(found.len() > 300, "{} are compared", found.len());
    for row in &rows {
        assert_eq!(found.get(row.name).unwrap_or(&row.number), &row.number, "{}", row.name);
    }
    // What these headers don't have yet has greater numbers than what they have.
    for row in rows.iter().filter(|it| !found.contains_key(it.name)) {
        let mut others =
            rows.iter().filter(|it| it.group == row.group && found.contains_key(it.name));
        assert!(others.all(|it| it.number < row.number), "{}", row.name);
        println!("newer than these headers: {}", row.name);
    }
}

#[test]
fn rows_are_constants() {
    use rtnl::constants::*;
    let rows = rows();
    let of = |name: &str| rows.iter().find(|it| it.name == name).map(|it| it.number);
    assert_eq!(of("AF_UNSPEC"), Some(AF_UNSPEC.into()));
    assert_eq!(of("IFF_ECHO"), Some(IFF_ECHO.into()));
    assert_eq!(of("FRA_DPORT_RANGE"), Some(FRA_DPORT_RANGE.into()));
}

/// Where attributes stand whose names begin so; the longer first.
const CONTEXTS: [(&str, Context); 7] = [
    ("IFLA_INFO_", Context::LinkInfo),
    ("IFLA_", Context::Link),
    ("IFA_", Context::Address),
    ("RTA_", Context::Route),
    ("RTAX_", Context::Metrics),
    ("NDA_", Context::Neighbour),
    ("FRA_", Context::Rule),
];

#[test]
fn attributes_have_the_names_of_the_library() {
    let mut named = BTreeSet::new();
    for row in rows().iter().filter(|it| it.group.starts_with("an attribute")) {
        let context = CONTEXTS.iter().find(|it| row.name.starts_with(it.0)).unwrap().1;
        let number = u16::try_from(row.number).unwrap();
        assert_eq!(attribute_name(context, number).unwrap(), *row.name);
        named.insert((context, number));
    }
    // And it has no other.
    for (_, context) in CONTEXTS {
        for number in (0..0x4000).filter(|it| !named.contains(&(context, *it))) {
            assert_eq!(attribute_name(context, number), None, "{context:?} {number}");
        }
    }
}

#[test]
fn message_types_have_the_names_of_the_library() {
    let mut named = BTreeSet::new();
    for row in rows().iter().filter(|it| it.group.starts_with("a message type")) {
        let number = u16::try_from(row.number).unwrap();
        assert_eq!(type_name(number).unwrap(), *row.name);
        named.insert(number);
    }
    for number in (0..=u16::MAX).filter(|it| !named.contains(it)) {
        assert_eq!(type_name(number), None, "{number}");
    }
}
