//! Compares the declarations of rtnlc-sys with `rtnlc.h`, by the C compiler: sizes, offsets,
//! numbers, the types of all calls, and that the header has nothing else.

use checks::{preprocessed, printed, words};
use rtnlc_sys::*;
use std::collections::BTreeSet;
use std::fmt::Write;
use std::mem::{align_of, size_of, size_of_val, MaybeUninit};
use std::ptr::addr_of;

const SOURCE: &str = concat!(
    include_str!("../../rtnlc-sys/src/structs.rs"),
    include_str!("../../rtnlc-sys/src/lib.rs")
);
const HEADER: &str = "#include <rtnlc.h>\n";
/// Macros that are gone at the end of the header, or say that it is there.
const OF_THE_HEADER_ALONE: [&str; 3] = ["RTNLC_H", "RTNLC_READS", "RTNLC_WRITES"];

/// What is compared: a line that Rust says, and the expression in C whose value stands behind it.
struct Lines(Vec<(String, String, usize)>);

impl Lines {
    fn add(&mut self, name: String, in_c: String, value: usize) {
        self.0.push((name, in_c, value));
    }
}

/// Size, alignment and fields of structs.
macro_rules! structs {
    ($lines:ident: $($name:ident { $($field:ident),* })*) => {$(
        let of = concat!("struct ", stringify!($name));
        $lines.add(format!("size {of}"), format!("sizeof({of})"), size_of::<$name>());
        let in_c = format!("offsetof(struct {{ char c; {of} it; }}, it)");
        $lines.add(format!("alignment {of}"), in_c, align_of::<$name>());
        let whole = MaybeUninit::<$name>::zeroed();
        // SAFETY: a field of each of these structs may be zero.
        let whole = unsafe { whole.assume_init() };
        $(
            let field = stringify!($field);
            let place = addr_of!(whole.$field) as usize - addr_of!(whole) as usize;
            $lines.add(format!("{of}.{field}"), format!("offsetof({of}, {field})"), place);
            let in_c = format!("sizeof((({of} *)0)->{field})");
            $lines.add(format!("size {of}.{field}"), in_c, size_of_val(&whole.$field));
        )*
    )*};
}

macro_rules! numbers {
    ($lines:ident: $($name:ident)*) => {$(
        $lines.add(stringify!($name).into(), stringify!($name).into(), $name as usize);
    )*};
}

fn add_structs_of_readings(lines: &mut Lines) {
    structs!(lines:
        rtnlc_options { total, datagram, entries, depth, big, seed }
        rtnlc_scanned { visits, place, code }
        rtnlc_broken_head { place, len, left, number, level, sort, whole, code }
        rtnlc_event { place, len, number, level, sort, nested, net }
        rtnlc_taped { count, visits, place, code }
        rtnlc_message { place, next, len, seq, port, kind, flags, code }
        rtnlc_attr { place, next, len, number, nested, net, code }
        rtnlc_hop { place, next, len, ifindex, flags, hops, code }
        rtnlc_family { head_size, context }
        rtnlc_holds { sort, context }
        rtnlc_checked { place, code, canonical }
        rtnlc_shown { len, code }
        rtnlc_put { len, code }
    );
}

fn add_structs_of_dumps(lines: &mut Lines) {
    structs!(lines:
        rtnlc_status {
            received, visits, ignored, seq, port, status, kind, family, state, damaged,
            interrupted, complete, code
        }
        rtnlc_fed { events, items, ignored, place, ended, code }
        rtnlc_session { at }
        rtnlc_table { missed, count, limit, code }
        rtnlc_found { index, code }
        rtnlc_mirror { at }
        rtnlc_change { before, before_len, index, kind, effect, code }
        rtnlc_heard { visits, changes, before, place, code }
        rtnlc_mirrored { missed, count, limit, seq, stale, dumps, code }
        rtnlc_stream {
            total, received, visits, ignored, datagram, entries, seq, port, status, kind, family,
            state, depth, big, damaged, interrupted
        }
    );
}

fn add_structs_of_building(lines: &mut Lines) {
    structs!(lines:
        rtnlc_built {
            total, entries, datagram, len, starts, contents, count, depth, big, refusal
        }
        rtnlc_builder { out, room, built }
        rtnlc_bytes { at, len }
        rtnlc_link_request {
            name, address, kind, data, index, mtu, master, link, has_mtu, has_master, has_link,
            has_up, up
        }
        rtnlc_addr_request {
            local, peer, broadcast, label, index, flags, preferred, valid, has_lifetimes, family,
            prefix_length, scope
        }
        rtnlc_metric { number, value }
        rtnlc_next_hop { index, flags, hops, gateway_len, gateway }
        rtnlc_route_request {
            destination, source, gateway, preferred_source, metrics, metric_count, hops, hop_count,
            table, flags, priority, oif, has_priority, has_oif, family, destination_length,
            source_length, tos, protocol, scope, route_type
        }
        rtnlc_neigh_request {
            destination, link_address, index, state, vlan, has_vlan, family, flags
        }
        rtnlc_rule_request {
            source, destination, iif, oif, table, mark, mask, target, suppress_prefix_length,
            priority, has_mark, has_mask, has_target, has_suppress_prefix_length, has_priority,
            invert, family, source_length, destination_length, tos, action
        }
    );
}

fn add_numbers(lines: &mut Lines) {
    numbers!(lines:
        RTNLC_ABI RTNLC_STACK RTNLC_REQUEST RTNLC_NAME RTNLC_OK RTNLC_CUT RTNLC_BAD_LENGTH RTNLC_SHORT_BODY
        RTNLC_TOO_LONG RTNLC_TOO_DEEP RTNLC_TOO_LARGE RTNLC_TOTAL RTNLC_NOT_WAITING RTNLC_BUSY
        RTNLC_SAME_SEQ RTNLC_MISMATCH RTNLC_BAD_LIMIT RTNLC_NO_MEMORY RTNLC_NO_ROOM RTNLC_NO_STREAM
        RTNLC_NO_KIND RTNLC_NO_SESSION RTNLC_NOTHING_OPEN RTNLC_STILL_OPEN RTNLC_NO_BUILDER
        RTNLC_NO_SEED RTNLC_NO_MIRROR RTNLC_END RTNLC_MESSAGE RTNLC_BYTES RTNLC_LIST RTNLC_HOPS
        RTNLC_NEXT_HOP RTNLC_CURRENT RTNLC_NEVER_DUMPED RTNLC_LOST RTNLC_REFUSED RTNLC_SHORT
        RTNLC_TOO_MANY_WAIT RTNLC_SILENT RTNLC_UNNAMED RTNLC_FULL RTNLC_NOTHING RTNLC_ADDED
        RTNLC_CHANGED RTNLC_REMOVED RTNLC_WAITS
        RTNLC_NO_CONTEXT RTNLC_LINK RTNLC_LINK_INFO RTNLC_ADDR RTNLC_HOPS_BEHIND RTNLC_ROUTE
        RTNLC_METRICS RTNLC_NEIGH RTNLC_RULE RTNLC_PLAIN RTNLC_IDLE RTNLC_WAITING RTNLC_DONE
        RTNLC_FAILED RTNLC_OVERRUN RTNLC_ABANDONED RTNLC_STANDARD_TOTAL RTNLC_STANDARD_DATAGRAM
        RTNLC_STANDARD_ENTRIES RTNLC_STANDARD_DEPTH RTNLC_ADD RTNLC_REPLACE RTNLC_CHANGE
        RTNLC_APPEND RTNLC_PREPEND RTNLC_SET RTNLC_DELETE
    );
}

fn all_lines() -> Vec<(String, String, usize)> {
    let mut lines = Lines(Vec::new());
    add_structs_of_readings(&mut lines);
    add_structs_of_dumps(&mut lines);
    add_structs_of_building(&mut lines);
    add_numbers(&mut lines);
    lines.0
}

#[test]
fn sizes_offsets_and_numbers_are_those_of_the_header() {
    let lines = all_lines();
    let mut source = format!("#include <stdio.h>\n{HEADER}int main(void) {{\n");
    let mut expected = String::new();
    for (name, in_c, value) in &lines {
        writeln!(source, "printf(\"{name} %llu\\n\", (unsigned long long)({in_c}));").unwrap();
        writeln!(expected, "{name} {value}").unwrap();
    }
    source += "puts(\"version \" RTNLC_VERSION);\nreturn 0; }\n";
    writeln!(expected, "version {RTNLC_VERSION}").unwrap();
    assert_eq!(printed("sizes", &source), expected);
}

/// A declaration in Rust, as it is written in C.
fn in_c(declaration: &str) -> String {
    let (name, rest) = declaration.split_once('(').expect("a call has parameters");
    let (parameters, result) = rest.split_once(')').expect("they end");
    let result = result.trim().strip_prefix("->").map_or("void".into(), type_in_c);
    let kinds = parameters.split(',').filter_map(|it| it.split_once(':'));
    let kinds: Vec<String> = kinds.map(|(_, kind)| type_in_c(kind)).collect();
    let kinds = if kinds.is_empty() { "void".into() } else { kinds.join(", ") };
    format!("{result} {}({kinds});\n", name.trim())
}

fn type_in_c(kind: &str) -> String {
    let kind = kind.trim().trim_end_matches(',');
    if let Some(kind) = kind.strip_prefix("*const ") {
        return format!("const {} *", type_in_c(kind));
    }
    if let Some(kind) = kind.strip_prefix("*mut ") {
        return format!("{} *", type_in_c(kind));
    }
    match kind {
        "usize" => "size_t".into(),
        "c_char" => "char".into(),
        "c_void" => "void".into(),
        "bool" => "bool".into(),
        it if it.starts_with("rtnlc_") => format!("struct {it}"),
        it if it.starts_with('i') => format!("int{}_t", &it[1..]),
        it => format!("uint{}_t", &it[1..]),
    }
}

/// The calls that are declared there, from their names on.
fn declared() -> Vec<&'static str> {
    let (_, block) = SOURCE.split_once("extern \"C\" {").expect("there are declarations");
    block.split("pub fn ").skip(1).map(|it| it.split(';').next().unwrap()).collect()
}

#[test]
fn calls_have_the_types_of_the_header() {
    // The compiler refuses a declaration of a name that has another type.
    let mut source = String::from(HEADER);
    declared().into_iter().for_each(|it| source += &in_c(it));
    source += "int main(void) { return 0; }\n";
    assert_eq!(printed("calls", &source), "");
    assert!(source.contains("struct rtnlc_scanned rtnlc_scan(const uint8_t *, size_t, const"));
}

#[test]
fn the_header_has_nothing_else() {
    let source = preprocessed(HEADER);
    let own: BTreeSet<&str> = words(SOURCE).collect();
    let others = words(&source).filter(|it| it.starts_with("rtnlc_") || it.starts_with("RTNLC_"));
    // The names of C's enums, of which each value is declared there as a number.
    let enums = [
        "rtnlc_code",
        "rtnlc_sort",
        "rtnlc_context",
        "rtnlc_state",
        "rtnlc_operation",
        "rtnlc_stale",
        "rtnlc_effect",
    ];
    let missing: BTreeSet<&str> =
        others.filter(|it| !own.contains(it) && !enums.contains(it)).collect();
    assert_eq!(missing, OF_THE_HEADER_ALONE.into_iter().collect());
}

#[test]
fn every_field_of_the_header_is_compared() {
    let source = preprocessed(HEADER);
    let (_, structs) = source.split_once("struct rtnlc_options {").expect("it has structs");
    let structs = format!("struct rtnlc_options {{{structs}");
    let mut fields = 0;
    for part in structs.split('}') {
        // What ends here is a struct where these two words stand before its fields.
        let (front, body) = part.rsplit_once('{').unwrap_or(("", ""));
        let mut front = words(front).collect::<Vec<_>>().into_iter().rev();
        if front.next().map_or(false, |it| it.starts_with("rtnlc_"))
            && front.next() == Some("struct")
        {
            fields += body.matches([';', ',']).count();
        }
    }
    let compared = all_lines().iter().filter(|(name, ..)| name.starts_with("size struct")).count();
    let of_structs = all_lines().iter().filter(|(name, ..)| name.starts_with("alignment")).count();
    assert_eq!(compared - of_structs, fields);
}
