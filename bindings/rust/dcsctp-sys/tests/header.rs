//! Compares `src/lib.rs` with `dcsctp.h`: each number, size, offset, type and call. A program in C, which `cc`
//! compiles, says what they are there, and a compiler refuses a second declaration of a call that isn't the first's.
use dcsctp_sys::*;
use std::collections::{BTreeMap, BTreeSet};
use std::fmt::Write;
use std::mem::{align_of, offset_of, size_of};
use std::path::{Path, PathBuf};
use std::process::{Command, Output};

const SOURCE: &str = include_str!("../src/lib.rs");

/// Macros of the header that are no numbers.
const NO_NUMBERS: [&str; 8] = [
    "DCSCTP_H",
    "DCSCTP_HAS_GETRANDOM",
    "DCSCTP_CALL",
    "DCSCTP_CHECKED_CALL",
    "DCSCTP_SOCKET_INIT",
    "DCSCTP_SEND_INIT",
    "DCSCTP_CHANNEL_LIMITS_INIT",
    "DCSCTP_CHANNEL_OPTIONS_INIT",
];

macro_rules! numbers {
    ($($name:ident)*) => { BTreeMap::from([$((stringify!($name).to_string(), $name as u64)),*]) };
}

macro_rules! layout {
    ($($kind:ident { $($field:ident)* })*) => {
        BTreeMap::from([$(
            (stringify!($kind).to_string(), (size_of::<$kind>(), align_of::<$kind>())),
            $((format!("{}.{}", stringify!($kind), stringify!($field)),
               (offset_of!($kind, $field), size_of_field(|it: &$kind| &it.$field)))),*
        ),*])
    };
}

fn size_of_field<S, T>(_: impl FnOnce(&S) -> &T) -> usize {
    size_of::<T>()
}

#[rustfmt::skip]
fn numbers_here() -> BTreeMap<String, u64> {
    numbers! {
        DCSCTP_VERSION_MAJOR DCSCTP_VERSION_MINOR DCSCTP_VERSION_PATCH DCSCTP_VERSION
        DCSCTP_VERSION_UNPROVED DCSCTP_NEVER DCSCTP_NO_LIMIT
        DCSCTP_OK DCSCTP_ERROR_OUT_OF_MEMORY DCSCTP_ERROR_FAILED DCSCTP_ERROR_NO_SOCKET
        DCSCTP_ERROR_ALREADY_CREATED DCSCTP_ERROR_INVALID_OPTIONS DCSCTP_ERROR_BUFFER_TOO_SMALL
        DCSCTP_ERROR_NOTHING_TO_COPY DCSCTP_ERROR_EMPTY_PAYLOAD DCSCTP_ERROR_MESSAGE_TOO_LARGE
        DCSCTP_ERROR_RESOURCE_EXHAUSTION DCSCTP_ERROR_SHUTTING_DOWN DCSCTP_ERROR_NOT_CONNECTED
        DCSCTP_ERROR_NOT_SUPPORTED DCSCTP_ERROR_NOT_READY DCSCTP_ERROR_INVALID_SNAPSHOT
        DCSCTP_ERROR_NOT_CLOSED DCSCTP_ERROR_INVALID_SEND_OPTIONS DCSCTP_ERROR_WRONG_SIZE
        DCSCTP_ERROR_OTHER_OPTIONS DCSCTP_ERROR_HAS_CHANNELS DCSCTP_ERROR_NO_CHANNEL
        DCSCTP_ERROR_STREAM_IN_USE DCSCTP_ERROR_ENDED DCSCTP_ERROR_NO_SEED
        DCSCTP_EVENT_NONE DCSCTP_EVENT_SEND_PACKET DCSCTP_EVENT_CONNECTED DCSCTP_EVENT_CLOSED
        DCSCTP_EVENT_CONNECTION_RESTARTED DCSCTP_EVENT_ABORTED DCSCTP_EVENT_ERROR
        DCSCTP_EVENT_BUFFERED_AMOUNT_LOW DCSCTP_EVENT_TOTAL_BUFFERED_AMOUNT_LOW
        DCSCTP_EVENT_STREAMS_RESET_FAILED DCSCTP_EVENT_STREAMS_RESET_PERFORMED
        DCSCTP_EVENT_INCOMING_STREAM_RESET DCSCTP_EVENT_LIFECYCLE_FULLY_SENT
        DCSCTP_EVENT_LIFECYCLE_MAYBE_EXPIRED DCSCTP_EVENT_LIFECYCLE_EXPIRED
        DCSCTP_EVENT_LIFECYCLE_DELIVERED DCSCTP_EVENT_LIFECYCLE_END
        DCSCTP_KIND_NO_ERROR DCSCTP_KIND_TOO_MANY_RETRIES DCSCTP_KIND_NOT_CONNECTED
        DCSCTP_KIND_PARSE_FAILED DCSCTP_KIND_WRONG_SEQUENCE DCSCTP_KIND_PEER_REPORTED
        DCSCTP_KIND_PROTOCOL_VIOLATION DCSCTP_KIND_RESOURCE_EXHAUSTION
        DCSCTP_KIND_UNSUPPORTED_OPERATION
        DCSCTP_SEND_UNORDERED DCSCTP_SEND_LIFETIME DCSCTP_SEND_MAX_RETRANSMISSIONS
        DCSCTP_STATE_CLOSED DCSCTP_STATE_CONNECTING DCSCTP_STATE_CONNECTED
        DCSCTP_STATE_SHUTTING_DOWN
        DCSCTP_PEER_UNKNOWN DCSCTP_PEER_DCSCTP_RS DCSCTP_PEER_DCSCTP_CC DCSCTP_PEER_USRSCTP
        DCSCTP_PEER_OTHER
        DCSCTP_CHANNEL_RELIABLE DCSCTP_CHANNEL_RETRANSMISSIONS DCSCTP_CHANNEL_LIFETIME
        DCSCTP_CHANNEL_TEXT DCSCTP_CHANNEL_BINARY
        DCSCTP_CHANNEL_EVENT_NONE DCSCTP_CHANNEL_EVENT_SEND_PACKET DCSCTP_CHANNEL_EVENT_CONNECTED
        DCSCTP_CHANNEL_EVENT_OPENED DCSCTP_CHANNEL_EVENT_INCOMING DCSCTP_CHANNEL_EVENT_MESSAGE
        DCSCTP_CHANNEL_EVENT_BUFFERED_AMOUNT_LOW DCSCTP_CHANNEL_EVENT_CLOSED
        DCSCTP_CHANNEL_EVENT_ENDED
        DCSCTP_CHANNEL_CLOSED_BY_RESETS DCSCTP_CHANNEL_REFUSED DCSCTP_CHANNEL_CANT_BE_RESET
        DCSCTP_CHANNEL_LOST DCSCTP_CHANNEL_NO_STREAM
        DCSCTP_CHANNEL_CONNECTING DCSCTP_CHANNEL_OPEN DCSCTP_CHANNEL_CLOSING DCSCTP_CHANNEL_CLOSED
        DCSCTP_HANDOVER_WRONG_CONNECTION_STATE DCSCTP_HANDOVER_SEND_QUEUE_NOT_EMPTY
        DCSCTP_HANDOVER_PENDING_STREAM_RESET_REQUEST
        DCSCTP_HANDOVER_DATA_TRACKER_TSN_BLOCKS_PENDING DCSCTP_HANDOVER_PENDING_STREAM_RESET
        DCSCTP_HANDOVER_STREAM_RESET_DEFERRED DCSCTP_HANDOVER_STREAM_HAS_UNASSEMBLED_CHUNKS
        DCSCTP_HANDOVER_RETRANSMISSION_QUEUE_OUTSTANDING_DATA
        DCSCTP_HANDOVER_RETRANSMISSION_QUEUE_FAST_RECOVERY
        DCSCTP_HANDOVER_RETRANSMISSION_QUEUE_NOT_EMPTY
        DCSCTP_HANDOVER_CHANNELS_UNSETTLED DCSCTP_HANDOVER_EVENTS_NOT_TAKEN
    }
}

#[rustfmt::skip]
fn layout_here() -> BTreeMap<String, (usize, usize)> {
    layout! {
        dcsctp_socket { at mark }
        dcsctp_options {
            size mtu max_message_size max_receiver_window_buffer_size max_send_buffer_size
            per_stream_send_queue_limit total_buffered_amount_low_threshold
            default_stream_buffered_amount_low_threshold cwnd_mtus_initial cwnd_mtus_min
            rtt_max rto_initial rto_max rto_min t1_init_timeout t1_cookie_timeout cookie_lifetime
            max_timer_backoff_duration heartbeat_interval delayed_ack_max_timeout min_rtt_variance
            max_burst max_retransmissions max_init_retransmits zero_checksum_method
            enable_partial_reliability enable_message_interleaving disable_checksum_verification
            enable_handover_with_outstanding_data local_port remote_port
            announced_maximum_incoming_streams announced_maximum_outgoing_streams
            default_stream_priority checksum_offload follow_rfc
        }
        dcsctp_event { lifecycle_id length kind error_kind stream_id reserved }
        dcsctp_message { length ppid stream_id reserved }
        dcsctp_send_options { lifecycle_id lifetime flags max_retransmissions reserved }
        dcsctp_outgoing_message { payload length ppid stream_id reserved }
        dcsctp_metrics {
            size rtx_bytes_count srtt tx_packets_count tx_messages_count rtx_packets_count
            cwnd_bytes unack_data_count rx_packets_count rx_messages_count peer_rwnd_bytes
            peer_implementation uses_message_interleaving uses_zero_checksum
            negotiated_maximum_incoming_streams negotiated_maximum_outgoing_streams reserved
        }
        dcsctp_counts { size rx_packets_count tx_packets_count tx_messages_count }
        dcsctp_channel_limits { size max_message_size max_text max_channels }
        dcsctp_channel_options {
            size label label_length protocol protocol_length limit priority reliability
            is_unordered is_negotiated stream reserved
        }
        dcsctp_channel_event { channel length kind detail }
        dcsctp_channel_metrics {
            size messages_sent bytes_sent messages_received bytes_received
        }
    }
}

// ---- The header -------------------------------------------------------------------------------

fn header() -> PathBuf {
    Path::new(env!("CARGO_MANIFEST_DIR")).join("../../../include/dcsctp.h")
}

fn output(command: &mut Command) -> String {
    let Output { status, stdout, stderr } = command.output().expect("it runs");
    assert!(status.success(), "{command:?}: {}", String::from_utf8_lossy(&stderr));
    String::from_utf8(stdout).expect("UTF-8")
}

fn preprocessed(flags: &[&str]) -> String {
    output(Command::new("cc").arg("-E").args(flags).arg(header()))
}

/// The types and calls of the header.
fn declarations() -> String {
    preprocessed(&["-P", "-DDCSCTP_DECLARATIONS"])
}

fn words(text: &str) -> Vec<&str> {
    let is_space = |c: char| !(c.is_alphanumeric() || c == '_');
    text.split(is_space).filter(|it| !it.is_empty()).collect()
}

/// The names of numbers: enumerators, and macros but for those that are no numbers.
fn number_names() -> BTreeSet<String> {
    let enumerators = declarations();
    let macros = preprocessed(&["-dM", "-xc"]);
    let of_macros = macros.lines().filter_map(|line| line.strip_prefix("#define "));
    let of_macros = of_macros.filter_map(|line| line.split(' ').next());
    let before_sign = enumerators.split('=').filter_map(|it| words(it).pop());
    let names = of_macros.chain(before_sign).filter(|it| it.starts_with("DCSCTP_"));
    names.filter(|it| !it.contains('(') && !NO_NUMBERS.contains(it)).map(String::from).collect()
}

/// What is between `head` and `foot`, each time.
fn between<'a>(text: &'a str, head: &str, foot: &str) -> Vec<&'a str> {
    text.split(head).skip(1).map(|it| it.split(foot).next().unwrap_or(it)).collect()
}

/// The type of C that a type of Rust corresponds to.
fn in_c(kind: &str) -> String {
    if let Some(target) = kind.strip_prefix("*mut ") {
        return format!("{} *", in_c(target));
    }
    if let Some(target) = kind.strip_prefix("*const ") {
        return format!("const {} *", in_c(target));
    }
    match kind {
        "usize" => "size_t".into(),
        "c_void" => "void".into(),
        "c_char" => "char".into(),
        "i32" | "u8" | "u16" | "u32" | "u64" => {
            format!("{}int{}_t", &kind[..1].replace('i', ""), &kind[1..])
        }
        other => other.into(),
    }
}

/// A list of parameters or fields, `name: type`, as declarations of C.
fn in_c_each(list: &str) -> Vec<String> {
    let each =
        list.split(',').filter_map(|it| it.trim().trim_start_matches("pub ").split_once(": "));
    each.map(|(name, kind)| format!("{} {name}", in_c(kind))).collect()
}

/// The calls of `src/lib.rs`, as declarations of C.
fn calls_in_c() -> Vec<String> {
    let calls = between(SOURCE, "pub fn ", ";");
    let calls = calls.iter().map(|call| {
        let (name, rest) = call.split_once('(').expect("parameters");
        let (parameters, rest) = rest.split_once(')').expect("the end of parameters");
        let result = rest.trim().strip_prefix("-> ").map_or("void".into(), in_c);
        let parameters = in_c_each(parameters).join(", ");
        let parameters = if parameters.is_empty() { "void" } else { &parameters };
        format!("{result} {name}({parameters});")
    });
    calls.collect()
}

// ---- The comparisons --------------------------------------------------------------------------

/// What a program prints that includes the header: two words a line, or three.
fn run_in_c(declarations: &str, statements: &str) -> Vec<(String, Vec<u64>)> {
    let folder = Path::new(env!("CARGO_TARGET_TMPDIR"));
    let (file, program) = (folder.join("header.c"), folder.join("header"));
    let head = "#include <dcsctp.h>\n#include <stdio.h>\n";
    let text = format!("{head}{declarations}int main(void) {{\n{statements}return 0;\n}}\n");
    std::fs::write(&file, text).expect("a file");
    let include = header().with_file_name("");
    let mut compile = Command::new("cc");
    compile.args(["-std=c11", "-Werror", "-I"]).arg(include);
    output(compile.arg(&file).arg("-o").arg(&program));
    let said = output(&mut Command::new(program));
    let rows = said.lines().map(|line| {
        let mut row = line.split(' ');
        let name = row.next().expect("a name").to_string();
        (name, row.map(|it| it.parse().expect("a number")).collect())
    });
    rows.collect()
}

#[test]
fn header_is_what_src_lib_says() {
    let (numbers, layout) = (numbers_here(), layout_here());
    let names: BTreeSet<String> = numbers.keys().cloned().collect();
    assert_eq!(names, number_names(), "the numbers here, and those of the header");

    let mut statements = String::new();
    for name in numbers.keys() {
        writeln!(statements, "printf(\"{name} %llu\\n\", (unsigned long long){name});").unwrap();
    }
    for name in layout.keys() {
        let (first, second) = match name.split_once('.') {
            None => (format!("sizeof({name})"), format!("_Alignof({name})")),
            Some((kind, field)) => {
                (format!("offsetof({kind}, {field})"), format!("sizeof((({kind} *)0)->{field})"))
            }
        };
        writeln!(statements, "printf(\"{name} %zu %zu\\n\", {first}, {second});").unwrap();
    }
    let rows = run_in_c(&calls_in_c().join("\n"), &statements);
    assert_eq!(rows.len(), numbers.len() + layout.len());
    for (name, said) in rows {
        let here = match layout.get(&name) {
            Some(&(first, second)) => vec![first as u64, second as u64],
            None => vec![numbers[&name]],
        };
        assert_eq!(here, said, "{name}, here and in the header");
    }
}

#[test]
fn calls_are_those_of_the_header() {
    let declarations = declarations();
    let there: BTreeSet<&str> = declarations
        .split('(')
        .filter_map(|it| words(it).pop())
        .filter(|it| it.starts_with("dcsctp_"))
        .collect();
    let here: BTreeSet<&str> = between(SOURCE, "pub fn ", "(")
        .into_iter()
        .filter(|it| it.starts_with("dcsctp_"))
        .collect();
    assert_eq!(here, there);
}

#[test]
fn fields_are_those_of_the_header() {
    let plain = |text: &str| words(&text.replace('*', " pointer ")).join(" ");
    let text = declarations();
    let mut there = BTreeMap::new();
    for kind in between(&text, "typedef struct ", "}") {
        let (name, fields) = kind.split_once('{').expect("fields");
        let fields = fields.split(';').map(plain).filter(|it| !it.is_empty());
        there.insert(name.trim().to_string(), fields.collect::<Vec<_>>());
    }
    let mut here = BTreeMap::new();
    for kind in between(SOURCE, "pub struct ", "}") {
        let (name, fields) = kind.split_once('{').expect("fields");
        let fields = in_c_each(fields).iter().map(|it| plain(it)).collect::<Vec<_>>();
        here.insert(name.trim().to_string(), fields);
    }
    assert_eq!(here, there);
    let listed: usize = there.values().map(|it| 1 + it.len()).sum();
    assert_eq!(layout_here().len(), listed, "each struct and field is in the table above");
}
