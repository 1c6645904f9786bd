//! Sizes, offsets and numbers are those of the header.
//!
//! A C program is made of the same lists as what is wanted of it, is compiled with the header that
//! lies beside the library, and prints what a C compiler makes of them. `CC` names another compiler
//! than `cc`.

use std::mem::{align_of, offset_of, size_of};
use std::path::PathBuf;
use std::process::Command;
use turn_client_sys::*;

/// A C expression, and its value here.
type Row = (String, i64);

fn row(expression: String, value: impl TryInto<i64>) -> Row {
    let value = value.try_into().ok().unwrap();
    (expression, value)
}

fn size_of_field<T, U>(_: fn(&T) -> &U) -> usize {
    size_of::<U>()
}

/// Size and alignment of structs, and offset and size of each field.
macro_rules! layouts {
    ($($name:ident { $($field:ident),* })*) => {{
        let mut rows = Vec::new();
        $(
            rows.push(row(format!("sizeof({})", stringify!($name)), size_of::<$name>()));
            rows.push(row(format!("_Alignof({})", stringify!($name)), align_of::<$name>()));
            $(
                let (c, field) = (stringify!($name), stringify!($field));
                rows.push(row(format!("offsetof({c}, {field})"), offset_of!($name, $field)));
                let size = size_of_field(|it: &$name| &it.$field);
                rows.push(row(format!("sizeof((({c} *)0)->{field})"), size));
            )*
        )*
        rows
    }};
}

/// Numbers of the header.
macro_rules! numbers {
    ($($name:ident)*) => { vec![$(row(stringify!($name).to_string(), $name)),*] };
}

fn layouts() -> Vec<Row> {
    layouts! {
        turn_address { ip, port, family }
        turn_settings {
            size, local, server, transport, peers, families, integrity, anonymous, sends,
            first_wait, most_wait, last_wait, compatible, max_connection_attempts,
            ignore_short_lifetimes, lifetime, pace, port, reservation, attempt_indications
        }
        turn_seed { bytes }
        turn_transmit { size, transport, from, to }
        turn_payload { start, size, transport, peer, is_joined, icmp_type, icmp_code, icmp_data }
        turn_wait { until, id, transport, from, to, peer }
        turn_event { kind, transport, address }
        turn_cause { kind, code, is_signed, reason_size, alternate, domain_size }
        turn_relayed { transport, address }
        turn_channel { number, peer }
        turn_connection { local, peer, id, is_bound }
        turn_client { private_client, private_is_open }
    }
}

fn numbers() -> Vec<Row> {
    numbers! {
        TURN_OK TURN_NOTHING TURN_IGNORED TURN_PAYLOAD TURN_ICMP TURN_CLOSED
        TURN_OPEN_SOCKET TURN_CLOSE_SOCKET TURN_BAD_SETTING TURN_LONG_NAME TURN_UNREAD
        TURN_NO_ALLOCATION TURN_ALREADY_EXISTS TURN_NO_PERMISSION TURN_NO_CHANNEL
        TURN_EXPIRED_CHANNEL TURN_NO_SOCKET TURN_TOO_LARGE TURN_NO_MEMORY TURN_ZERO_SEED
        TURN_BAD_ADDRESSES TURN_NAME_MAX TURN_SOFTWARE_MAX TURN_MESSAGE_MAX TURN_SEND_EXTRA
        TURN_PAYLOAD_MAX TURN_PERMIT_MAX TURN_MOMENT_MAX TURN_TCP TURN_UDP TURN_IPV4 TURN_IPV6 TURN_SHA1 TURN_SHA256
        TURN_SHA512 TURN_ANONYMOUS_AUTO TURN_ANONYMOUS_REQUIRED TURN_ANONYMOUS_DISABLED
        TURN_ALLOCATION_CREATED TURN_ALLOCATION_FAILED TURN_PERMISSION_CREATED
        TURN_PERMISSION_FAILED TURN_CHANNEL_CREATED TURN_CHANNEL_FAILED TURN_TCP_CONNECTED
        TURN_TCP_FAILED TURN_CAUSE_NONE TURN_REJECTED TURN_UNANSWERED TURN_INTEGRITY
        TURN_NO_ALGORITHM TURN_OTHER_FAMILY TURN_CAUSE_MEMORY TURN_DELETED TURN_EXPIRED
        TURN_SOCKET_CLOSED TURN_UNUSABLE TURN_NO_CLIENT TURN_ALREADY_OPEN TURN_BAD_FAMILY
        TURN_BAD_TEXT TURN_SMALL_BUFFER TURN_BAD_LENGTH TURN_CLIENT_VERSION_NUMBER
    }
}

/// Compiles a C program in a folder of its own, and runs it: what it printed.
fn printed_by(name: &str, program: &str) -> String {
    let folder = std::env::temp_dir().join(format!("turn-client-{name}-{}", std::process::id()));
    std::fs::create_dir_all(&folder).unwrap();
    let (source, built): (PathBuf, PathBuf) = (folder.join("probe.c"), folder.join("probe"));
    std::fs::write(&source, program).unwrap();
    let compiler = std::env::var("CC").unwrap_or_else(|_| "cc".to_string());
    let compiled = Command::new(compiler)
        .args(["-std=c11", "-Wall", "-Wextra", "-Werror"])
        .arg(concat!("-I", env!("TURN_CLIENT_FOLDER")))
        .arg("-o")
        .args([&built, &source])
        .status();
    assert!(compiled.unwrap().success());
    let output = Command::new(&built).output().unwrap();
    std::fs::remove_dir_all(&folder).unwrap();
    String::from_utf8(output.stdout).unwrap()
}

/// Holds each value against what C makes of its expression.
fn agree(name: &str, rows: &[Row]) {
    let mut program =
        "#include <stdio.h>\n#include \"turn_client.h\"\nint main(void)\n{\n".to_string();
    for (expression, _) in rows {
        program += &format!("    printf(\"{expression} %lld\\n\", (long long)({expression}));\n");
    }
    program += "    return 0;\n}\n";
    let want: String = rows
        .iter()
        .map(|(it, value)| format!("{it} {value}\n"))
        .collect();
    assert_eq!(printed_by(name, &program), want);
}

#[test]
fn structs_lie_as_in_c() {
    agree("layouts", &layouts());
}

#[test]
fn numbers_are_those_of_the_header() {
    agree("numbers", &numbers());
}
