// SPDX-License-Identifier: MIT
//! The structs and constants of `nvmearb::sys`, against the C compiler's reading of `nvmearb.h`.
use nvmearb::sys::*;
use std::collections::BTreeSet;
use std::fmt::Write;
use std::mem::{align_of, offset_of, size_of};
use std::process::Command;

const HEADER: &str = concat!(env!("CARGO_MANIFEST_DIR"), "/../nvmearb.h");

fn size_of_field<T, F>(_: fn(&T) -> &F) -> usize {
    size_of::<F>()
}

/// A struct: its name, its type in C, and its fields; and beside it what this crate says of it.
type Told = (&'static str, &'static str, &'static [&'static str], String);

// The structs of the header. Where a struct has no name there, its type is given.
macro_rules! structs {
    ($($name:ident $(= $type:literal)? { $($field:ident),* })*) => {
        fn structs() -> Vec<Told> {
            vec![$({
                let mut says = format!("{} {} {}\n", stringify!($name), size_of::<$name>(), align_of::<$name>());
                $(writeln!(says, "{}.{} {} {}", stringify!($name), stringify!($field), offset_of!($name, $field),
                    size_of_field(|it: &$name| &it.$field)).unwrap();)*
                let c = [stringify!($name) $(, $type)?].last().copied().unwrap();
                (stringify!($name), c, &[$(stringify!($field)),*][..], says)
            }),*]
        }
    };
}

structs! {
    nvmearb_sqe { opcode, flags, cid, nsid, cdw2, cdw3, mptr, prp1, prp2, cdw10, cdw11, cdw12, cdw13, cdw14, cdw15 }
    nvmearb_status { sct, sc }
    nvmearb_cqe { dw0, sqhd, sqid, cid, phase, status }
    nvmearb_admin { kind, cdw11, prp1, qid, qsize, cqid, qprio, pc, fid, sv, cid }
    nvmearb_settings { cdw11, burst, high, medium, low }
    nvmearb_arbiter { mechanism, cdw11, last, used }
    nvmearb_seen { qid, priority, count }
    nvmearb_pick { qid, n, fresh }
    nvmearb_board { mark, queues, arbiter }
    nvmearb_board_queues = "__typeof__(((nvmearb_board *)0)->queues)" { ready, places }
    nvmearb_board_place = "__typeof__(((nvmearb_board *)0)->queues.places[0])" { priority, count }
    nvmearb_region { address, slots }
    nvmearb_table { mark, sq_regions, cq_regions, cdw11, nsq, ncq, sqs, cqs, sq_used, cq_used, numbers_set, created }
    nvmearb_table_regions = "__typeof__(((nvmearb_table *)0)->cq_regions)" { places, count }
    nvmearb_table_sq_place = "__typeof__(((nvmearb_table *)0)->sqs[0])" { priority, cqid, region, closing }
    nvmearb_table_cq_place = "__typeof__(((nvmearb_table *)0)->cqs[0])" { open, region }
    nvmearb_answer { verdict, dw0, cdw11, qid, region, cqid, priority, status, cid }
    nvmearb_queue { region, cqid, priority, closing }
    nvmearb_slot { words }
    nvmearb_ctrl { mark, count, words }
    nvmearb_config { asq, acq, mechanism, cdw11, nsq, ncq, depth, admin_depth }
    nvmearb_step { kind, answer, pick }
    nvmearb_command { entry, cookie, tag }
    nvmearb_post { bytes, cookie, tag, slot }
}

// The constants, with their values in this crate.
macro_rules! constants {
    ($($name:ident)*) => {
        const CONSTANTS: &[(&str, u64)] = &[$((stringify!($name), $name as u64)),*];
    };
}

constants! {
    NVMEARB_VERSION_MAJOR NVMEARB_VERSION_MINOR NVMEARB_VERSION_PATCH NVMEARB_VERSION NVMEARB_UNPROVED
    NVMEARB_STATE_ARBITER NVMEARB_STATE_BOARD NVMEARB_STATE_TABLE NVMEARB_STATE_CTRL NVMEARB_STATE_SLOT
    NVMEARB_OK NVMEARB_NONE NVMEARB_EARG NVMEARB_ESTATE NVMEARB_EUSED NVMEARB_EMANY NVMEARB_ESIZE
    NVMEARB_BUSY NVMEARB_NOROOM NVMEARB_ESLOT
    NVMEARB_SQE_BYTES NVMEARB_CQE_BYTES NVMEARB_MAX_NAMESPACES
    NVMEARB_OPC_FLUSH NVMEARB_OPC_WRITE NVMEARB_OPC_READ
    NVMEARB_OPC_DELETE_SQ NVMEARB_OPC_CREATE_SQ NVMEARB_OPC_DELETE_CQ NVMEARB_OPC_CREATE_CQ NVMEARB_OPC_ABORT
    NVMEARB_OPC_SET_FEATURES NVMEARB_OPC_GET_FEATURES
    NVMEARB_FID_ARBITRATION NVMEARB_FID_NUMBER_OF_QUEUES
    NVMEARB_SCT_GENERIC NVMEARB_SCT_COMMAND_SPECIFIC NVMEARB_SCT_MEDIA
    NVMEARB_SC_SUCCESS NVMEARB_SC_INVALID_OPCODE NVMEARB_SC_INVALID_FIELD NVMEARB_SC_DATA_TRANSFER_ERROR
    NVMEARB_SC_INTERNAL_ERROR NVMEARB_SC_ABORT_REQUESTED NVMEARB_SC_ABORTED_BY_DELETION NVMEARB_SC_INVALID_NAMESPACE
    NVMEARB_SC_SEQUENCE_ERROR NVMEARB_SC_PRP_OFFSET_INVALID NVMEARB_SC_LBA_OUT_OF_RANGE NVMEARB_SC_CAPACITY_EXCEEDED
    NVMEARB_SC_NAMESPACE_NOT_READY
    NVMEARB_SC_COMPLETION_QUEUE_INVALID NVMEARB_SC_INVALID_QUEUE_IDENTIFIER NVMEARB_SC_INVALID_QUEUE_SIZE
    NVMEARB_SC_INVALID_INTERRUPT_VECTOR NVMEARB_SC_INVALID_QUEUE_DELETION NVMEARB_SC_FEATURE_NOT_SAVEABLE
    NVMEARB_SC_WRITE_FAULT NVMEARB_SC_UNRECOVERED_READ_ERROR
    NVMEARB_ADMIN_OTHER NVMEARB_ADMIN_DELETE_SQ NVMEARB_ADMIN_CREATE_SQ NVMEARB_ADMIN_DELETE_CQ NVMEARB_ADMIN_CREATE_CQ
    NVMEARB_ADMIN_SET_FEATURES NVMEARB_ADMIN_GET_FEATURES NVMEARB_ADMIN_ABORT
    NVMEARB_ROUND_ROBIN NVMEARB_WEIGHTED
    NVMEARB_ADMIN NVMEARB_URGENT NVMEARB_HIGH NVMEARB_MEDIUM NVMEARB_LOW
    NVMEARB_MAX_QUEUES NVMEARB_MAX_COUNT NVMEARB_NO_LIMIT NVMEARB_MAX_REGIONS NVMEARB_MAX_IO_QUEUES NVMEARB_MAX_SLOTS
    NVMEARB_MAX_DEPTH
    NVMEARB_DONE NVMEARB_OPEN_SQ NVMEARB_OPEN_CQ NVMEARB_BEGIN_DELETE NVMEARB_CLOSE_CQ NVMEARB_SET_ARBITRATION
    NVMEARB_ABORT
    NVMEARB_PICKED NVMEARB_CARRIED_OUT NVMEARB_PASSED NVMEARB_DNR NVMEARB_MORE
}

/// What a C program over the header prints, whose `main` has these statements.
fn printed(name: &str, statements: &str) -> String {
    let file = format!("{}/{name}", env!("CARGO_TARGET_TMPDIR"));
    let source = format!("#include \"{HEADER}\"\n#include <stdio.h>\nint main(void)\n{{\n{statements}return 0;\n}}\n");
    std::fs::write(format!("{file}.c"), source).unwrap();
    let compiler = std::env::var("CC").unwrap_or_else(|_| "cc".into());
    let built = Command::new(compiler).args(["-o", &file, &format!("{file}.c")]).status();
    assert!(built.unwrap().success(), "{file}.c doesn't compile");
    String::from_utf8(Command::new(&file).output().unwrap().stdout).unwrap()
}

#[test]
fn structs_are_those_of_the_header() {
    let mut statements = String::new();
    let mut says = String::new();
    for (name, c, fields, told) in structs() {
        writeln!(statements, "printf(\"{name} %zu %zu\\n\", sizeof({c}), _Alignof({c}));").unwrap();
        for field in fields {
            let size = format!("sizeof((({c} *)0)->{field})");
            writeln!(statements, "printf(\"{name}.{field} %zu %zu\\n\", offsetof({c}, {field}), {size});").unwrap();
        }
        says += &told;
    }
    assert_eq!(says, printed("structs", &statements));
}

#[test]
fn constants_are_those_of_the_header() {
    let header = std::fs::read_to_string(HEADER).unwrap();
    let defined: BTreeSet<&str> = header
        .lines()
        .filter_map(|line| line.strip_prefix("#define "))
        .filter_map(|line| line.split_once(' ').map(|(name, _)| name))
        .filter(|name| !name.contains('(')) // (Tag::slot is that macro)
        .collect();
    assert_eq!(CONSTANTS.iter().map(|(name, _)| *name).collect::<BTreeSet<_>>(), defined);
    let statements: String = CONSTANTS
        .iter()
        .map(|(name, _)| format!("printf(\"{name} %llu\\n\", (unsigned long long)({name}));\n"))
        .collect();
    let says: String = CONSTANTS.iter().map(|(name, value)| format!("{name} {value}\n")).collect();
    assert_eq!(says, printed("constants", &statements));
}
