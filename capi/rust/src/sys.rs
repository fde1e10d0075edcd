// SPDX-License-Identifier: MIT
//! The functions, structs and constants of `nvmearb.h`, by their names there.
//!
//! Their comments are those of the header. Who calls these functions keeps the rules of its first comment: pointers
//! aren't null, are aligned, point to as many objects as the function's comment says, and what they point to is
//! accessed by nothing else during the call.
#![allow(non_camel_case_types, missing_docs)]

use core::mem::{size_of, zeroed};

pub const NVMEARB_VERSION_MAJOR: u32 = 0;
pub const NVMEARB_VERSION_MINOR: u32 = 2;
pub const NVMEARB_VERSION_PATCH: u32 = 0;
pub const NVMEARB_VERSION: u32 =
    NVMEARB_VERSION_MAJOR * 0x10000 + NVMEARB_VERSION_MINOR * 0x100 + NVMEARB_VERSION_PATCH;
pub const NVMEARB_UNPROVED: u32 = 0x8000_0000;

pub const NVMEARB_STATE_ARBITER: u32 = 1;
pub const NVMEARB_STATE_BOARD: u32 = 2;
pub const NVMEARB_STATE_TABLE: u32 = 3;
pub const NVMEARB_STATE_CTRL: u32 = 4;
pub const NVMEARB_STATE_SLOT: u32 = 5;

pub const NVMEARB_OK: u32 = 0;
pub const NVMEARB_NONE: u32 = 1;
pub const NVMEARB_EARG: u32 = 2;
pub const NVMEARB_ESTATE: u32 = 3;
pub const NVMEARB_EUSED: u32 = 4;
pub const NVMEARB_EMANY: u32 = 5;
pub const NVMEARB_ESIZE: u32 = 6;
pub const NVMEARB_BUSY: u32 = 7;
pub const NVMEARB_NOROOM: u32 = 8;
pub const NVMEARB_ESLOT: u32 = 9;

pub const NVMEARB_SQE_BYTES: usize = 64;
pub const NVMEARB_CQE_BYTES: usize = 16;
pub const NVMEARB_MAX_NAMESPACES: usize = 16;

pub const NVMEARB_OPC_FLUSH: u8 = 0x00;
pub const NVMEARB_OPC_WRITE: u8 = 0x01;
pub const NVMEARB_OPC_READ: u8 = 0x02;
pub const NVMEARB_OPC_DELETE_SQ: u8 = 0x00;
pub const NVMEARB_OPC_CREATE_SQ: u8 = 0x01;
pub const NVMEARB_OPC_DELETE_CQ: u8 = 0x04;
pub const NVMEARB_OPC_CREATE_CQ: u8 = 0x05;
pub const NVMEARB_OPC_ABORT: u8 = 0x08;
pub const NVMEARB_OPC_SET_FEATURES: u8 = 0x09;
pub const NVMEARB_OPC_GET_FEATURES: u8 = 0x0a;

pub const NVMEARB_FID_ARBITRATION: u8 = 0x01;
pub const NVMEARB_FID_NUMBER_OF_QUEUES: u8 = 0x07;

#[repr(C)]
#[derive(Clone, Copy, Debug, Default, PartialEq, Eq)]
pub struct nvmearb_sqe {
    pub opcode: u8,
    pub flags: u8,
    pub cid: u16,
    pub nsid: u32,
    pub cdw2: u32,
    pub cdw3: u32,
    pub mptr: u64,
    pub prp1: u64,
    pub prp2: u64,
    pub cdw10: u32,
    pub cdw11: u32,
    pub cdw12: u32,
    pub cdw13: u32,
    pub cdw14: u32,
    pub cdw15: u32,
}

#[repr(C)]
#[derive(Clone, Copy, Debug, Default, PartialEq, Eq)]
pub struct nvmearb_status {
    pub sct: u8,
    pub sc: u8,
}

pub const NVMEARB_SCT_GENERIC: u8 = 0;
pub const NVMEARB_SCT_COMMAND_SPECIFIC: u8 = 1;
pub const NVMEARB_SCT_MEDIA: u8 = 2;

pub const NVMEARB_SC_SUCCESS: u8 = 0x00;
pub const NVMEARB_SC_INVALID_OPCODE: u8 = 0x01;
pub const NVMEARB_SC_INVALID_FIELD: u8 = 0x02;
pub const NVMEARB_SC_DATA_TRANSFER_ERROR: u8 = 0x04;
pub const NVMEARB_SC_INTERNAL_ERROR: u8 = 0x06;
pub const NVMEARB_SC_ABORT_REQUESTED: u8 = 0x07;
pub const NVMEARB_SC_ABORTED_BY_DELETION: u8 = 0x08;
pub const NVMEARB_SC_INVALID_NAMESPACE: u8 = 0x0b;
pub const NVMEARB_SC_SEQUENCE_ERROR: u8 = 0x0c;
pub const NVMEARB_SC_PRP_OFFSET_INVALID: u8 = 0x13;
pub const NVMEARB_SC_LBA_OUT_OF_RANGE: u8 = 0x80;
pub const NVMEARB_SC_CAPACITY_EXCEEDED: u8 = 0x81;
pub const NVMEARB_SC_NAMESPACE_NOT_READY: u8 = 0x82;

pub const NVMEARB_SC_COMPLETION_QUEUE_INVALID: u8 = 0x00;
pub const NVMEARB_SC_INVALID_QUEUE_IDENTIFIER: u8 = 0x01;
pub const NVMEARB_SC_INVALID_QUEUE_SIZE: u8 = 0x02;
pub const NVMEARB_SC_INVALID_INTERRUPT_VECTOR: u8 = 0x08;
pub const NVMEARB_SC_INVALID_QUEUE_DELETION: u8 = 0x0c;
pub const NVMEARB_SC_FEATURE_NOT_SAVEABLE: u8 = 0x0d;

pub const NVMEARB_SC_WRITE_FAULT: u8 = 0x80;
pub const NVMEARB_SC_UNRECOVERED_READ_ERROR: u8 = 0x81;

#[repr(C)]
#[derive(Clone, Copy, Debug, Default, PartialEq, Eq)]
pub struct nvmearb_cqe {
    pub dw0: u32,
    pub sqhd: u16,
    pub sqid: u16,
    pub cid: u16,
    pub phase: u8,
    pub status: nvmearb_status,
}

pub const NVMEARB_ADMIN_OTHER: u32 = 0;
pub const NVMEARB_ADMIN_DELETE_SQ: u32 = 1;
pub const NVMEARB_ADMIN_CREATE_SQ: u32 = 2;
pub const NVMEARB_ADMIN_DELETE_CQ: u32 = 3;
pub const NVMEARB_ADMIN_CREATE_CQ: u32 = 4;
pub const NVMEARB_ADMIN_SET_FEATURES: u32 = 5;
pub const NVMEARB_ADMIN_GET_FEATURES: u32 = 6;
pub const NVMEARB_ADMIN_ABORT: u32 = 7;

#[repr(C)]
#[derive(Clone, Copy, Debug, Default, PartialEq, Eq)]
pub struct nvmearb_admin {
    pub kind: u32,
    pub cdw11: u32,
    pub prp1: u64,
    pub qid: u16,
    pub qsize: u16,
    pub cqid: u16,
    pub qprio: u8,
    pub pc: u8,
    pub fid: u8,
    pub sv: u8,
    pub cid: u16,
}

#[repr(C)]
#[derive(Clone, Copy, Debug, Default, PartialEq, Eq)]
pub struct nvmearb_settings {
    pub cdw11: u32,
    pub burst: u16,
    pub high: u16,
    pub medium: u16,
    pub low: u16,
}

pub const NVMEARB_ROUND_ROBIN: u32 = 1;
pub const NVMEARB_WEIGHTED: u32 = 2;

pub const NVMEARB_ADMIN: u16 = 0;
pub const NVMEARB_URGENT: u16 = 1;
pub const NVMEARB_HIGH: u16 = 2;
pub const NVMEARB_MEDIUM: u16 = 3;
pub const NVMEARB_LOW: u16 = 4;

pub const NVMEARB_MAX_QUEUES: usize = 65;
pub const NVMEARB_MAX_COUNT: u16 = 256;
pub const NVMEARB_NO_LIMIT: u16 = 65535;

#[repr(C)]
#[derive(Clone, Copy, Debug, Default)]
pub struct nvmearb_arbiter {
    pub mechanism: u32,
    pub cdw11: u32,
    pub last: [u32; 6],
    pub used: [u16; 3],
}

#[repr(C)]
#[derive(Clone, Copy, Debug, Default, PartialEq, Eq)]
pub struct nvmearb_seen {
    pub qid: u16,
    pub priority: u16,
    pub count: u16,
}

#[repr(C)]
#[derive(Clone, Copy, Debug, Default, PartialEq, Eq)]
pub struct nvmearb_pick {
    pub qid: u16,
    pub n: u16,
    pub fresh: u16,
}

#[repr(C)]
#[derive(Clone, Copy, Debug)]
pub struct nvmearb_board {
    pub mark: u64,
    pub queues: nvmearb_board_queues,
    pub arbiter: nvmearb_arbiter,
}

/// `queues` of an `nvmearb_board`.
#[repr(C)]
#[derive(Clone, Copy, Debug)]
pub struct nvmearb_board_queues {
    pub ready: [u64; 4],
    pub places: [nvmearb_board_place; NVMEARB_MAX_QUEUES],
}

/// One of `queues.places` of an `nvmearb_board`.
#[repr(C)]
#[derive(Clone, Copy, Debug, Default)]
pub struct nvmearb_board_place {
    pub priority: u16,
    pub count: u16,
}

pub const NVMEARB_MAX_REGIONS: usize = 65;
pub const NVMEARB_MAX_IO_QUEUES: u16 = 64;

#[repr(C)]
#[derive(Clone, Copy, Debug, Default, PartialEq, Eq)]
pub struct nvmearb_region {
    pub address: u64,
    pub slots: u16,
}

#[repr(C)]
#[derive(Clone, Copy, Debug)]
pub struct nvmearb_table {
    pub mark: u64,
    pub sq_regions: nvmearb_table_regions,
    pub cq_regions: nvmearb_table_regions,
    pub cdw11: u32,
    pub nsq: u16,
    pub ncq: u16,
    pub sqs: [nvmearb_table_sq_place; NVMEARB_MAX_REGIONS],
    pub cqs: [nvmearb_table_cq_place; NVMEARB_MAX_REGIONS],
    pub sq_used: [u8; NVMEARB_MAX_REGIONS],
    pub cq_used: [u8; NVMEARB_MAX_REGIONS],
    pub numbers_set: u8,
    pub created: u8,
}

/// `sq_regions` and `cq_regions` of an `nvmearb_table`.
#[repr(C)]
#[derive(Clone, Copy, Debug)]
pub struct nvmearb_table_regions {
    pub places: [nvmearb_region; NVMEARB_MAX_REGIONS],
    pub count: u8,
}

/// One of `sqs` of an `nvmearb_table`.
#[repr(C)]
#[derive(Clone, Copy, Debug, Default)]
pub struct nvmearb_table_sq_place {
    pub priority: u16,
    pub cqid: u16,
    pub region: u8,
    pub closing: u8,
}

/// One of `cqs` of an `nvmearb_table`.
#[repr(C)]
#[derive(Clone, Copy, Debug, Default)]
pub struct nvmearb_table_cq_place {
    pub open: u8,
    pub region: u8,
}

pub const NVMEARB_DONE: u32 = 0;
pub const NVMEARB_OPEN_SQ: u32 = 1;
pub const NVMEARB_OPEN_CQ: u32 = 2;
pub const NVMEARB_BEGIN_DELETE: u32 = 3;
pub const NVMEARB_CLOSE_CQ: u32 = 4;
pub const NVMEARB_SET_ARBITRATION: u32 = 5;
pub const NVMEARB_ABORT: u32 = 6;

#[repr(C)]
#[derive(Clone, Copy, Debug, Default, PartialEq, Eq)]
pub struct nvmearb_answer {
    pub verdict: u32,
    pub dw0: u32,
    pub cdw11: u32,
    pub qid: u16,
    pub region: u16,
    pub cqid: u16,
    pub priority: u16,
    pub status: nvmearb_status,
    pub cid: u16,
}

#[repr(C)]
#[derive(Clone, Copy, Debug, Default, PartialEq, Eq)]
pub struct nvmearb_queue {
    pub region: u16,
    pub cqid: u16,
    pub priority: u16,
    pub closing: u16,
}

#[repr(C)]
#[derive(Clone, Copy, Debug, Default)]
pub struct nvmearb_slot {
    pub words: [u64; 11],
}

pub const NVMEARB_MAX_SLOTS: usize = 65535;
pub const NVMEARB_MAX_DEPTH: u16 = 4095;

#[repr(C)]
#[derive(Clone, Copy, Debug)]
pub struct nvmearb_ctrl {
    pub mark: u64,
    pub count: usize,
    pub words: [u64; 750],
}

#[repr(C)]
#[derive(Clone, Copy, Debug, Default, PartialEq, Eq)]
pub struct nvmearb_config {
    pub asq: nvmearb_region,
    pub acq: nvmearb_region,
    pub mechanism: u32,
    pub cdw11: u32,
    pub nsq: u16,
    pub ncq: u16,
    pub depth: u16,
    pub admin_depth: u16,
}

#[repr(C)]
#[derive(Clone, Copy, Debug, Default, PartialEq, Eq)]
pub struct nvmearb_placement {
    pub page: u32,
    pub mqes: u16,
    pub vectors: u16,
}

#[repr(C)]
#[derive(Clone, Copy, Debug, Default, PartialEq, Eq)]
pub struct nvmearb_asked {
    pub address: u64,
    pub qsize: u16,
    pub vector: u16,
    pub interrupts: u16,
}

pub const NVMEARB_PICKED: u32 = 1;
pub const NVMEARB_CARRIED_OUT: u32 = 2;
pub const NVMEARB_PASSED: u32 = 3;

pub const NVMEARB_DNR: u8 = 1;
pub const NVMEARB_MORE: u8 = 2;

#[repr(C)]
#[derive(Clone, Copy, Debug, Default, PartialEq, Eq)]
pub struct nvmearb_step {
    pub kind: u32,
    pub answer: nvmearb_answer,
    pub pick: nvmearb_pick,
    pub asked: nvmearb_asked,
}

#[repr(C)]
#[derive(Clone, Copy, Debug, Default, PartialEq, Eq)]
pub struct nvmearb_command {
    pub entry: nvmearb_sqe,
    pub cookie: u32,
    pub tag: u32,
}

#[repr(C)]
#[derive(Clone, Copy, Debug, Default, PartialEq, Eq)]
pub struct nvmearb_post {
    pub bytes: [u8; NVMEARB_CQE_BYTES],
    pub cookie: u32,
    pub tag: u32,
    pub slot: u16,
}

// A state before its `init`, which no call takes for a valid one.
macro_rules! zeros_by_default {
    ($($state:ty),*) => {$(
        impl Default for $state {
            fn default() -> Self {
                // SAFETY: its fields are numbers, and 0 is one.
                unsafe { zeroed() }
            }
        }
    )*};
}
zeros_by_default!(nvmearb_board, nvmearb_table, nvmearb_ctrl);

// The sizes are those that the library has.
const _: () = {
    assert!(size_of::<nvmearb_sqe>() == 64);
    assert!(size_of::<nvmearb_status>() == 2);
    assert!(size_of::<nvmearb_cqe>() == 16);
    assert!(size_of::<nvmearb_admin>() == 32);
    assert!(size_of::<nvmearb_settings>() == 12);
    assert!(size_of::<nvmearb_arbiter>() == 40);
    assert!(size_of::<nvmearb_seen>() == 6);
    assert!(size_of::<nvmearb_pick>() == 6);
    assert!(size_of::<nvmearb_board>() == 344);
    assert!(size_of::<nvmearb_region>() == 16);
    assert!(size_of::<nvmearb_table>() == 2768);
    assert!(size_of::<nvmearb_answer>() == 24);
    assert!(size_of::<nvmearb_queue>() == 8);
    assert!(size_of::<nvmearb_slot>() == 88);
    assert!(size_of::<nvmearb_ctrl>() == 6016);
    assert!(size_of::<nvmearb_config>() == 48);
    assert!(size_of::<nvmearb_placement>() == 8);
    assert!(size_of::<nvmearb_asked>() == 16);
    assert!(size_of::<nvmearb_step>() == 56);
    assert!(size_of::<nvmearb_command>() == 72);
    assert!(size_of::<nvmearb_post>() == 28);
};

type SqeBytes = [u8; NVMEARB_SQE_BYTES];
type CqeBytes = [u8; NVMEARB_CQE_BYTES];

#[rustfmt::skip]
extern "C" {
    pub fn nvmearb_version() -> u32;
    pub fn nvmearb_size(state: u32) -> u32;

    pub fn nvmearb_sqe_decode(bytes: *const SqeBytes, fields: *mut nvmearb_sqe);
    pub fn nvmearb_sqe_encode(fields: *const nvmearb_sqe, bytes: *mut SqeBytes);
    pub fn nvmearb_cqe_decode(bytes: *const CqeBytes, fields: *mut nvmearb_cqe) -> u32;
    pub fn nvmearb_cqe_decode_with(bytes: *const CqeBytes, fields: *mut nvmearb_cqe, flags: *mut u8) -> u32;
    pub fn nvmearb_cqe_encode(fields: *const nvmearb_cqe, bytes: *mut CqeBytes) -> u32;
    pub fn nvmearb_outcome(entry: *const nvmearb_sqe, sizes: *const u64, count: usize, status: *mut nvmearb_status) -> u32;
    pub fn nvmearb_check(entry: *const nvmearb_sqe, sizes: *const u64, count: usize, status: *mut nvmearb_status);
    pub fn nvmearb_range(entry: *const nvmearb_sqe, sizes: *const u64, count: usize, status: *mut nvmearb_status);
    pub fn nvmearb_admin_of(entry: *const nvmearb_sqe, command: *mut nvmearb_admin);
    pub fn nvmearb_settings_of(cdw11: u32, settings: *mut nvmearb_settings);

    pub fn nvmearb_arbiter_init(arbiter: *mut nvmearb_arbiter, mechanism: u32, cdw11: u32) -> u32;
    pub fn nvmearb_arbiter_set(arbiter: *mut nvmearb_arbiter, cdw11: u32) -> u32;
    pub fn nvmearb_arbiter_peek(arbiter: *const nvmearb_arbiter, seen: *const nvmearb_seen, count: usize, pick: *mut nvmearb_pick) -> u32;
    pub fn nvmearb_arbiter_pick(arbiter: *mut nvmearb_arbiter, seen: *const nvmearb_seen, count: usize, pick: *mut nvmearb_pick) -> u32;
    pub fn nvmearb_arbiter_pick_up_to(arbiter: *mut nvmearb_arbiter, seen: *const nvmearb_seen, count: usize, limit: u16, pick: *mut nvmearb_pick) -> u32;

    pub fn nvmearb_board_init(board: *mut nvmearb_board, mechanism: u32, cdw11: u32) -> u32;
    pub fn nvmearb_board_open(board: *mut nvmearb_board, qid: u16, priority: u16) -> u32;
    pub fn nvmearb_board_close(board: *mut nvmearb_board, qid: u16) -> u32;
    pub fn nvmearb_board_came(board: *mut nvmearb_board, qid: u16) -> u32;
    pub fn nvmearb_board_came_n(board: *mut nvmearb_board, qid: u16, n: u16) -> u32;
    pub fn nvmearb_board_went(board: *mut nvmearb_board, qid: u16) -> u32;
    pub fn nvmearb_board_peek(board: *const nvmearb_board, pick: *mut nvmearb_pick) -> u32;
    pub fn nvmearb_board_pick(board: *mut nvmearb_board, pick: *mut nvmearb_pick) -> u32;
    pub fn nvmearb_board_pick_up_to(board: *mut nvmearb_board, limit: u16, pick: *mut nvmearb_pick) -> u32;
    pub fn nvmearb_board_set(board: *mut nvmearb_board, cdw11: u32) -> u32;

    pub fn nvmearb_table_init(table: *mut nvmearb_table, nsq: u16, ncq: u16, cdw11: u32) -> u32;
    pub fn nvmearb_table_add_sq_region(table: *mut nvmearb_table, address: u64, slots: u16, number: *mut u16) -> u32;
    pub fn nvmearb_table_add_cq_region(table: *mut nvmearb_table, address: u64, slots: u16, number: *mut u16) -> u32;
    pub fn nvmearb_table_apply(table: *mut nvmearb_table, bytes: *const SqeBytes, answer: *mut nvmearb_answer) -> u32;
    pub fn nvmearb_table_finish_delete(table: *mut nvmearb_table, qid: u16) -> u32;
    pub fn nvmearb_table_sq(table: *const nvmearb_table, qid: u16, queue: *mut nvmearb_queue) -> u32;
    pub fn nvmearb_table_cq(table: *const nvmearb_table, qid: u16, region: *mut u16) -> u32;
    pub fn nvmearb_table_allotted(table: *const nvmearb_table, nsq: *mut u16, ncq: *mut u16) -> u32;
    pub fn nvmearb_table_settings(table: *const nvmearb_table, settings: *mut nvmearb_settings) -> u32;

    pub fn nvmearb_ctrl_init(ctrl: *mut nvmearb_ctrl, slots: *mut nvmearb_slot, count: usize, config: *const nvmearb_config) -> u32;
    pub fn nvmearb_ctrl_init_anywhere(ctrl: *mut nvmearb_ctrl, slots: *mut nvmearb_slot, count: usize, config: *const nvmearb_config, placement: *const nvmearb_placement) -> u32;
    pub fn nvmearb_ctrl_add_sq_region(ctrl: *mut nvmearb_ctrl, address: u64, slots: u16, number: *mut u16) -> u32;
    pub fn nvmearb_ctrl_add_cq_region(ctrl: *mut nvmearb_ctrl, address: u64, slots: u16, number: *mut u16) -> u32;
    pub fn nvmearb_ctrl_own_opcode(ctrl: *mut nvmearb_ctrl, opcode: u8) -> u32;
    pub fn nvmearb_ctrl_own_feature(ctrl: *mut nvmearb_ctrl, fid: u8) -> u32;
    pub fn nvmearb_ctrl_set_depth(ctrl: *mut nvmearb_ctrl, qid: u16, depth: u16) -> u32;
    pub fn nvmearb_ctrl_hold(ctrl: *mut nvmearb_ctrl, qid: u16, on: u8) -> u32;
    pub fn nvmearb_ctrl_set_class(ctrl: *mut nvmearb_ctrl, qid: u16, priority: u16) -> u32;
    pub fn nvmearb_ctrl_sq_tail(ctrl: *mut nvmearb_ctrl, qid: u16, tail: u16) -> u32;
    pub fn nvmearb_ctrl_cq_head(ctrl: *mut nvmearb_ctrl, cqid: u16, head: u16) -> u32;
    pub fn nvmearb_ctrl_fetch(ctrl: *const nvmearb_ctrl, qid: u16, slot: *mut u16) -> u32;
    pub fn nvmearb_ctrl_next_fetch(ctrl: *const nvmearb_ctrl, qid: *mut u16, slot: *mut u16) -> u32;
    pub fn nvmearb_ctrl_fetched(ctrl: *mut nvmearb_ctrl, slots: *mut nvmearb_slot, count: usize, qid: u16, bytes: *const SqeBytes, cookie: u32) -> u32;
    pub fn nvmearb_ctrl_fetched_at(ctrl: *mut nvmearb_ctrl, slots: *mut nvmearb_slot, count: usize, qid: u16, slot: u16, bytes: *const SqeBytes, cookie: u32) -> u32;
    pub fn nvmearb_ctrl_fetched_n(ctrl: *mut nvmearb_ctrl, slots: *mut nvmearb_slot, count: usize, qid: u16, entries: *const u8, bytes: usize, cookies: *const u32, cookie_count: usize, n: *mut usize) -> u32;
    pub fn nvmearb_ctrl_fetched_n_at(ctrl: *mut nvmearb_ctrl, slots: *mut nvmearb_slot, count: usize, qid: u16, slot: u16, entries: *const u8, bytes: usize, cookies: *const u32, cookie_count: usize, n: *mut usize) -> u32;
    pub fn nvmearb_ctrl_peek(ctrl: *const nvmearb_ctrl, slots: *const nvmearb_slot, count: usize, pick: *mut nvmearb_pick) -> u32;
    pub fn nvmearb_ctrl_pick(ctrl: *mut nvmearb_ctrl, slots: *mut nvmearb_slot, count: usize, room: u16, step: *mut nvmearb_step) -> u32;
    pub fn nvmearb_ctrl_take(ctrl: *mut nvmearb_ctrl, slots: *mut nvmearb_slot, count: usize, command: *mut nvmearb_command) -> u32;
    pub fn nvmearb_ctrl_take_n(ctrl: *mut nvmearb_ctrl, slots: *mut nvmearb_slot, count: usize, commands: *mut nvmearb_command, room: usize, n: *mut usize) -> u32;
    pub fn nvmearb_ctrl_complete(ctrl: *mut nvmearb_ctrl, slots: *mut nvmearb_slot, count: usize, tag: u32, status: *const nvmearb_status, dw0: u32) -> u32;
    pub fn nvmearb_ctrl_complete_with(ctrl: *mut nvmearb_ctrl, slots: *mut nvmearb_slot, count: usize, tag: u32, status: *const nvmearb_status, dw0: u32, flags: u8) -> u32;
    pub fn nvmearb_ctrl_post(ctrl: *mut nvmearb_ctrl, slots: *mut nvmearb_slot, count: usize, cqid: u16, post: *mut nvmearb_post) -> u32;
    pub fn nvmearb_ctrl_post_n(ctrl: *mut nvmearb_ctrl, slots: *mut nvmearb_slot, count: usize, cqid: u16, posts: *mut nvmearb_post, room: usize, n: *mut usize) -> u32;
    pub fn nvmearb_ctrl_next_to_post(ctrl: *const nvmearb_ctrl, slots: *const nvmearb_slot, count: usize, cqid: *mut u16) -> u32;
    pub fn nvmearb_ctrl_finish(ctrl: *mut nvmearb_ctrl, slots: *mut nvmearb_slot, count: usize, qid: *mut u16) -> u32;
    pub fn nvmearb_ctrl_command(ctrl: *const nvmearb_ctrl, slots: *const nvmearb_slot, count: usize, tag: u32, command: *mut nvmearb_command) -> u32;
    pub fn nvmearb_ctrl_named(ctrl: *const nvmearb_ctrl, slots: *const nvmearb_slot, count: usize, qid: u16, cid: u16, tag: *mut u32) -> u32;
    pub fn nvmearb_ctrl_sq(ctrl: *const nvmearb_ctrl, qid: u16, region: *mut u16) -> u32;
    pub fn nvmearb_ctrl_cq(ctrl: *const nvmearb_ctrl, cqid: u16, region: *mut u16) -> u32;
    pub fn nvmearb_ctrl_waiting(ctrl: *const nvmearb_ctrl, qid: u16, count: *mut u16) -> u32;
    pub fn nvmearb_ctrl_waits(ctrl: *const nvmearb_ctrl, slots: *const nvmearb_slot, count: usize, qid: u16, n: u16, entry: *mut nvmearb_sqe, cookie: *mut u32) -> u32;
    pub fn nvmearb_ctrl_seen(ctrl: *const nvmearb_ctrl, qid: u16, seen: *mut nvmearb_seen) -> u32;
    pub fn nvmearb_ctrl_verify(ctrl: *const nvmearb_ctrl, slots: *const nvmearb_slot, count: usize) -> u32;
}
