//! The functions of `fennelhammer.h`, as it declares them.
#![allow(non_camel_case_types)]

use crate::{Settings, Stats};
use std::os::raw::{c_char, c_int};

/// An endpoint, which only these functions look behind.
#[repr(C)]
pub struct fh_conn {
    hidden: [u8; 0],
}

/// `fh_event`.
#[repr(C)]
#[derive(Default)]
pub struct fh_event {
    pub kind: u64,
    pub stream: u64,
    pub dir: u64,
    pub code: u64,
    pub reason: u64,
    pub text_len: u64,
}

/// `fh_own_id`.
#[repr(C)]
#[derive(Clone, Copy, Default)]
pub struct fh_own_id {
    pub sequence: u64,
    pub has_reset_token: u64,
    pub id: [u8; 8],
    pub reset_token: [u8; 16],
}

/// `fh_iovec`.
#[repr(C)]
pub struct fh_iovec {
    pub base: *const u8,
    pub len: usize,
}

extern "C" {
    pub fn fh_error_text(error: i64) -> *const c_char;
    pub fn fh_build() -> *const c_char;
    pub fn fh_settings_default(settings: *mut Settings, size: usize) -> c_int;
    pub fn fh_parameters(settings: *const Settings, out: *mut u8, room: usize) -> i64;
    pub fn fh_new(
        settings: *const Settings,
        side: u32,
        own_id: *const u8,
        own_id_len: usize,
        peer_id: *const u8,
        peer_id_len: usize,
        peer_parameters: *const u8,
        peer_parameters_len: usize,
        peer_address: u64,
        seed: *const u8,
        seed_len: usize,
        now: u64,
        conn: *mut *mut fh_conn,
    ) -> c_int;
    pub fn fh_free(conn: *mut fh_conn);
    pub fn fh_receive(
        conn: *mut fh_conn,
        now: u64,
        peer_address: u64,
        ecn: u32,
        datagram: *mut u8,
        len: usize,
    ) -> c_int;
    pub fn fh_poll(
        conn: *mut fh_conn,
        now: u64,
        out: *mut u8,
        room: usize,
        peer_address: *mut u64,
        ecn: *mut u32,
    ) -> i64;
    pub fn fh_max_datagram_size(conn: *const fh_conn) -> usize;
    pub fn fh_timeout(conn: *mut fh_conn, now: u64) -> c_int;
    pub fn fh_next_timeout(conn: *const fh_conn) -> u64;
    pub fn fh_would_open(
        conn: *const fh_conn,
        peer_address: u64,
        scratch: *mut u8,
        len: usize,
    ) -> c_int;
    pub fn fh_next_event(conn: *mut fh_conn, event: *mut fh_event) -> c_int;
    pub fn fh_ids_changed(conn: *mut fh_conn) -> c_int;
    pub fn fh_own_ids(conn: *const fh_conn, out: *mut fh_own_id, room: usize) -> i64;
    pub fn fh_lost_text(conn: *const fh_conn, out: *mut u8, room: usize) -> i64;
    pub fn fh_open(conn: *mut fh_conn, dir: u32) -> i64;
    pub fn fh_accept(conn: *mut fh_conn, dir: u32) -> i64;
    pub fn fh_write(
        conn: *mut fh_conn,
        stream: u64,
        data: *const u8,
        len: usize,
        error_code: *mut u64,
    ) -> i64;
    pub fn fh_writev(
        conn: *mut fh_conn,
        stream: u64,
        iov: *const fh_iovec,
        count: usize,
        error_code: *mut u64,
    ) -> i64;
    pub fn fh_finish(conn: *mut fh_conn, stream: u64, error_code: *mut u64) -> c_int;
    pub fn fh_reset(conn: *mut fh_conn, stream: u64, error_code: u64) -> c_int;
    pub fn fh_stop(conn: *mut fh_conn, stream: u64, error_code: u64) -> c_int;
    pub fn fh_set_priority(conn: *mut fh_conn, stream: u64, priority: i32) -> c_int;
    pub fn fh_read(
        conn: *mut fh_conn,
        stream: u64,
        out: *mut u8,
        room: usize,
        offset: *mut u64,
        fin: *mut u32,
        error_code: *mut u64,
    ) -> i64;
    pub fn fh_read_unordered(
        conn: *mut fh_conn,
        stream: u64,
        out: *mut u8,
        room: usize,
        offset: *mut u64,
        fin: *mut u32,
        error_code: *mut u64,
    ) -> i64;
    pub fn fh_send_message(
        conn: *mut fh_conn,
        message: *const u8,
        len: usize,
        drop_older: u32,
    ) -> c_int;
    pub fn fh_receive_message(conn: *mut fh_conn, out: *mut u8, room: usize) -> i64;
    pub fn fh_max_message(conn: *const fh_conn) -> i64;
    pub fn fh_ping(conn: *mut fh_conn);
    pub fn fh_handshake_done(conn: *mut fh_conn) -> c_int;
    pub fn fh_use_next_id(conn: *mut fh_conn) -> c_int;
    pub fn fh_close(
        conn: *mut fh_conn,
        now: u64,
        error_code: u64,
        text: *const u8,
        len: usize,
    ) -> c_int;
    pub fn fh_get_state(conn: *const fh_conn) -> c_int;
    pub fn fh_is_validated(conn: *const fh_conn) -> c_int;
    pub fn fh_get_stats(conn: *const fh_conn, stats: *mut Stats, size: usize) -> c_int;
}
