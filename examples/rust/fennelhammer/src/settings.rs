//! What an endpoint is configured with, and what is counted of it.
use crate::ffi;
use crate::{check, Error};
use std::mem::size_of;

/// What an endpoint is configured with. A switch is 0 (off) or 1 (on); times are nanoseconds unless
/// it is said. `Settings::default()` has the defaults.
#[repr(C)]
#[derive(Clone, Debug)]
pub struct Settings {
    /// The size of this struct, as fh_settings_default sets it.
    size: u64,
    /// Bytes that the peer may send on all streams before any is read (below 2^62). Default 2^62 -
    /// 1.
    pub receive_window: u64,
    /// Bytes that the peer may send on one stream before any is read (below 2^62). Default 1250000.
    pub stream_receive_window: u64,
    /// Bytes that may be written before the peer acknowledges them, on all streams. Default
    /// 10000000.
    pub send_window: u64,
    /// Bidirectional and unidirectional streams that the peer may have open (below 2^62), of which
    /// at most 2^60 count. Default 100 each.
    pub max_concurrent_bidi_streams: u64,
    /// As `max_concurrent_bidi_streams`.
    pub max_concurrent_uni_streams: u64,
    /// Switch: streams of one priority take turns with each datagram; off: the one that began is
    /// sent to its FIN. Default 1.
    pub send_fairness: u64,
    /// Milliseconds after which the endpoint gives the connection up (RFC 9000, section 10.1)
    /// (below 2^62); 0 for never. The lesser of both endpoints' counts. Default 30000.
    pub max_idle_timeout_ms: u64,
    /// Nanoseconds after which a PING is sent so that the connection stays (RFC 9000, section
    /// 10.1.2); 0 for never. Default 0.
    pub keep_alive_interval: u64,
    /// Bytes of messages that are kept unread; 0: the endpoint takes and sends no messages. The
    /// peer is told of at most 65535. Default 1250000.
    pub datagram_receive_buffer_size: u64,
    /// Bytes of messages that may be queued to be sent. Default 1048576.
    pub datagram_send_buffer_size: u64,
    /// The greatest at first; below 2^16. Below 1200 counts as 1200, and below `min_mtu` as that.
    /// Default 1200.
    pub initial_mtu: u64,
    /// What every path carries; below 2^16, and below 1200 counts as 1200. Default 1200.
    pub min_mtu: u64,
    /// Switch: path MTU discovery looks for a greater size (RFC 8899); datagrams are to be sent
    /// unfragmented then. Default 1. The four fields below count only then.
    pub mtu_discovery: u64,
    /// The greatest size that is probed; below 2^16, of which at most 65527 counts. Default 1452.
    pub mtu_upper_bound: u64,
    /// The least difference of two sizes that is worth a probe; below 2^16, and below 2 counts as
    /// 2. Default 20.
    pub mtu_minimum_change: u64,
    /// Nanoseconds from one search to the next. Default 600000000000 (600 s).
    pub mtu_interval: u64,
    /// Nanoseconds from a black hole to the next search. Default 60000000000 (60 s).
    pub mtu_black_hole_cooldown: u64,
    /// Switch: ack-eliciting datagrams are filled up to the path's size. Default 0.
    pub pad_to_mtu: u64,
    /// How many packet numbers below an acknowledged one a packet counts as lost; below 2^32.
    /// Default 3.
    pub packet_threshold: u64,
    /// After which fraction of a round trip a packet counts as lost, as a numerator and a
    /// denominator; both below 2^32, the denominator above 0. Default 9 and 8.
    pub time_threshold_numerator: u64,
    /// As `time_threshold_numerator`.
    pub time_threshold_denominator: u64,
    /// Nanoseconds of a round trip before one was measured. Default 333000000 (333 ms).
    pub initial_rtt: u64,
    /// Nanoseconds of a round trip that was measured before, as by the handshake, which counts as
    /// the first sample; at most 60000000000 (60 s). 0: none was. Default 0.
    pub first_rtt: u64,
    /// Nanoseconds by which it varies: above 0 where `first_rtt` is, and at most 60000000000.
    pub first_rtt_variation: u64,
    /// How many probe timeouts of losses mean persistent congestion; below 2^32. Default 3.
    pub persistent_congestion_threshold: u64,
    /// Bytes of NewReno's first congestion window; it has to hold two datagrams. Default 12000.
    pub initial_window: u64,
    /// What a loss leaves of the congestion window, as a numerator and a denominator; the numerator
    /// isn't above the denominator, and that is above 0. Default 1 and 2.
    pub loss_reduction_numerator: u64,
    /// As `loss_reduction_numerator`.
    pub loss_reduction_denominator: u64,
    /// Switch: the peer is told that it may ask this endpoint when to acknowledge. Default 1.
    pub ack_frequency_support: u64,
    /// Switch: the peer is asked to acknowledge as the three fields below say, where it may be.
    /// Default 0.
    pub ack_frequency: u64,
    /// Ack-eliciting packets that the peer may take without an acknowledgement (below 2^62).
    /// Default 1.
    pub ack_eliciting_threshold: u64,
    /// Nanoseconds that the peer may hold an acknowledgement back, of which whole microseconds
    /// count; 0: as long as it would anyhow. Default 0.
    pub ack_max_delay: u64,
    /// How far out of order a packet may come before the peer acknowledges at once (below 2^62); 0:
    /// as far as it likes, 1: not at all. Default 2.
    pub ack_reordering_threshold: u64,
    /// Switch: the peer's address is validated from the start (RFC 9000, section 8). Off, as at a
    /// server without Retry: at most three times the bytes that came are sent, until the peer has
    /// answered a PATH_CHALLENGE. Default 1.
    pub address_validated: u64,
    /// Packets that the own key may seal, and packets that don't open that the peer's key may
    /// refuse (RFC 9001, section 6.6); each at least 16. Default 8388608 (2^23).
    pub confidentiality_limit: u64,
    /// As `confidentiality_limit`.
    pub integrity_limit: u64,
}

impl Default for Settings {
    fn default() -> Self {
        let mut settings = std::mem::MaybeUninit::<Settings>::zeroed();
        // SAFETY: a struct of numbers may be zero, and the call writes no more than its size.
        unsafe {
            let answer = ffi::fh_settings_default(settings.as_mut_ptr(), size_of::<Settings>());
            assert!(
                answer == 0,
                "the library has other settings than this crate"
            );
            settings.assume_init()
        }
    }
}

impl Settings {
    /// The transport parameters that an endpoint with these settings tells its peer (RFC 9000,
    /// section 18), without those that a handshake knows alone.
    pub fn parameters(&self) -> Result<Vec<u8>, Error> {
        let mut room = vec![0; 256];
        // SAFETY: the pointers are to what is borrowed here, with its lengths.
        let written = unsafe { ffi::fh_parameters(self, room.as_mut_ptr(), room.len()) };
        room.truncate(check(written)? as usize);
        Ok(room)
    }
}

/// What was counted of an endpoint since it was made, and what it knows of its path.
#[repr(C)]
#[derive(Clone, Copy, Debug, Default, PartialEq, Eq)]
pub struct Stats {
    /// Datagrams sent.
    pub udp_tx_datagrams: u64,
    /// Their bytes.
    pub udp_tx_bytes: u64,
    /// Datagrams that came.
    pub udp_rx_datagrams: u64,
    /// Their bytes.
    pub udp_rx_bytes: u64,
    /// The smoothed round-trip time, in nanoseconds.
    pub rtt: u64,
    /// The least sample, in nanoseconds.
    pub min_rtt: u64,
    /// The congestion window, in bytes.
    pub cwnd: u64,
    /// The most bytes of a datagram that is no MTU probe.
    pub current_mtu: u64,
    /// Packets sent.
    pub sent_packets: u64,
    /// Packets that count as lost.
    pub lost_packets: u64,
    /// Their bytes.
    pub lost_bytes: u64,
    /// How often the congestion controller was told of congestion.
    pub congestion_events: u64,
    /// MTU probes sent.
    pub sent_plpmtud_probes: u64,
    /// MTU probes lost.
    pub lost_plpmtud_probes: u64,
    /// How often the path took no longer what it had taken.
    pub black_holes_detected: u64,
    /// Datagrams dropped: see [`Dropped`].
    pub dropped_too_short: u64,
    /// Datagrams dropped: see [`Dropped`].
    pub dropped_not_short: u64,
    /// Datagrams dropped: see [`Dropped`].
    pub dropped_fixed_bit: u64,
    /// Datagrams dropped: see [`Dropped`].
    pub dropped_unknown_id: u64,
    /// Datagrams dropped: see [`Dropped`].
    pub dropped_not_opened: u64,
    /// Datagrams dropped: see [`Dropped`].
    pub dropped_key_phase: u64,
    /// Datagrams dropped: see [`Dropped`].
    pub dropped_duplicate: u64,
    /// Datagrams dropped: see [`Dropped`].
    pub dropped_closing: u64,
    /// Datagrams dropped: see [`Dropped`].
    pub dropped_drained: u64,
    /// Datagrams that came when an allocation had failed before.
    pub dropped_failed: u64,
}
