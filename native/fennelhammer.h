/* One endpoint of a QUIC connection (RFC 9000), as a deterministic state machine: it has no socket,
 * no clock and no thread. A program hands datagrams and times in, and carries datagrams, timers and
 * events out.
 *
 * The handshake is out of scope: whoever makes an endpoint brings both first connection IDs and the
 * peer's transport parameters. The keys are stand-ins that hide nothing, so payloads stay clear.
 *
 * Whenever something was handed in, call
 *   1. fh_poll until it answers 0, and send each datagram,
 *   2. fh_next_event until it answers 0, and act on each event (then 1. again),
 *   3. fh_next_timeout, and fh_timeout once that time has come.
 *
 * Units: times are nanoseconds since an instant that the program chooses, lengths are bytes.
 *
 * Errors: a negative answer is one of `fh_error`. Unless its call says otherwise nothing has
 * changed then: nothing is taken, nothing lost, nothing written to where an answer would stand.
 *
 * What only the caller can see to: a connection is one that fh_new made and fh_free didn't take. A
 * pointer points to what its type says, to as many bytes as the length beside it, and isn't null;
 * but a pointer to no bytes may be null. What one call gets by two pointers doesn't overlap. One
 * connection is used by one thread at a time; two connections have nothing in common. Else anything
 * may happen. Every number, ID and length is tested.
 *
 * Pointers are kept by no call: what they point to is the caller's again once the call is back. A
 * call takes up to some 50 KB of the caller's stack, as was measured.
 *
 * What is proved: of a native build nothing, and fh_build says which a library is. Of a proved one
 * each function returns, reads and writes nothing but what it is handed and what its endpoint has,
 * and does no fault, for a caller who sees to the above. Where it says "Proved" beside a function a
 * contract says that of it as well, as the reference machine of the proofs has it (crates/quic_c).
 * All else that stands here is tested.
 */
#ifndef FENNELHAMMER_H
#define FENNELHAMMER_H

#include <stddef.h>
#include <stdint.h>

#ifdef __cplusplus
extern "C" {
#endif

/* An endpoint. Memory for it and in it is taken by malloc. */
typedef struct fh_conn fh_conn;

/* Why a call didn't do what it was asked for. */
enum fh_error {
    FH_ERR_INVALID = -1,        /* a number or a length that the call doesn't take */
    FH_ERR_ROOM = -2,           /* the room given is too small for the answer */
    FH_ERR_MEMORY = -3,         /* an allocation failed; call again when there is memory */
    FH_ERR_FAILED = -4,         /* an allocation failed in receive, poll or timeout, now or before:
                                   the endpoint is of no more use but to be freed */
    FH_ERR_SIZE = -5,           /* a struct of another size than this library knows */
    FH_ERR_SETTING = -6,        /* a setting is out of its range: fh_wrong_setting says which */
    FH_ERR_SEED = -7,           /* a seed of other than 32 bytes */
    FH_ERR_ID_LENGTH = -8,      /* an own connection ID of other than 8 bytes, or a peer's of none
                                   or of more than 20 */
    FH_ERR_PARAMETERS = -9,     /* the peer's transport parameters are malformed, or one is out of
                                   its range */
    FH_ERR_DATAGRAM_SIZE = -10, /* a size of datagrams is above 65527, or above the peer's limit */
    FH_ERR_WINDOW = -11,        /* the first congestion window doesn't hold two datagrams */
    FH_ERR_KEY_LIMIT = -12,     /* a key may seal fewer than 16 packets, or refuse fewer */
    FH_ERR_NONE = -13,          /* there is none: no stream to accept, no message to read */
    FH_ERR_BLOCKED = -14,       /* a limit leaves no room now, or the endpoint isn't open */
    FH_ERR_CLOSED_STREAM = -15, /* there is no such stream, or nothing is left to do on it */
    FH_ERR_STOPPED = -16,       /* the peer asked that no more be sent on the stream */
    FH_ERR_RESET = -17,         /* the peer reset the stream */
    FH_ERR_ORDER = -18,         /* the stream was read out of order before */
    FH_ERR_TOO_LARGE = -19,     /* the message is longer than the peer, or a packet, takes */
    FH_ERR_DISABLED = -20,      /* this endpoint takes no messages, so it sends none either */
    FH_ERR_UNSUPPORTED = -21,   /* the peer takes no messages */
    FH_ERR_CLOSED = -22,        /* the datagram broke a rule of QUIC: the endpoint is closing, and
                                   the event FH_EVENT_LOST says why */
    FH_ERR_CLIENT = -23,        /* the endpoint is a client, and only a server says that the
                                   handshake is done */
    FH_ERR_AGAIN = -24,         /* it was said before that the handshake is done */
    FH_ERR_NOT_OPEN = -25       /* the endpoint isn't open */
};

/* What an fh_error means, in English: a text that ends with a zero byte and stays for ever.
 * Any other number has a text too, which says that it is none of them. */
const char *fh_error_text(int64_t error);

/* What this library is, in English: whether it was proved, and from which sources it was built. A
 * text that ends with a zero byte and stays for ever. A native build says "native, unproved". */
const char *fh_build(void);

/* ---- settings */

#define FH_CLIENT 0u
#define FH_SERVER 1u

/* What an endpoint is configured with. Every field is a number; a switch is 0 (off) or 1 (on). The
 * ranges and defaults stand behind the fields. */
typedef struct fh_settings {
    /* The size of this struct, as fh_settings_default sets it. */
    uint64_t size;

    /* Flow control and streams (RFC 9000, section 4). */

    /* Bytes that the peer may send on all streams before any is read; below 2^62. Default
     * 2^62 - 1. */
    uint64_t receive_window;
    /* Bytes that the peer may send on one stream before any is read; below 2^62. Default
     * 1250000. */
    uint64_t stream_receive_window;
    /* Bytes that may be written before the peer acknowledges them, on all streams. Default
     * 10000000. */
    uint64_t send_window;
    /* Bidirectional and unidirectional streams that the peer may have open; below 2^62, of which at
     * most 2^60 count. Default 100 each. */
    uint64_t max_concurrent_bidi_streams;
    uint64_t max_concurrent_uni_streams;
    /* Switch: streams of one priority take turns with each datagram; off: the one that began is
     * sent to its FIN. Default 1. */
    uint64_t send_fairness;

    /* Time without a packet. */

    /* Milliseconds after which the endpoint gives the connection up (RFC 9000, section 10.1); below
     * 2^62; 0 for never. The lesser of both endpoints' counts. Default 30000. */
    uint64_t max_idle_timeout_ms;
    /* Nanoseconds after which a PING is sent so that the connection stays (RFC 9000, section
     * 10.1.2); 0 for never. Default 0. */
    uint64_t keep_alive_interval;

    /* Messages (RFC 9221). */

    /* Bytes of messages that are kept unread; 0: the endpoint takes and sends no messages. The peer
     * is told of at most 65535. Default 1250000. */
    uint64_t datagram_receive_buffer_size;
    /* Bytes of messages that may be queued to be sent. Default 1048576. */
    uint64_t datagram_send_buffer_size;

    /* Sizes of datagrams, in bytes of UDP payload (RFC 9000, section 14). */

    /* The greatest at first; below 2^16. Below 1200 counts as 1200, and below `min_mtu` as that.
     * Default 1200. */
    uint64_t initial_mtu;
    /* What every path carries; below 2^16, and below 1200 counts as 1200. Default 1200. */
    uint64_t min_mtu;
    /* Switch: path MTU discovery looks for a greater size (RFC 8899); datagrams are to be sent
     * unfragmented then. Default 1. The four fields below count only where it is on. */
    uint64_t mtu_discovery;
    /* The greatest size that is probed; below 2^16, of which at most 65527 counts. Default 1452. */
    uint64_t mtu_upper_bound;
    /* The least difference of two sizes that is worth a probe; below 2^16, and below 2 counts as 2.
     * Default 20. */
    uint64_t mtu_minimum_change;
    /* Nanoseconds from one search to the next. Default 600000000000 (600 s). */
    uint64_t mtu_interval;
    /* Nanoseconds from a black hole to the next search. Default 60000000000 (60 s). */
    uint64_t mtu_black_hole_cooldown;
    /* Switch: ack-eliciting datagrams are filled up to the path's size. Default 0. */
    uint64_t pad_to_mtu;

    /* Loss recovery and congestion control (RFC 9002). */

    /* How many packet numbers below an acknowledged one a packet counts as lost; below 2^32.
     * Default 3. */
    uint64_t packet_threshold;
    /* After which fraction of a round trip a packet counts as lost, as a numerator and a
     * denominator; both below 2^32, the denominator above 0. Default 9 and 8. */
    uint64_t time_threshold_numerator;
    uint64_t time_threshold_denominator;
    /* Nanoseconds of a round trip before one was measured. Default 333000000 (333 ms). */
    uint64_t initial_rtt;
    /* Nanoseconds of a round trip that was measured before, as by the handshake, and by how much it
     * varies (RFC 9002, section 5): the endpoint begins with them as with its first sample, and
     * `initial_rtt` counts for nothing. At most 60000000000 (60 s) each. 0: none was measured; else
     * the variation isn't 0 either, and of one round trip alone it is half of it. Default 0. */
    uint64_t first_rtt;
    uint64_t first_rtt_variation;
    /* How many probe timeouts of losses mean persistent congestion; below 2^32. Default 3. */
    uint64_t persistent_congestion_threshold;
    /* Bytes of NewReno's first congestion window; it has to hold two datagrams. Default 12000. */
    uint64_t initial_window;
    /* What a loss leaves of the congestion window, as a numerator and a denominator; the numerator
     * isn't above the denominator, and that is above 0. Default 1 and 2. */
    uint64_t loss_reduction_numerator;
    uint64_t loss_reduction_denominator;

    /* QUIC Acknowledgement Frequency. */

    /* Switch: the peer is told that it may ask this endpoint when to acknowledge. Default 1. */
    uint64_t ack_frequency_support;
    /* Switch: the peer is asked to acknowledge as the three fields below say, where it may be.
     * Default 0. */
    uint64_t ack_frequency;
    /* Ack-eliciting packets that the peer may take without an acknowledgement; below 2^62. Default
     * 1. */
    uint64_t ack_eliciting_threshold;
    /* Nanoseconds that the peer may hold an acknowledgement back, of which whole microseconds
     * count; 0: as long as it would anyhow. Default 0. */
    uint64_t ack_max_delay;
    /* How far out of order a packet may come before the peer acknowledges at once; below 2^62; 0:
     * as far as it likes, 1: not at all. Default 2. */
    uint64_t ack_reordering_threshold;

    /* The path and the keys. */

    /* Switch: the peer's address is validated from the start (RFC 9000, section 8). Off, as at a
     * server without Retry: at most three times the bytes that came are sent, until the peer has
     * answered a PATH_CHALLENGE. Default 1. */
    uint64_t address_validated;
    /* Packets that the own key may seal, and packets that don't open that the peer's key may refuse
     * (RFC 9001, section 6.6); each at least 16. Default 8388608 (2^23). */
    uint64_t confidentiality_limit;
    uint64_t integrity_limit;
} fh_settings;

/* Sets all fields of `settings` to their defaults, and its size to `size`, which is
 * sizeof(fh_settings) as the caller was compiled.
 *
 * Answers 0; FH_ERR_SIZE where this library knows no fh_settings of that size. */
int fh_settings_default(fh_settings *settings, size_t size);

/* Which setting is out of its range: 0 where none is, and else the offset in bytes of the first
 * such field in fh_settings, as offsetof gives it.
 *
 * FH_ERR_SIZE: the size is none that fh_settings_default takes. */
int64_t fh_wrong_setting(const fh_settings *settings);

/* ---- making an endpoint */

/* Room that always holds the transport parameters that fh_parameters writes, in bytes. */
#define FH_PARAMETERS_MAX 256u
/* Bytes of an own connection ID, and of a seed. */
#define FH_ID_LENGTH 8u
#define FH_SEED_LENGTH 32u
/* No datagram is longer, in bytes. */
#define FH_DATAGRAM_MAX 65527u
/* The deadline where none is set. */
#define FH_NEVER UINT64_MAX

/* Writes the transport parameters that an endpoint with these settings tells its peer (RFC 9000,
 * section 18). A handshake appends what it knows alone (section 7.3).
 *
 * Answers how many bytes it wrote. FH_ERR_SIZE, FH_ERR_SETTING; FH_ERR_ROOM, where `room` is too
 * small (FH_PARAMETERS_MAX is enough); FH_ERR_MEMORY. */
int64_t fh_parameters(const fh_settings *settings, uint8_t *out, size_t room);

/* Makes an endpoint at the time `now`, and gives it by `conn`; fh_free lets it go.
 *
 * side             FH_CLIENT or FH_SERVER
 * own_id           this endpoint's first connection ID, of 8 bytes: short packets to it carry them
 *                  behind their first byte
 * peer_id          the peer's first connection ID, of 1 to 20 bytes
 * peer_parameters  what fh_parameters of the peer wrote, with what a handshake appended
 * peer_address     a number of the caller's by which it knows the peer's first address
 * seed             32 random bytes of the operating system, as getrandom(2) gives them, used once:
 *                  connection IDs, stateless reset tokens and the data of PATH_CHALLENGE come of
 *                  them by ChaCha20, and nobody may guess them
 *
 * Answers 0. FH_ERR_SIZE, FH_ERR_SETTING, FH_ERR_INVALID (a side that is neither), FH_ERR_SEED,
 * FH_ERR_ID_LENGTH, FH_ERR_PARAMETERS, FH_ERR_DATAGRAM_SIZE, FH_ERR_WINDOW, FH_ERR_KEY_LIMIT,
 * FH_ERR_MEMORY.
 *
 * Proved: that an endpoint is given where 0 is answered, and else none. */
int fh_new(const fh_settings *settings, uint32_t side, const uint8_t *own_id, size_t own_id_len,
           const uint8_t *peer_id, size_t peer_id_len, const uint8_t *peer_parameters,
           size_t peer_parameters_len, uint64_t peer_address, const uint8_t *seed, size_t seed_len,
           uint64_t now, fh_conn **conn);

/* Lets an endpoint go, with all its memory. It tells the peer nothing: fh_close does. */
void fh_free(fh_conn *conn);

/* ---- datagrams and timers */

/* ECN codepoints (RFC 3168, section 5): the low two bits of the traffic class. */
#define FH_ECN_NONE 0u
#define FH_ECN_ECT1 1u
#define FH_ECN_ECT0 2u
#define FH_ECN_CE 3u

/* Why a datagram was dropped: no error, and nothing to be done. */
enum fh_dropped {
    FH_DROPPED_TOO_SHORT = 1,  /* it ends within the connection ID, or fewer than 20 bytes follow */
    FH_DROPPED_NOT_SHORT = 2,  /* a long header (RFC 9000, section 17.2) */
    FH_DROPPED_FIXED_BIT = 3,  /* the fixed bit is 0 (RFC 9000, section 17.3.1) */
    FH_DROPPED_UNKNOWN_ID = 4, /* the connection ID isn't one of this endpoint's in use */
    FH_DROPPED_NOT_OPENED = 5, /* the key refused it (RFC 9001, section 5.5) */
    FH_DROPPED_KEY_PHASE = 6,  /* another key phase: keys are never updated */
    FH_DROPPED_DUPLICATE = 7,  /* its packet number came before, or is too old to tell */
    FH_DROPPED_CLOSING = 8,    /* the endpoint is closing, and repeats its close */
    FH_DROPPED_DRAINED = 9,    /* the endpoint is drained */
    FH_DROPPED_ADDRESS = 10    /* a client got it from another address than that of fh_new; it is
                                  counted as one that came alone */
};

/* Hands in a datagram that came at the time `now` from this address with this ECN codepoint
 * (RFC 9000, sections 5.2 and 12). Its bytes are opened in place, so they are changed. A time that
 * steps back counts as the greatest that the endpoint knows. A server follows its peer to another
 * address, which it challenges (section 9).
 *
 * Answers 0 where all its frames were taken, and a number of fh_dropped where it was dropped.
 * FH_ERR_INVALID: an ECN codepoint above 3. FH_ERR_CLOSED: the endpoint is closing now.
 * FH_ERR_FAILED.
 *
 * Proved: the answer and what the endpoint is then, but for FH_ERR_FAILED. */
int fh_receive(fh_conn *conn, uint64_t now, uint64_t peer_address, uint32_t ecn, uint8_t *datagram,
               size_t len);

/* Gives the next datagram that is to be sent at the time `now`, to the address that it gives by
 * `peer_address`, with the ECN codepoint that it gives by `ecn`. What was given out counts as
 * sent, and is given but once.
 *
 * Answers its length in bytes, and 0 where there is nothing to send now. FH_ERR_ROOM: `room` is
 * below fh_max_datagram_size; no datagram was made then. FH_ERR_FAILED.
 *
 * Proved: the answer and what the endpoint is then, but for FH_ERR_FAILED. That no datagram is
 * longer than fh_max_datagram_size is tested: one that were would be lost, with FH_ERR_ROOM. */
int64_t fh_poll(fh_conn *conn, uint64_t now, uint8_t *out, size_t room, uint64_t *peer_address,
                uint32_t *ecn);

/* The room that fh_poll asks for, in bytes: no datagram of this endpoint is longer, MTU probes
 * among them. It is the same for the whole life of the endpoint; 1452 by the default settings.
 *
 * Proved: that it changes nothing. */
size_t fh_max_datagram_size(const fh_conn *conn);

/* Lets the timers expire whose deadline is `now` or earlier.
 *
 * Answers 0. FH_ERR_FAILED.
 *
 * Proved: the answer and what the endpoint is then. */
int fh_timeout(fh_conn *conn, uint64_t now);

/* The earliest deadline, at which fh_timeout is to be called; FH_NEVER where none is set. It may be
 * over already.
 *
 * Proved: the answer, and that it changes nothing. */
uint64_t fh_next_timeout(const fh_conn *conn);

/* Whether a datagram from this address would open here, whatever the endpoint's state, and also if
 * it came before: 1 or 0. So a program with many endpoints on one socket finds whose it is. The
 * bytes are changed, as `scratch` is opened in place: hand a copy in.
 *
 * Proved: the answer, and that it changes nothing. */
int fh_would_open(const fh_conn *conn, uint64_t peer_address, uint8_t *scratch, size_t len);

/* ---- to which endpoint a datagram is */

/* How many own connection IDs live at once, at most. */
#define FH_OWN_IDS_MAX 8u

/* An own connection ID: a datagram with these bytes behind its first byte is for its endpoint (RFC
 * 9000, sections 5.1.1 and 5.2). */
typedef struct fh_own_id {
    uint64_t sequence;        /* under which number it was issued; 0 of the first */
    uint64_t has_reset_token; /* 1, or 0 of the first, which has no token here */
    uint8_t id[8];
    uint8_t reset_token[16]; /* by which a stateless reset is known (section 10.3); else zeros */
} fh_own_id;

/* Whether own connection IDs were issued or retired since this was asked last, or since the
 * endpoint was made: 1 or 0. A program with many endpoints on one socket asks it behind each call
 * that hands something in, and where it is 1 reads the IDs anew.
 *
 * Proved: the answer and what the endpoint is then. */
int fh_ids_changed(fh_conn *conn);

/* Writes the own connection IDs that live, by ascending number. They are there as soon as they are
 * issued, before the peer is told. Of an endpoint that has failed they say nothing, and one that is
 * drained drops all that comes: a program with many endpoints takes the IDs of both out.
 *
 * Answers how many they are, at most FH_OWN_IDS_MAX. FH_ERR_ROOM: they are more than `room`.
 *
 * Proved: that it changes nothing. */
int64_t fh_own_ids(const fh_conn *conn, fh_own_id *out, size_t room);

/* ---- events */

/* Kinds of streams. */
#define FH_BI 0u
#define FH_UNI 1u

enum fh_event_kind {
    FH_EVENT_OPENED = 1,    /* the peer opened streams of the kind `dir`: fh_accept takes them */
    FH_EVENT_READABLE = 2,  /* bytes, the FIN or a reset came on `stream` */
    FH_EVENT_WRITABLE = 3,  /* `stream`, on which a write was blocked, takes bytes again */
    FH_EVENT_FINISHED = 4,  /* `stream` was finished, and the peer has all its bytes and its FIN */
    FH_EVENT_STOPPED = 5,   /* the peer asks by `code` that no more be sent on `stream` */
    FH_EVENT_AVAILABLE = 6, /* more streams of the kind `dir` may be opened */
    FH_EVENT_MESSAGE = 7,   /* a message came while none was unread; one that fh_receive_message
                               kept for FH_ERR_ROOM doesn't count, so this may come though it is
                               there */
    FH_EVENT_LOST = 8,      /* the connection is lost, for `reason` */
    FH_EVENT_HANDSHAKE_CONFIRMED = 9 /* at a client: the server says that the handshake is done
                                        (RFC 9001, section 4.1.2) */
};

/* Why a connection is lost. */
enum fh_lost {
    FH_LOST_APPLICATION = 1,      /* this program closed it */
    FH_LOST_PEER_APPLICATION = 2, /* the peer's application closed it, with `code` and a text */
    FH_LOST_PEER_TRANSPORT = 3,   /* the peer closed it by the error `code` of QUIC, with a text */
    FH_LOST_IDLE = 4,             /* nothing came for the idle timeout */
    FH_LOST_PIECES = 5,           /* too many ranges of a stream were unread: more than 2048, and
                                     than one for each 1,024 bytes of stream_receive_window */
    FH_LOST_KEY_LIMIT = 6,        /* a key sealed, or refused, as many packets as it may */
    FH_LOST_NUMBER_LIMIT = 7,     /* the packet numbers are used up */
    FH_LOST_TRANSPORT = 8         /* the peer broke a rule of QUIC: `code` is its error */
};

/* An event. Fields that its kind doesn't name are 0. */
typedef struct fh_event {
    uint64_t kind;     /* one of fh_event_kind */
    uint64_t stream;   /* a stream's ID */
    uint64_t dir;      /* FH_BI or FH_UNI */
    uint64_t code;     /* an error code, below 2^62 */
    uint64_t reason;   /* one of fh_lost */
    uint64_t text_len; /* how many bytes fh_lost_text gives */
} fh_event;

/* Takes the next event, and gives it by `event`.
 *
 * Answers 1; 0 where there is none, and then `event` stays as it was.
 *
 * Proved: the answer, the event with its numbers, but for `text_len` of FH_LOST_TRANSPORT, and what
 * the endpoint is then. */
int fh_next_event(fh_conn *conn, fh_event *event);

/* Writes the text that says more of why the connection is lost, for people to read: what the peer
 * said as it closed, of FH_LOST_PEER_APPLICATION and FH_LOST_PEER_TRANSPORT, mostly UTF-8 though
 * nothing ensures it; and which rule was broken, of FH_LOST_TRANSPORT. It may be asked for at any
 * time and more than once. No zero byte is put behind it.
 *
 * Answers how many bytes it wrote, 0 where there is no text. FH_ERR_ROOM: `room` is below the
 * text's length.
 *
 * Proved: the answer and the text, but for which text it is of FH_LOST_TRANSPORT; and that it
 * changes nothing. */
int64_t fh_lost_text(const fh_conn *conn, uint8_t *out, size_t room);

/* ---- streams */

/* Opens the next stream of a kind (RFC 9000, section 4.6).
 *
 * Answers its ID. FH_ERR_INVALID: neither kind. FH_ERR_BLOCKED: the peer's limit is reached
 * (FH_EVENT_AVAILABLE says when it was raised), or the endpoint isn't open.
 *
 * Proved: the answer and what the endpoint is then. */
int64_t fh_open(fh_conn *conn, uint32_t dir);

/* Accepts the first stream of a kind that the peer opened and that wasn't accepted. Read from it at
 * once: no FH_EVENT_READABLE tells of the bytes that came with it.
 *
 * Answers its ID. FH_ERR_INVALID: neither kind. FH_ERR_NONE: no stream waits.
 *
 * Proved: the answer and what the endpoint is then. */
int64_t fh_accept(fh_conn *conn, uint32_t dir);

/* Writes as many of the bytes as fit on a stream, and copies them (RFC 9000, sections 2.2 and 4.1).
 *
 * Answers how many it took. Write the rest at once: FH_EVENT_WRITABLE comes only behind
 * FH_ERR_BLOCKED. FH_ERR_INVALID: an ID of 2^62 or above. FH_ERR_BLOCKED: a limit leaves no room,
 * or the endpoint isn't open. FH_ERR_STOPPED: the peer asked for no more, by the code that is given
 * by `error_code`; reset the stream. FH_ERR_CLOSED_STREAM: no such stream, or it was finished or
 * reset. FH_ERR_MEMORY. `error_code` stays as it was but for FH_ERR_STOPPED.
 *
 * Proved: the answer, but for FH_ERR_MEMORY. */
int64_t fh_write(fh_conn *conn, uint64_t stream, const uint8_t *data, size_t len,
                 uint64_t *error_code);

/* A buffer of a write of several. */
typedef struct fh_iovec {
    const uint8_t *base;
    size_t len;
} fh_iovec;

/* Writes several buffers one behind the other, as fh_write does each, until one doesn't fit whole.
 *
 * Answers how many bytes it took of all; where it took none, as fh_write does. */
int64_t fh_writev(fh_conn *conn, uint64_t stream, const fh_iovec *iov, size_t count,
                  uint64_t *error_code);

/* Finishes a stream: its FIN goes behind all that was written (RFC 9000, section 3.1).
 *
 * Answers 0. FH_ERR_INVALID, FH_ERR_STOPPED (with the code by `error_code`), FH_ERR_CLOSED_STREAM
 * and FH_ERR_MEMORY as fh_write.
 *
 * Proved: the answer and what the endpoint is then, but for FH_ERR_MEMORY. */
int fh_finish(fh_conn *conn, uint64_t stream, uint64_t *error_code);

/* Resets a stream with a code (RFC 9000, section 3.1): nothing else of it is sent.
 *
 * Answers 0. FH_ERR_INVALID: an ID or a code of 2^62 or above. FH_ERR_CLOSED_STREAM: no such
 * stream, or it was reset, or the peer has all of it. FH_ERR_MEMORY.
 *
 * Proved: the answer and what the endpoint is then, but for FH_ERR_MEMORY. */
int fh_reset(fh_conn *conn, uint64_t stream, uint64_t error_code);

/* Asks the peer by STOP_SENDING, with a code, to send no more on a stream (RFC 9000, section 3.5);
 * nothing of it is read any more.
 *
 * Answers 0. FH_ERR_INVALID: an ID or a code of 2^62 or above. FH_ERR_CLOSED_STREAM: no such
 * stream, or nothing is left to read. FH_ERR_MEMORY.
 *
 * Proved: the answer and what the endpoint is then, but for FH_ERR_MEMORY. */
int fh_stop(fh_conn *conn, uint64_t stream, uint64_t error_code);

/* Sets the priority of a stream: streams of a greater one are sent first. It is 0 at first, and
 * counts when the stream is queued next.
 *
 * Answers 0. FH_ERR_INVALID: an ID of 2^62 or above. FH_ERR_CLOSED_STREAM, FH_ERR_MEMORY.
 *
 * Proved: the answer and what the endpoint is then, but for FH_ERR_MEMORY. */
int fh_set_priority(fh_conn *conn, uint64_t stream, int32_t priority);

/* Reads bytes of a stream in order, at most `room` of them (RFC 9000, section 2.2). Gives by
 * `offset` where in the stream they begin, and by `fin` 1 where the stream ends behind them. 0 says
 * nothing where the room was filled: read again.
 *
 * Answers how many bytes it wrote: 0 only where `fin` is 1, as when the FIN comes by itself; the
 * offset is 0 then. Once `fin` was 1 or FH_ERR_RESET came, the stream is closed. FH_ERR_INVALID: an
 * ID of 2^62 or above. FH_ERR_ROOM: `room` is 0. FH_ERR_BLOCKED: no byte waits that comes next;
 * FH_EVENT_READABLE says when to read again. FH_ERR_RESET: the peer reset the stream, with the code
 * that is given by `error_code`. FH_ERR_CLOSED_STREAM: no such stream, or it was read to its end,
 * reset or stopped; no fault behind an FH_EVENT_READABLE, which may come late. FH_ERR_ORDER: it was
 * read out of order before. FH_ERR_MEMORY. `offset` and `fin` stay as they were where the answer is
 * negative, and `error_code` but for FH_ERR_RESET. */
int64_t fh_read(fh_conn *conn, uint64_t stream, uint8_t *out, size_t room, uint64_t *offset,
                uint32_t *fin, uint64_t *error_code);

/* Reads bytes of a stream that came, in whatever order. As fh_read, but that the bytes needn't be
 * the next ones, `offset` says which they are, and `fin` is 1 only where the answer is 0: all bytes
 * were read then. From then on the stream can't be read in order. */
int64_t fh_read_unordered(fh_conn *conn, uint64_t stream, uint8_t *out, size_t room,
                          uint64_t *offset, uint32_t *fin, uint64_t *error_code);

/* ---- messages (RFC 9221) */

/* Queues a message to be sent once, unreliably, and copies it. Where the send buffer has no room,
 * and `drop_older` is 1, older messages that are queued go for it.
 *
 * Answers 0. FH_ERR_INVALID: `drop_older` is neither 0 nor 1. FH_ERR_UNSUPPORTED, FH_ERR_DISABLED,
 * FH_ERR_TOO_LARGE (fh_max_message says how long one may be). FH_ERR_BLOCKED: the send buffer has
 * no room, or the endpoint isn't open; no event says when it has. FH_ERR_MEMORY.
 *
 * Proved: the answer, but for FH_ERR_MEMORY, and what the endpoint is then. */
int fh_send_message(fh_conn *conn, const uint8_t *message, size_t len, uint32_t drop_older);

/* Reads the oldest message that wasn't read, whole, also where the endpoint isn't open.
 *
 * Answers how many bytes it has, which may be 0. FH_ERR_NONE: there is none. FH_ERR_ROOM: it has
 * more than `room` bytes, and stays to be read; 65535 are always enough.
 *
 * Proved: the answer, the bytes, and what the endpoint is then. */
int64_t fh_receive_message(fh_conn *conn, uint8_t *out, size_t room);

/* The longest message that may be sent now, in bytes: the path may take longer or shorter ones
 * later.
 *
 * FH_ERR_UNSUPPORTED: the peer takes none.
 *
 * Proved: the answer, and that it changes nothing. */
int64_t fh_max_message(const fh_conn *conn);

/* ---- the connection */

/* Queues a PING, so that the peer acknowledges (RFC 9000, section 19.2).
 *
 * Proved: what the endpoint is then. */
void fh_ping(fh_conn *conn);

/* Says at a server that the handshake is done, as whoever makes it finds: HANDSHAKE_DONE goes until
 * it is acknowledged, and the client gets FH_EVENT_HANDSHAKE_CONFIRMED. Not to be said before TLS
 * is complete (RFC 9000, section 19.20).
 *
 * Answers 0. FH_ERR_CLIENT: the endpoint is a client. FH_ERR_AGAIN: it was said before.
 * FH_ERR_NOT_OPEN.
 *
 * Proved: the answer and what the endpoint is then. */
int fh_handshake_done(fh_conn *conn);

/* Sends to the next connection ID that the peer gave from now on, and retires those before it (RFC
 * 9000, section 5.1.2). An ID never changes by itself, but where the peer asks for it, and at a
 * server whose peer moved to another address.
 *
 * Answers 0. FH_ERR_NONE: the peer told of no later one. FH_ERR_BLOCKED: more than 80 retirements
 * would wait. FH_ERR_MEMORY.
 *
 * Proved: the answer and what the endpoint is then. */
int fh_use_next_id(fh_conn *conn);

/* Closes the connection at the time `now` with a code of the application and a text, of which as
 * much goes as fits one datagram (RFC 9000, section 10.2). What is still queued isn't sent any
 * more. Go on handing in, polling and timing until the state is FH_STATE_DRAINED. Does nothing
 * where the endpoint isn't open.
 *
 * Answers 0. FH_ERR_INVALID: a code of 2^62 or above. FH_ERR_MEMORY.
 *
 * Proved: the answer and what the endpoint is then. */
int fh_close(fh_conn *conn, uint64_t now, uint64_t error_code, const uint8_t *text, size_t len);

/* Whether an endpoint is open (RFC 9000, section 10). */
enum fh_state {
    FH_STATE_OPEN = 0,    /* it sends and receives */
    FH_STATE_CLOSING = 1, /* it only repeats its close, for three probe timeouts */
    FH_STATE_DRAINED = 2, /* it sends nothing more and drops what comes: free it */
    FH_STATE_FAILED = 3   /* an allocation failed: free it */
};

/* Which state the endpoint is in: a number of fh_state.
 *
 * Proved: the answer, and that it changes nothing. */
int fh_get_state(const fh_conn *conn);

/* Whether the peer's address is validated (RFC 9000, section 8): 1 or 0.
 *
 * Proved: the answer, and that it changes nothing. */
int fh_is_validated(const fh_conn *conn);

/* The bytes that a datagram has at most now, but for an MTU probe (RFC 9000, section 14).
 *
 * Proved: the answer, and that it changes nothing. */
size_t fh_current_mtu(const fh_conn *conn);

/* How long a round trip takes, as estimated now, in nanoseconds (RFC 9002, section 5.3): the
 * smoothed time, and before the first sample `initial_rtt`.
 *
 * Proved: the answer, and that it changes nothing. */
uint64_t fh_rtt(const fh_conn *conn);

/* How many bytes may be in flight: the congestion window (RFC 9002, section 7).
 *
 * Proved: the answer, and that it changes nothing. */
uint64_t fh_congestion_window(const fh_conn *conn);

/* What was counted of an endpoint since it was made, and what it knows of its path. No count passes
 * 2^64 - 1. */
typedef struct fh_stats {
    uint64_t udp_tx_datagrams; /* datagrams sent, and their bytes */
    uint64_t udp_tx_bytes;
    uint64_t udp_rx_datagrams; /* datagrams that came, and their bytes */
    uint64_t udp_rx_bytes;
    uint64_t rtt;     /* the smoothed round-trip time, in nanoseconds */
    uint64_t min_rtt; /* the least sample, in nanoseconds */
    uint64_t cwnd;    /* the congestion window, in bytes */
    uint64_t current_mtu;
    uint64_t sent_packets;
    uint64_t lost_packets;
    uint64_t lost_bytes;
    uint64_t congestion_events; /* how often the congestion controller was told of congestion */
    uint64_t sent_plpmtud_probes;
    uint64_t lost_plpmtud_probes;
    uint64_t black_holes_detected;
    uint64_t dropped_too_short; /* datagrams that were dropped, by reason: see fh_dropped */
    uint64_t dropped_not_short;
    uint64_t dropped_fixed_bit;
    uint64_t dropped_unknown_id;
    uint64_t dropped_not_opened;
    uint64_t dropped_key_phase;
    uint64_t dropped_duplicate;
    uint64_t dropped_closing;
    uint64_t dropped_drained;
    uint64_t dropped_failed; /* those that came when an allocation had failed before */
} fh_stats;

/* Gives the figures by `stats`. `size` is sizeof(fh_stats) as the caller was compiled.
 *
 * Answers 0. FH_ERR_SIZE where this library knows no fh_stats of that size.
 *
 * Proved: that it changes nothing. */
int fh_get_stats(const fh_conn *conn, fh_stats *stats, size_t size);

#ifdef __cplusplus
}
#endif

#endif
