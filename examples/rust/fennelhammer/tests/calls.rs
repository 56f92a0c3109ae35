//! Each call of the wrapper, at two endpoints that hand each other their datagrams.
use fennelhammer::{
    build, Connection, Dir, Dropped, Error, Event, Lost, Peer, Received, Settings, Side, State,
};

const IDS: [[u8; 8]; 2] = [*b"clients.", *b"servers."];

/// Two endpoints, and the time.
struct Pair {
    ends: [Connection; 2],
    now: u64,
}

fn endpoint(side: Side, settings: &Settings) -> Result<Connection, Error> {
    let (own, peers) = (IDS[side as usize], IDS[1 - side as usize]);
    let parameters = settings.parameters()?;
    let peer = Peer {
        id: &peers,
        parameters: &parameters,
        address: 7,
    };
    Connection::new(settings, side, own, peer, [side as u8; 32], 0)
}

fn pair(settings: &Settings) -> Pair {
    let made = |side| endpoint(side, settings).expect("lawful settings");
    let ends = [made(Side::Client), made(Side::Server)];
    Pair { ends, now: 0 }
}

impl Pair {
    /// Hands the other endpoint all that one sends: how many datagrams.
    fn pass(&mut self, from: usize) -> usize {
        let mut count = 0;
        let mut room = [0; 1500];
        while let Some(sent) = self.ends[from].poll(self.now, &mut room).expect("memory") {
            assert_eq!(sent.peer_address, 7);
            let mut copy = room;
            assert!(self.ends[1 - from].would_open(7, &mut copy[..sent.len]));
            let datagram = &mut room[..sent.len];
            let received = self.ends[1 - from].receive(self.now, 7, sent.ecn, datagram);
            assert_eq!(received, Ok(Received::Taken));
            count += 1;
        }
        count
    }

    /// Lets both say all that they have to say.
    fn settle(&mut self) {
        for _ in 0..20 {
            self.now += 5_000_000;
            for end in &mut self.ends {
                if end
                    .next_timeout()
                    .map_or(false, |deadline| deadline <= self.now)
                {
                    end.timeout(self.now).expect("memory");
                }
            }
            self.pass(0);
            self.pass(1);
        }
    }

    fn events(&mut self, end: usize) -> Vec<Event> {
        std::iter::from_fn(|| self.ends[end].next_event()).collect()
    }
}

#[test]
fn a_stream_goes_there_and_back() {
    let mut pair = pair(&Settings::default());
    let stream = pair.ends[0].open(Dir::Bi).unwrap();
    pair.ends[0].set_priority(stream, 3).unwrap();
    assert_eq!(pair.ends[0].write(stream, b"hello"), Ok(5));
    pair.ends[0].finish(stream).unwrap();
    assert_eq!(pair.ends[1].accept(Dir::Bi), None);
    pair.settle();
    assert!(pair.events(1).contains(&Event::Opened(Dir::Bi)));
    assert_eq!(pair.ends[1].accept(Dir::Bi), Some(stream));
    let mut room = [0; 3];
    let read = pair.ends[1].read(stream, &mut room).unwrap();
    assert_eq!(
        (read.len, read.offset, read.fin, &room),
        (3, 0, false, b"hel")
    );
    let read = pair.ends[1].read(stream, &mut room).unwrap();
    assert_eq!(
        (read.len, read.offset, read.fin, &room[..2]),
        (2, 3, true, &b"lo"[..])
    );
    assert_eq!(
        pair.ends[1].read(stream, &mut room),
        Err(Error::ClosedStream)
    );
    pair.settle();
    assert!(pair.events(0).contains(&Event::Finished(stream)));
    let stats = pair.ends[0].stats();
    assert!(
        stats.udp_tx_datagrams > 0 && stats.lost_packets == 0,
        "{:?}",
        stats
    );
}

#[test]
fn resets_and_stops_have_their_codes() {
    let mut pair = pair(&Settings::default());
    let (one, two) = (
        pair.ends[0].open(Dir::Uni).unwrap(),
        pair.ends[0].open(Dir::Uni).unwrap(),
    );
    for stream in [one, two] {
        pair.ends[0].write(stream, b"x").unwrap();
    }
    pair.settle();
    pair.ends[0].reset(one, 11).unwrap();
    pair.ends[1].stop(two, 12).unwrap();
    pair.settle();
    let mut room = [0; 9];
    assert_eq!(pair.ends[1].read(one, &mut room), Err(Error::Reset(11)));
    assert_eq!(pair.ends[0].write(two, b"y"), Err(Error::Stopped(12)));
    let stopped = Event::Stopped {
        stream: two,
        code: 12,
    };
    assert!(pair.events(0).contains(&stopped));
    assert_eq!(pair.ends[0].write(one, b"y"), Err(Error::ClosedStream));
}

#[test]
fn the_handshake_is_confirmed() {
    let mut pair = pair(&Settings::default());
    pair.ends[1].handshake_done().unwrap();
    assert_eq!(pair.ends[1].handshake_done(), Err(Error::Again));
    assert_eq!(pair.ends[0].handshake_done(), Err(Error::Client));
    pair.settle();
    assert!(pair.events(0).contains(&Event::HandshakeConfirmed));
    assert_eq!(pair.events(1), []);
    pair.ends[1].close(pair.now, 0, b"").unwrap();
    assert_eq!(pair.ends[1].handshake_done(), Err(Error::Again));
}

#[test]
fn own_ids_change() {
    let mut pair = pair(&Settings::default());
    let own = pair.ends[0].own_ids().unwrap();
    assert_eq!((own[0].id, own[0].reset_token), (IDS[0], None));
    assert!(own[1..].iter().all(|id| id.reset_token.is_some()));
    assert!(pair.ends[0].ids_changed() && !pair.ends[0].ids_changed());
    assert_eq!(pair.ends[1].use_next_id(), Err(Error::Absent));
    pair.settle();
    pair.ends[1].use_next_id().unwrap();
    pair.settle();
    assert!(pair.ends[0].ids_changed());
    let later = pair.ends[0].own_ids().unwrap();
    assert_eq!(later[..own.len() - 1], own[1..]);
}

#[test]
fn a_first_sample_counts() {
    let mut settings = Settings::default();
    settings.first_rtt = 20_000_000;
    assert!(matches!(
        endpoint(Side::Client, &settings),
        Err(Error::Setting)
    ));
    settings.first_rtt_variation = 10_000_000;
    let pair = pair(&settings);
    assert_eq!(pair.ends[0].stats().rtt, 20_000_000);
}

#[test]
fn a_write_is_blocked_and_goes_on() {
    let mut settings = Settings::default();
    settings.stream_receive_window = 4;
    let mut pair = pair(&settings);
    let stream = pair.ends[0].open(Dir::Uni).unwrap();
    assert_eq!(pair.ends[0].write(stream, b"hello"), Ok(4));
    assert_eq!(pair.ends[0].write(stream, b"o"), Err(Error::Blocked));
    pair.settle();
    pair.ends[1].read(stream, &mut [0; 9]).unwrap();
    pair.settle();
    assert!(pair.events(0).contains(&Event::Writable(stream)));
    assert_eq!(pair.ends[0].write(stream, b"o"), Ok(1));
}

#[test]
fn pieces_are_written_and_read_in_any_order() {
    let mut pair = pair(&Settings::default());
    let stream = pair.ends[0].open(Dir::Uni).unwrap();
    let pieces: [&[u8]; 3] = [b"he", b"", b"llo"];
    assert_eq!(pair.ends[0].write_vectored(stream, &pieces), Ok(5));
    pair.ends[0].finish(stream).unwrap();
    pair.settle();
    let mut room = [0; 9];
    let read = pair.ends[1].read_unordered(stream, &mut room).unwrap();
    assert_eq!((read.len, read.offset, &room[..5]), (5, 0, &b"hello"[..]));
    let last = pair.ends[1].read_unordered(stream, &mut room).unwrap();
    assert_eq!((last.len, last.fin), (0, true));
    assert!(pair.ends[0].is_validated());
}

#[test]
fn messages_go() {
    let mut pair = pair(&Settings::default());
    let longest = pair.ends[0].max_message().unwrap();
    assert_eq!(
        pair.ends[0].send_message(&vec![0; longest + 1], false),
        Err(Error::TooLarge)
    );
    pair.ends[0].send_message(b"one", false).unwrap();
    pair.ends[0].send_message(b"", true).unwrap();
    pair.settle();
    assert!(pair.events(1).contains(&Event::Message));
    let mut room = [0; 3];
    assert_eq!(
        pair.ends[1].receive_message(&mut room[..2]),
        Err(Error::Room)
    );
    assert_eq!(pair.ends[1].receive_message(&mut room), Ok(Some(3)));
    assert_eq!(&room, b"one");
    assert_eq!(pair.ends[1].receive_message(&mut room), Ok(Some(0)));
    assert_eq!(pair.ends[1].receive_message(&mut room), Ok(None));
}

#[test]
fn a_close_is_heard() {
    let mut pair = pair(&Settings::default());
    pair.ends[0].ping();
    pair.settle();
    assert_eq!(pair.ends[0].state(), State::Open);
    pair.ends[0].close(pair.now, 5, b"bye").unwrap();
    assert_eq!(pair.ends[0].state(), State::Closing);
    assert_eq!(pair.pass(0), 1);
    let text = String::from("bye");
    let heard = Lost::PeerApplication { code: 5, text };
    assert!(pair.events(1).contains(&Event::Lost(heard)));
    assert!(pair.events(0).contains(&Event::Lost(Lost::Application)));
    assert_eq!(pair.ends[1].open(Dir::Bi), Err(Error::Blocked));
    while let Some(deadline) = pair.ends[0].next_timeout() {
        pair.ends[0].timeout(deadline).unwrap();
    }
    assert_eq!(pair.ends[0].state(), State::Drained);
}

#[test]
fn what_is_wrong_is_refused() {
    let mut settings = Settings::default();
    settings.send_fairness = 2;
    assert_eq!(
        endpoint(Side::Client, &settings).unwrap_err(),
        Error::Setting
    );
    let settings = Settings::default();
    let peer = |id, parameters| Peer {
        id,
        parameters,
        address: 0,
    };
    let made = |peer| Connection::new(&settings, Side::Client, IDS[0], peer, [0; 32], 0);
    assert_eq!(made(peer(b"", b"")).unwrap_err(), Error::IdLength);
    assert_eq!(made(peer(b"x", &[1, 2])).unwrap_err(), Error::Parameters);
    let mut end = endpoint(Side::Server, &settings).unwrap();
    let size = end.max_datagram_size();
    assert_eq!(end.poll(0, &mut vec![0; size - 1]), Err(Error::Room));
    assert_eq!(end.write(u64::MAX, b"x"), Err(Error::Invalid));
    assert_eq!(end.receive(0, 7, 4, &mut [0]), Err(Error::Invalid));
    let dropped = |answer| Ok(Received::Dropped(answer));
    assert_eq!(
        end.receive(0, 7, 0, &mut [0x40]),
        dropped(Dropped::TooShort)
    );
    let mut client = endpoint(Side::Client, &settings).unwrap();
    assert_eq!(
        client.receive(0, 8, 0, &mut [0x40; 99]),
        dropped(Dropped::Address)
    );
    assert!(!Error::Stopped(9).to_string().is_empty());
    assert!(build().contains("proved"));
}

#[test]
fn nothing_comes_for_too_long() {
    let mut settings = Settings::default();
    settings.max_idle_timeout_ms = 1000;
    let mut end = endpoint(Side::Client, &settings).unwrap();
    assert_eq!(end.next_timeout(), None);
    end.ping();
    let mut room = [0; 1500];
    assert!(end.poll(0, &mut room).unwrap().is_some());
    while let Some(deadline) = end.next_timeout() {
        end.timeout(deadline).unwrap();
        while end.poll(deadline, &mut room).unwrap().is_some() {}
    }
    assert_eq!(end.next_event(), Some(Event::Lost(Lost::Idle)));
    assert_eq!((end.state(), end.next_timeout()), (State::Drained, None));
}
