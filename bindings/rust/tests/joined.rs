//! A client and a server joined in memory.

use belkjoef::{
    BadConfig, Client, Code, Config, Decoder, Encoder, End, Error, Event, Field, PeerSettings,
    Rule, Server, Why,
};

/// What an end has handed out, owned.
#[derive(Debug, PartialEq)]
enum Note {
    Interim(u32),
    Head(u32, Vec<(String, String)>, bool),
    Body(u32, Vec<u8>, bool),
    Trailers(u32, Vec<(String, String)>),
    Reset(u32, Code, bool),
    Unprocessed(u32),
    GoAway(u32, Code),
    Acked,
    Pong([u8; 8]),
}

fn text(octets: &[u8]) -> String {
    String::from_utf8(octets.to_vec()).expect("text")
}

fn note(event: Event<'_>) -> Note {
    let owned = |fields: belkjoef::Fields<'_>| {
        fields.iter().map(|field| (text(field.name()), text(field.value()))).collect()
    };
    match event {
        Event::Interim { stream, .. } => Note::Interim(stream),
        Event::Head { stream, fields, end } => Note::Head(stream, owned(fields), end),
        Event::Body { stream, octets, end } => Note::Body(stream, octets.to_vec(), end),
        Event::Trailers { stream, fields } => Note::Trailers(stream, owned(fields)),
        Event::Reset { stream, code, ours } => Note::Reset(stream, code, ours),
        Event::Unprocessed { stream } => Note::Unprocessed(stream),
        Event::GoAway { last, code } => Note::GoAway(last, code),
        Event::Acked => Note::Acked,
        Event::Pong { octets } => Note::Pong(octets),
        other => panic!("a new event: {other:?}"),
    }
}

/// Gives octets to an end, and returns what it hands out.
fn give<R>(end: &mut End<R>, mut rest: &[u8]) -> Result<Vec<Note>, Error> {
    let mut notes = Vec::new();
    loop {
        let taken = end.take(rest)?;
        rest = &rest[taken.used..];
        match taken.event {
            Some(event) => notes.push(note(event)),
            None if rest.is_empty() => return Ok(notes),
            None => {}
        }
    }
}

/// Returns all output that waits at an end.
fn output<R>(end: &mut End<R>) -> Vec<u8> {
    let mut octets = Vec::new();
    end.write_out(&mut octets).expect("memory");
    octets
}

/// Carries the output of one end to the other, and returns what that hands out.
fn carry<R, S>(from: &mut End<R>, to: &mut End<S>) -> Vec<Note> {
    let octets = output(from);
    give(to, &octets).expect("no fault")
}

struct Pair {
    client: Client,
    server: Server,
}

impl Pair {
    fn new(config: &Config) -> Pair {
        let client = Client::new(config).expect("a client");
        let server = Server::new(config).expect("a server");
        let mut pair = Pair { client, server };
        pair.settle();
        pair
    }

    /// Carries the output of the client to the server.
    fn up(&mut self) -> Vec<Note> {
        carry(&mut self.client, &mut self.server)
    }

    /// Carries the output of the server to the client.
    fn down(&mut self) -> Vec<Note> {
        carry(&mut self.server, &mut self.client)
    }

    /// Carries output both ways until none waits.
    fn settle(&mut self) {
        while !self.client.is_quiet() || !self.server.is_quiet() {
            self.up();
            self.down();
            self.client.release_all().expect("release");
            self.server.release_all().expect("release");
        }
    }
}

const GET: [(&str, &str); 4] =
    [(":method", "GET"), (":scheme", "http"), (":authority", "example.com"), (":path", "/a")];
const POST: [(&str, &str); 4] =
    [(":method", "POST"), (":scheme", "http"), (":authority", "example.com"), (":path", "/b")];

fn fields<'a>(list: &[(&'a str, &'a str)]) -> Vec<Field<'a>> {
    list.iter().map(|(name, value)| Field::new(*name, *value)).collect()
}

fn owned(list: &[(&str, &str)]) -> Vec<(String, String)> {
    list.iter().map(|(name, value)| (name.to_string(), value.to_string())).collect()
}

/// The octets of the bodies in notes.
fn bodies(notes: &[Note]) -> Vec<u8> {
    let parts = notes.iter().filter_map(|note| match note {
        Note::Body(_, octets, _) => Some(octets.as_slice()),
        _ => None,
    });
    parts.collect::<Vec<_>>().concat()
}

#[test]
fn a_get_and_its_answer() {
    let mut pair = Pair::new(&Config::default());
    let stream = pair.client.request(&fields(&GET), b"").unwrap();
    assert_eq!(pair.up(), [Note::Head(stream, owned(&GET), true)]);
    let head = [(":status", "200"), ("content-length", "6")];
    pair.server.respond(stream, &fields(&head), b"hello\n").unwrap();
    let wanted =
        [Note::Head(stream, owned(&head), false), Note::Body(stream, b"hello\n".to_vec(), true)];
    assert_eq!(pair.down(), wanted);
    assert!(!pair.server.is_active(stream) && !pair.client.is_active(stream));
}

#[test]
fn settings_are_acknowledged() {
    let mut client = Client::new(&Config::default()).unwrap();
    let mut server = Server::new(&Config::default()).unwrap();
    assert_eq!(carry(&mut client, &mut server), []);
    assert_eq!(carry(&mut server, &mut client), [Note::Acked]);
    assert_eq!(carry(&mut client, &mut server), [Note::Acked]);
    let config = Config { initial_window: 1000, ..Config::default() };
    server.change_settings(&config).unwrap();
    assert_eq!(server.change_settings(&config), Err(Error::SettingsWait));
    assert_eq!(carry(&mut server, &mut client), []);
    assert_eq!(carry(&mut client, &mut server), [Note::Acked]);
    let stream = client.begin(&fields(&POST)).unwrap();
    assert_eq!(client.room(stream), Some(1000));
    assert_eq!(client.room(0), Some(65_535));
    assert_eq!(client.room(stream + 2), None);
}

#[test]
fn a_long_body_waits_for_windows() {
    let mut pair = Pair::new(&Config::default());
    let body: Vec<u8> = (0..1_000_000u32).map(|at| (at % 251) as u8).collect();
    let stream = pair.client.request(&fields(&POST), &body).unwrap();
    let first = pair.up();
    assert_eq!(bodies(&first), &body[..65_535]);
    assert_eq!(pair.server.owed(stream), 65_535);
    assert_eq!(pair.client.unsent(stream), body.len() - 65_535);
    assert_eq!(pair.down(), []); // nothing is released
    let mut come = bodies(&first);
    while pair.client.unsent(stream) > 0 {
        pair.server.release_all().unwrap();
        pair.down();
        come.extend(bodies(&pair.up()));
    }
    assert_eq!(come, body);
    assert!(pair.server.is_active(stream));
}

#[test]
fn a_wider_window_lets_more_come_at_once() {
    let mut pair = Pair::new(&Config { initial_window: 200_000, ..Config::default() });
    assert_eq!(pair.server.widen(0), Err(Error::WindowTooLarge));
    assert_eq!(pair.server.widen(100_000), Ok(()));
    assert_eq!(pair.server.granted(), 165_535);
    assert_eq!(pair.down(), []);
    assert_eq!(pair.client.room(0), Some(165_535));
    let stream = pair.client.request(&fields(&POST), &[7; 200_000]).unwrap();
    assert_eq!(bodies(&pair.up()).len(), 165_535);
    assert_eq!(pair.client.unsent(stream), 34_465);
    assert_eq!(pair.down(), []); // nothing is released
    assert_eq!(bodies(&pair.up()).len(), 0);
    pair.server.release_all().unwrap();
    pair.down();
    assert_eq!(bodies(&pair.up()).len(), 34_465);
}

#[test]
fn a_release_is_of_what_is_owed() {
    let mut pair = Pair::new(&Config::default());
    let stream = pair.client.request(&fields(&POST), &[7; 100]).unwrap();
    pair.up();
    assert_eq!(pair.server.release(stream, 101), Err(Error::NotOwed));
    assert_eq!(pair.server.release(stream, 60), Ok(()));
    assert_eq!(pair.server.owed(stream), 40);
    assert_eq!(pair.server.release(stream, 40), Ok(()));
    assert_eq!(pair.server.release(stream, 0), Err(Error::NotOwed));
    assert_eq!(pair.server.release(stream + 2, 1), Err(Error::NoSuchStream));
}

#[test]
fn a_message_in_parts_with_trailers() {
    let mut pair = Pair::new(&Config::default());
    let stream = pair.client.begin(&fields(&POST)).unwrap();
    assert_eq!(pair.client.send_body(stream, b"one ", false), Ok(4));
    assert_eq!(pair.client.send_body(stream, b"two", false), Ok(3));
    let trailers = [("checksum", "12")];
    pair.client.send_trailers(stream, &fields(&trailers)).unwrap();
    let wanted = [
        Note::Head(stream, owned(&POST), false),
        Note::Body(stream, b"one ".to_vec(), false),
        Note::Body(stream, b"two".to_vec(), false),
        Note::Trailers(stream, owned(&trailers)),
    ];
    assert_eq!(pair.up(), wanted);
    assert_eq!(pair.client.send_body(stream, b"x", true), Err(Error::NotAsked));
    pair.server.begin(stream, &fields(&[(":status", "200")])).unwrap();
    assert_eq!(pair.server.send_body(stream, &[1; 70_000], true), Ok(65_535));
    assert_eq!(pair.server.send_body(stream, &[1; 4465], true), Err(Error::OutputFull));
    assert_eq!(pair.down().len(), 5);
    assert_eq!(pair.server.send_body(stream, &[1; 4465], true), Ok(0));
    pair.client.release_all().unwrap();
    pair.up();
    assert_eq!(pair.server.send_body(stream, &[1; 4465], true), Ok(4465));
    assert!(matches!(pair.down()[..], [Note::Body(_, _, true)]));
}

#[test]
fn users_come_with_events() {
    let mut pair = Pair::new(&Config::default());
    let stream = pair.client.request(&fields(&POST), b"body").unwrap();
    pair.server.set_user(stream, 7).unwrap();
    let octets = output(&mut pair.client);
    let taken = pair.server.take(&octets).unwrap();
    assert_eq!(taken.user, 7);
    assert!(matches!(taken.event, Some(Event::Head { .. })));
    assert_eq!(pair.server.user(stream), 7);
    pair.server.set_user(stream, 0).unwrap();
    assert_eq!(pair.server.user(stream), 0);
}

#[test]
fn a_reset_is_seen_by_the_peer() {
    let mut pair = Pair::new(&Config::default());
    let stream = pair.client.begin(&fields(&POST)).unwrap();
    pair.up();
    assert_eq!(pair.server.live().collect::<Vec<_>>(), [stream]);
    pair.client.reset(stream, Code::CANCEL).unwrap();
    assert_eq!(pair.up(), [Note::Reset(stream, Code::CANCEL, false)]);
    assert_eq!(pair.server.live().next(), None);
    assert_eq!(pair.client.reset(stream, Code::CANCEL), Err(Error::NoSuchStream));
}

#[test]
fn the_streams_that_live_come_in_order() {
    let mut pair = Pair::new(&Config::default());
    for wanted in [1, 3, 5, 7] {
        assert_eq!(pair.client.begin(&fields(&POST)), Ok(wanted));
    }
    pair.client.reset(3, Code::CANCEL).unwrap();
    assert_eq!(pair.client.live().collect::<Vec<_>>(), [1, 5, 7]);
}

#[test]
fn a_going_away_is_seen_by_the_peer() {
    let mut pair = Pair::new(&Config::default());
    let first = pair.client.request(&fields(&GET), b"").unwrap();
    pair.up();
    let second = pair.client.request(&fields(&GET), b"").unwrap();
    pair.server.go_away().unwrap();
    assert_eq!(pair.server.go_away(), Err(Error::GoingAway));
    let wanted = [Note::GoAway(first, Code::NO_ERROR), Note::Unprocessed(second)];
    assert_eq!(pair.down(), wanted);
    assert_eq!(pair.client.request(&fields(&GET), b""), Err(Error::GoingAway));
    pair.server.respond(first, &fields(&[(":status", "204")]), b"").unwrap();
    pair.down();
    pair.up();
    assert!(pair.server.is_drained() && pair.client.is_drained());
}

#[test]
fn a_ping_is_answered() {
    let mut pair = Pair::new(&Config::default());
    pair.client.ping(*b"12345678").unwrap();
    assert_eq!(pair.client.ping(*b"87654321"), Err(Error::PingWaits));
    assert_eq!(pair.up(), []);
    assert_eq!(pair.down(), [Note::Pong(*b"12345678")]);
}

#[test]
fn a_fault_ends_the_connection() {
    let mut server = Server::new(&Config::default()).unwrap();
    let error = give(&mut server, b"GET / HTTP/1.1\r\nHost: example.com\r\n\r\n").unwrap_err();
    assert_eq!(error, Error::Failed(Code::PROTOCOL_ERROR));
    assert_eq!(error.to_string(), "the connection has failed with PROTOCOL_ERROR");
    assert_eq!(server.failed(), Some(Code::PROTOCOL_ERROR));
    assert_eq!(server.pump(), Err(Error::Closed));
    assert_eq!(server.ping([0; 8]), Err(Error::Closed));
    assert_eq!(server.take(b"").unwrap_err(), error);
    let octets = output(&mut server); // SETTINGS, and GOAWAY
    assert_eq!(octets[octets.len() - 17..][3], 7);
    assert!(server.is_drained() && !server.is_quiet());
    assert_eq!(format!("{server:?}"), "End { failed: Some(Code(1)), .. }");
}

#[test]
fn messages_are_checked() {
    let mut client = Client::new(&Config::default()).unwrap();
    let mut refused = |name, value| {
        let mut head = fields(&GET);
        head.push(Field::new(name, value));
        client.request(&head, b"").unwrap_err()
    };
    assert_eq!(refused("Name", "value"), Error::BadMessage(Rule::BadName));
    assert_eq!(refused("name", "a\nb"), Error::BadMessage(Rule::BadValue));
    assert_eq!(refused(":path", "/"), Error::BadMessage(Rule::PseudoTwice));
    assert_eq!(refused("connection", "close"), Error::BadMessage(Rule::ConnectionField));
    assert_eq!(refused("content-length", "1"), Error::BadMessage(Rule::BadLength));
    let long = "a".repeat(70_000);
    let mut head = fields(&GET);
    head.push(Field::new("long", &long));
    assert_eq!(client.request(&head, b""), Err(Error::ListTooLarge));
}

#[test]
fn an_answer_is_given_once() {
    let mut pair = Pair::new(&Config::default());
    let head = fields(&[(":status", "204")]);
    assert_eq!(pair.server.respond(1, &head, b""), Err(Error::NotAsked));
    let stream = pair.client.begin(&fields(&POST)).unwrap();
    pair.up();
    pair.server.respond(stream, &head, b"").unwrap();
    assert_eq!(pair.server.respond(stream, &head, b""), Err(Error::Answered));
}

#[test]
fn values_of_a_config_have_bounds() {
    let start = Config::default();
    assert_eq!((start.table_limit, start.initial_window), (4096, 65_535));
    assert_eq!((start.max_streams, start.max_frame), (100, 16_384));
    let refused = |config: Config| Server::new(&config).map(drop).unwrap_err();
    let bad = |which| Error::BadConfig(which);
    assert_eq!(refused(Config { table_limit: 65_537, ..start }), bad(BadConfig::TableLimit));
    assert_eq!(refused(Config { initial_window: 0, ..start }), bad(BadConfig::InitialWindow));
    assert_eq!(refused(Config { max_streams: 99, ..start }), bad(BadConfig::MaxStreams));
    assert_eq!(refused(Config { max_frame: 16_383, ..start }), bad(BadConfig::MaxFrame));
    let mut client = Client::new(&start).unwrap();
    let config = Config { max_streams: 1001, ..start };
    assert_eq!(client.change_settings(&config), Err(bad(BadConfig::MaxStreams)));
}

#[test]
fn sensitive_fields_stay_so() {
    let mut pair = Pair::new(&Config::default());
    let mut head = fields(&GET);
    head.push(Field::new("authorization", "secret").sensitive());
    pair.client.request(&head, b"").unwrap();
    let octets = output(&mut pair.client);
    let Some(Event::Head { fields, .. }) = pair.server.take(&octets).unwrap().event else {
        panic!("no head");
    };
    assert_eq!(fields.len(), 5);
    assert_eq!(fields.iter().collect::<Vec<_>>(), head);
    assert!(fields.get(4).unwrap().is_sensitive() && !fields.get(0).unwrap().is_sensitive());
    assert_eq!(fields.get(5), None);
    assert_eq!(fields.value("authorization"), Some(b"secret".as_slice()));
    assert_eq!(fields.value("absent"), None);
    assert_eq!(format!("{:?}", fields.get(4).unwrap()), "authorization: (sensitive)");
    assert_eq!(fields.iter().rev().len(), 5);
}

#[test]
fn octets_come_in_any_pieces() {
    let mut pair = Pair::new(&Config::default());
    pair.client.request(&fields(&POST), b"a body").unwrap();
    let octets = output(&mut pair.client);
    let mut notes = Vec::new();
    for octet in &octets {
        notes.extend(give(&mut pair.server, std::slice::from_ref(octet)).unwrap());
    }
    assert_eq!(notes[0], Note::Head(1, owned(&POST), false));
    assert_eq!(bodies(&notes), b"a body");
}

#[test]
fn output_is_lent_and_taken_away() {
    let mut client = Client::new(&Config::default()).unwrap();
    let (first, second) = client.waiting().unwrap();
    let octets = [first, second].concat();
    assert_eq!(&octets[..24], b"PRI * HTTP/2.0\r\n\r\nSM\r\n\r\n");
    assert_eq!(client.consume(24), Ok(24));
    let mut rest = [0; 100];
    let count = client.put_out(&mut rest).unwrap();
    assert_eq!(&rest[..count], &octets[24..]);
    assert_eq!(client.consume(1), Ok(0));
    assert_eq!(client.put_out(&mut []), Ok(0));
}

#[test]
fn calls_are_refused_while_the_output_is_full() {
    let mut pair = Pair::new(&Config::default());
    let value = "v".repeat(1000);
    let mut head = fields(&GET);
    head.push(Field::new("x", &value).sensitive());
    let mut given = 0;
    while !pair.client.is_full() {
        pair.client.request(&head, b"").unwrap();
        given += 1;
    }
    assert_eq!(pair.client.request(&head, b""), Err(Error::OutputFull));
    assert_eq!(pair.up().len(), given);
    assert!(!pair.client.is_full() && pair.client.request(&head, b"").is_ok());
}

#[test]
fn a_writer_that_takes_little_gets_all() {
    struct Slow(Vec<u8>, bool);
    impl std::io::Write for Slow {
        fn write(&mut self, octets: &[u8]) -> std::io::Result<usize> {
            self.1 = !self.1;
            if self.1 {
                return Err(std::io::ErrorKind::WouldBlock.into());
            }
            let count = octets.len().min(7);
            self.0.extend_from_slice(&octets[..count]);
            Ok(count)
        }
        fn flush(&mut self) -> std::io::Result<()> {
            Ok(())
        }
    }
    let mut pair = Pair::new(&Config::default());
    pair.client.request(&fields(&POST), &[9; 1000]).unwrap();
    let mut slow = Slow(Vec::new(), false);
    while let Err(error) = pair.client.write_out(&mut slow) {
        assert_eq!(error.kind(), std::io::ErrorKind::WouldBlock);
    }
    assert_eq!(bodies(&give(&mut pair.server, &slow.0).unwrap()), [9; 1000]);
}

#[test]
fn an_end_moves_to_another_thread() {
    let mut pair = Pair::new(&Config::default());
    pair.client.request(&fields(&GET), b"").unwrap();
    let octets = output(&mut pair.client);
    let mut server = pair.server;
    let notes = std::thread::spawn(move || give(&mut server, &octets).unwrap()).join().unwrap();
    assert_eq!(notes, [Note::Head(1, owned(&GET), true)]);
}

#[test]
fn many_ends_are_made_and_dropped() {
    for _ in 0..1000 {
        let mut pair = Pair::new(&Config::default());
        pair.client.request(&fields(&POST), &[1; 5000]).unwrap();
        pair.up();
    }
}

#[test]
fn errors_become_those_of_input_and_output() {
    let error = std::io::Error::from(Error::Memory);
    assert_eq!(error.kind(), std::io::ErrorKind::OutOfMemory);
    let error = std::io::Error::from(Error::Failed(Code(0x123)));
    assert_eq!(error.kind(), std::io::ErrorKind::InvalidData);
    assert_eq!(error.to_string(), "the connection has failed with 0x123");
}

#[test]
fn shares_are_sent_in_turn() {
    let mut pair = Pair::new(&Config::default());
    let long = pair.client.request(&fields(&POST), &[1; 50_000]).unwrap();
    let short = pair.client.request(&fields(&POST), &[2; 10]).unwrap();
    assert_eq!(pair.client.pump_some(1000), Ok(1010));
    assert_eq!(pair.client.unsent(long), 49_000);
    assert_eq!(pair.client.unsent(short), 0);
}

#[test]
fn an_end_can_end_its_connection() {
    let mut pair = Pair::new(&Config::default());
    assert_eq!(pair.server.fail(Code(14)), Err(Error::BadCode));
    assert_eq!((pair.server.failed(), pair.server.why()), (None, None));
    pair.server.fail(Code::ENHANCE_YOUR_CALM).unwrap();
    assert_eq!(pair.server.failed(), Some(Code::ENHANCE_YOUR_CALM));
    assert_eq!(pair.server.why(), Some(Why::EndedAbove));
    assert_eq!(pair.server.fail(Code::NO_ERROR), Err(Error::Closed));
    assert_eq!(pair.down(), [Note::GoAway(0, Code::ENHANCE_YOUR_CALM)]);
    assert!(!Why::EndedAbove.to_string().is_empty());
    assert_ne!(Why::EndedAbove.to_string(), Why::BadPreface.to_string());
}

#[test]
fn what_was_malformed_is_named() {
    let mut server = Server::new(&Config::default()).unwrap();
    let mut octets = b"PRI * HTTP/2.0\r\n\r\nSM\r\n\r\n\0\0\0\x04\0\0\0\0\0".to_vec();
    octets.extend(b"\0\0\x01\x01\x05\0\0\0\x01\x82"); // :method alone
    assert_eq!(server.last_malformed(), None);
    let notes = give(&mut server, &octets).unwrap();
    assert_eq!(notes, [Note::Reset(1, Code::PROTOCOL_ERROR, true)]);
    assert_eq!(server.last_malformed(), Some((1, Rule::PseudoMissing)));
}

#[test]
fn padding_counts_for_windows() {
    let mut server = Server::new(&Config::default()).unwrap();
    let mut octets = b"PRI * HTTP/2.0\r\n\r\nSM\r\n\r\n\0\0\0\x04\0\0\0\0\0".to_vec();
    octets.extend(b"\0\0\x03\x01\x04\0\0\0\x01\x83\x86\x84"); // POST / of http
    octets.extend(b"\0\0\x06\0\x08\0\0\0\x01\x02abc\0\0");
    let notes = give(&mut server, &octets).unwrap();
    assert_eq!(bodies(&notes), b"abc");
    assert_eq!((server.last_flow(), server.owed(1)), (6, 6));
    server.release(1, 6).unwrap();
    assert_eq!(server.owed(1), 0);
}

#[test]
fn resets_and_empty_frames_are_counted() {
    let mut pair = Pair::new(&Config::default());
    assert_eq!((pair.server.resets_received(), pair.server.empty_frames_received()), (0, 0));
    for _ in 0..3 {
        let id = pair.client.request(&fields(&POST), &[1; 10]).unwrap();
        pair.client.reset(id, Code::CANCEL).unwrap();
    }
    pair.up();
    assert_eq!(pair.server.resets_received(), 3);
    let id = pair.client.begin(&fields(&POST)).unwrap();
    pair.up();
    give(&mut pair.server, &[0, 0, 0, 0, 0, 0, 0, 0, id as u8]).unwrap(); // DATA without octets
    assert_eq!(pair.server.empty_frames_received(), 1);
    assert_eq!((pair.server.pings_received(), pair.server.settings_received()), (0, 1));
    give(&mut pair.server, b"\0\0\x08\x06\0\0\0\0\012345678").unwrap();
    assert_eq!((pair.server.pings_received(), pair.server.block_stream()), (1, None));
    give(&mut pair.server, b"\0\0\x01\x01\0\0\0\0\x63\x82").unwrap(); // HEADERS, more to come
    assert_eq!(pair.server.block_stream(), Some(99));
    pair.server.fail(Code::ENHANCE_YOUR_CALM).unwrap();
    assert_eq!((pair.server.resets_received(), pair.server.empty_frames_received()), (3, 1));
}

#[test]
fn the_settings_of_the_peer_are_said() {
    let config = Config { initial_window: 70_000, max_frame: 20_000, ..Config::default() };
    let mut client = Client::new(&Config::default()).unwrap();
    let mut server = Server::new(&config).unwrap();
    let first = PeerSettings { initial_window: 65_535, max_frame: 16_384 };
    assert_eq!(client.peer_settings(), first);
    carry(&mut server, &mut client);
    let read = PeerSettings { initial_window: 70_000, max_frame: 20_000 };
    assert_eq!(client.peer_settings(), read);
    carry(&mut client, &mut server);
    assert_eq!(server.peer_settings(), first);
}

#[test]
fn heads_in_parts_are_those_that_were_given() {
    let mut pair = Pair::new(&Config::default());
    let long = "x".repeat(20_000);
    let many: Vec<(String, String)> =
        (0..100).map(|number| (format!("x-{number}"), format!("{}", number * 7))).collect();
    let many = || many.iter().map(|(name, value)| (name.as_str(), value.as_str()));
    let status = |rest: Vec<(&'static str, &'static str)>| {
        let mut head = vec![(":status", "200")];
        head.extend(rest);
        head
    };
    let mut all = vec![(":status", "200")];
    all.extend(many());
    let lists: Vec<Vec<(&str, &str)>> = vec![
        status(vec![("server", "one"), ("x-a", "1"), ("x-b", "")]),
        status(vec![("server", "one"), ("x-a", "2")]),
        status(vec![("server", "one"), ("x-a", "2")]),
        vec![(":status", "404")],
        all.clone(),
        vec![(":status", "200"), ("x-long", &long)],
        status(vec![("x-a", "1"), ("x-b", "22"), ("x-c", "333"), ("x-d", "4444")]),
        all,
        vec![(":status", "200"), ("x-long", "short")],
    ];
    for list in lists {
        let id = pair.client.request(&fields(&GET), b"").unwrap();
        pair.up();
        pair.server.begin(id, &fields(&list)).unwrap();
        pair.server.send_trailers(id, &fields(&list[1..])).unwrap();
        let notes = pair.down();
        let (head, trailers) = (owned(&list), owned(&list[1..]));
        assert_eq!(notes, [Note::Head(id, head, false), Note::Trailers(id, trailers)]);
    }
}

#[test]
fn blocks_are_encoded_and_decoded() {
    let mut encoder = Encoder::new(4096).unwrap();
    let mut decoder = Decoder::new(4096).unwrap();
    let list = [Field::new(":status", "302"), Field::new("secret", "x").sensitive()];
    let first = encoder.encode(&list).unwrap().to_vec();
    assert_eq!(first[..3], [0x48, 0x82, 0x64]); // RFC 7541, appendix C.6.1
    assert!(decoder.decode(&first, 1000).unwrap().iter().eq(list));
    let second = encoder.encode(&list[..1]).unwrap().to_vec();
    assert_eq!(second, [0xbe]);
    assert!(decoder.decode(&second, 1000).unwrap().iter().eq(list[..1].iter().copied()));
    // The size of ":status", "302" and 32 is 42.
    assert_eq!(decoder.decode(&second, 41).map(|list| list.len()), Err(Error::ListTooLarge));
    assert_eq!(decoder.decode(&second, 42).map(|list| list.len()), Ok(1));
    assert_eq!(encoder.encode(&[]).unwrap(), b"");
    assert!(decoder.decode(b"", 0).unwrap().is_empty());
}

#[test]
fn a_limit_is_announced_and_kept() {
    let mut encoder = Encoder::new(4096).unwrap();
    let mut decoder = Decoder::new(4096).unwrap();
    encoder.set_limit(0);
    let block = encoder.encode(&[Field::new("x-a", "1")]).unwrap().to_vec();
    assert_eq!(block[0], 0x20); // the maximum is 0
    decoder.set_limit(0);
    assert_eq!(decoder.decode(&block, 1000).map(|list| list.len()), Ok(1));
    // A size update above the limit fails, and so does each later block.
    assert_eq!(decoder.decode(&[0x3f, 0x01], 1000).map(|list| list.len()), Err(Error::Compression));
    assert_eq!(decoder.decode(b"", 1000).map(|list| list.len()), Err(Error::DecoderFailed));
    assert_eq!(Error::Compression.to_string(), "P1 Compression: the field block cannot be decoded");
    assert_eq!(Error::DecoderFailed.to_string(), "P3 Failed: an earlier block failed");
}
