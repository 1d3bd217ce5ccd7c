//! The library through this crate: a flooded reader, a grab, refusals, and a whole record.

use inputplay::codes::{self, ABS_MT_POSITION_X, ABS_MT_TRACKING_ID, EV_MSC, EV_REP, KEY_A};
use inputplay::{
    replies, steps, Actor, Axis, Cause, Client, ClientState, Clock, Command, Counts, Description, Device, Error, Event,
    JoyRead, Limits, Line, Mode, Next, NotMade, Phase, Record, Refusal, Repeat, Role, Stamped, Step, CLIENTS_MAX, EV_ABS,
    EV_KEY, EV_SW, EV_SYN,
};
use std::sync::{Arc, Mutex};
use std::thread;

const PAD: &str = "inputrecord 1\ndevice pad\ncap EV_KEY KEY_A\naxis ABS_X 0 0 255 0 0 0\nlog 1000\nsource s\n";

fn press(pad: &mut Device, value: i32) {
    pad.inject(EV_KEY, KEY_A, value, 5).unwrap();
    pad.report(5).unwrap();
}

#[test]
fn a_reader_synchronises_after_a_loss() {
    let mut pad = Device::new(PAD, 0).unwrap();
    pad.start_reader().unwrap();
    for i in 0..301 {
        press(&mut pad, (i + 1) % 2);
    }
    assert!(matches!(pad.next(Mode::Normal), Next::Dropped(_)));
    assert_eq!(pad.reader_state().1, Phase::Needed);
    assert_eq!(pad.reader_call(0).map(|(step, reply)| (step.step, reply.reply)), Some((steps::READ, replies::TOOK)));
    assert_eq!(pad.reader_call(1), None);
    let last = pad.events().last();
    assert!(last.is_some());
    assert_eq!(pad.value(EV_KEY, KEY_A), Some(1));
    assert_eq!(pad.reader_state().1, Phase::Plain);
}

#[test]
fn a_grab_keeps_events_from_others() {
    let mut pad = Device::new(PAD, 0).unwrap();
    let (one, other) = (pad.open().unwrap(), pad.open().unwrap());
    pad.grab(one).unwrap();
    assert_eq!(pad.grab(other), Err(Error::Refused(Refusal::Busy)));
    press(&mut pad, 1);
    let mut events = [Default::default(); 8];
    assert_eq!(pad.read(other, &mut events), Ok(0));
    assert_eq!(pad.read(one, &mut events), Ok(2));
    assert_eq!((events[0].kind, events[0].code, events[0].value), (EV_KEY, KEY_A, 1));
    assert_eq!(pad.keys(other).unwrap()[0], 1 << KEY_A);
}

#[test]
fn a_client_stands_in_a_step() {
    let mut pad = Device::new(PAD, 0).unwrap();
    let opened = pad.step(&Step::open(), &mut [], &mut []).unwrap();
    let client = opened.opened().unwrap();
    assert_eq!((opened.reply, opened.refusal(), u32::from(client)), (replies::OPENED, None, 0));
    let reader = Client::from(pad.start_reader().unwrap());
    pad.grab(reader).unwrap();
    let mut events = [Event::default(); 8];
    let mut reply_to = |step: Step| pad.step(&step, &mut events, &mut [0; 14]).unwrap();
    assert_eq!(reply_to(Step::grab(client)).refusal(), Some(Refusal::Busy));
    assert_eq!(reply_to(Step::ungrab(reader)).reply, replies::DONE);
    assert_eq!(reply_to(Step::inject(EV_KEY, KEY_A, 1, 5)).reply, replies::DONE);
    assert_eq!(reply_to(Step::inject(0, 0, 0, 5)).reply, replies::DONE);
    let took = reply_to(Step::read(client, 8));
    assert_eq!((took.reply, took.count), (replies::TOOK, 2));
    assert_eq!(reply_to(Step::get_keys(client)).words[0], 1 << KEY_A);
    assert_eq!(reply_to(Step::get_axis(client, codes::ABS_X)).info.maximum, 255);
    assert_eq!(reply_to(Step::clock(client, Clock::Boottime, 6)).reply, replies::DONE);
    assert_eq!(reply_to(Step::revoke(client)).reply, replies::DONE);
    assert_eq!(reply_to(Step::discard(client)).refusal().map(Refusal::number), Some(2));
    assert_eq!(reply_to(Step::close(client)).opened(), None);
}

#[test]
fn each_step_is_made_with_its_fields() {
    let (client, all) = (Client::from(3), Step::default());
    let (of_client, axis) = (Step { client: 3, ..all }, Axis { maximum: 9, ..Axis::default() });
    let event = Step { kind: 1, code: 30, value: -1, now: 7, ..all };
    for (made, step, fields) in [
        (Step::inject(1, 30, -1, 7), steps::INJECT, event),
        (Step::tick(7), steps::TICK, Step { now: 7, ..all }),
        (Step::open(), steps::OPEN, all),
        (Step::close(client), steps::CLOSE, of_client),
        (Step::read(client, 5), steps::READ, Step { count: 5, ..of_client }),
        (Step::discard(client), steps::DISCARD, of_client),
        (Step::get_keys(client), steps::GET_KEYS, of_client),
        (Step::get_switches(client), steps::GET_SWITCHES, of_client),
        (Step::get_leds(client), steps::GET_LEDS, of_client),
        (Step::get_sounds(client), steps::GET_SOUNDS, of_client),
        (Step::get_axis(client, 2), steps::GET_AXIS, Step { code: 2, ..of_client }),
        (Step::set_axis(client, 2, axis), steps::SET_AXIS, Step { code: 2, info: axis, ..of_client }),
        (Step::get_slots(client, 2), steps::GET_SLOTS, Step { code: 2, ..of_client }),
        (Step::sync_slots(client), steps::SYNC_SLOTS, of_client),
        (Step::write(client, 1, 30, -1, 7), steps::WRITE, Step { client: 3, ..event }),
        (Step::grab(client), steps::GRAB, of_client),
        (Step::ungrab(client), steps::UNGRAB, of_client),
        (Step::mask(client, 1, 2, 8), steps::MASK, Step { kind: 1, code: 2, bits: 8, ..of_client }),
        (Step::clock(client, Clock::Monotonic, 7), steps::CLOCK, Step { clock: 1, now: 7, ..of_client }),
        (Step::revoke(client), steps::REVOKE, of_client),
        (Step::inhibit(7), steps::INHIBIT, Step { now: 7, ..all }),
        (Step::uninhibit(), steps::UNINHIBIT, all),
        (Step::end(), steps::END, all),
    ] {
        assert_eq!(made, Step { step, ..fields });
    }
}

#[test]
fn codes_have_their_names() {
    assert_eq!((codes::BTN_A, codes::BTN_GAMEPAD, codes::BTN_SOUTH), (0x130, 0x130, 0x130));
    assert_eq!(codes::code_of("BTN_MOUSE"), Some((EV_KEY, codes::BTN_LEFT)));
    assert_eq!(codes::name_of(EV_KEY, codes::BTN_MOUSE), Some("BTN_LEFT"));
    assert_eq!((codes::code_of("KEY_CNT"), codes::KEY_CNT, codes::INPUT_PROP_DIRECT), (None, 768, 1));
    assert_eq!(codes::name_of(EV_KEY, 0x2ff), None);
}

#[test]
fn what_is_refused_is_told() {
    assert_eq!(Device::new("x\n", 0).err(), Some(NotMade::Line(1, Cause::BadHeader)));
    assert_eq!(Device::new(PAD, 1).err(), Some(NotMade::Call(Error::BadArgument)));
    let mut pad = Device::new(PAD, 0).unwrap();
    assert_eq!(pad.inject(EV_KEY, KEY_A, 1, u64::MAX), Err(Error::BadArgument));
    assert_eq!(pad.value(EV_KEY, 0x300), None);
    assert_eq!(pad.value(EV_ABS, ABS_MT_POSITION_X), None);
    assert_eq!(pad.slot_value(0, ABS_MT_POSITION_X), None);
}

#[test]
fn a_record_takes_the_bytes_of_its_streams() {
    let text = format!("{}do s stream keys\n", PAD.replace("inputrecord 1", "inputrecord 2"));
    let mut record = Record::new(&text).unwrap();
    assert_eq!(record.load(1, &[]), Err(Error::BadArgument));
    assert_eq!(record.load(0, &[0; 23]), Err(Error::BadStream));
    assert_eq!(record.load(0, &[0; 24]), Ok(()));
    let mut name = [0; 8];
    assert_eq!((record.file(0, &mut name), &name), (Some(4), b"keys\0\0\0\0"));
    assert_eq!(record.file(1, &mut name), None);
}

#[test]
fn a_history_is_what_the_device_accepted() {
    let mut pad = Device::new(PAD, 0).unwrap();
    press(&mut pad, 1);
    let mut steps = [Step::default(); 3];
    assert_eq!(pad.history(1, &mut steps), Some(1));
    assert_eq!((steps[0].step, steps[0].kind, steps[0].now), (0, 0, 5));
    assert_eq!(pad.history(0, &mut steps), Some(2));
    assert_eq!((steps[0].kind, steps[0].code, steps[0].value), (EV_KEY, KEY_A, 1));
    assert_eq!(pad.history(3, &mut steps), None);
}

#[test]
fn a_record_is_played() {
    let text = format!("{}do s event 5 EV_KEY KEY_A 1\n", PAD);
    let mut record = Record::new(&text).unwrap();
    for (history, wanted) in [
        (false, "device pad steps 1\nsource s calls 1 stop finished\n"),
        (true, "device pad steps 1\nstep 0 inject 5 EV_KEY KEY_A 1\nsource s calls 1 stop finished\n"),
    ] {
        let len = record.play(history).unwrap();
        let mut report = vec![0; len];
        assert_eq!(record.text(0, &mut report), Some(len));
        assert_eq!(String::from_utf8(report).unwrap(), wanted);
    }
}

#[test]
fn a_record_is_migrated() {
    let mut record = Record::new(PAD).unwrap();
    let len = record.migrate().unwrap();
    let mut text = [0; 15];
    assert_eq!(record.text(0, &mut text), Some(len));
    assert_eq!(&text, b"inputrecord 2\nd");
}

#[test]
fn many_events_are_injected_in_order() {
    let mut pad = Device::new(PAD, 0).unwrap();
    pad.start_reader().unwrap();
    let press = Stamped { kind: EV_KEY, code: KEY_A, value: 1, now: 7 };
    assert_eq!(pad.inject_all(&[press, Stamped { now: 8, ..Stamped::default() }]), Ok(2));
    assert_eq!(pad.events().map(|event| (event.code, event.time)).collect::<Vec<_>>(), [(KEY_A, 8), (0, 8)]);
    assert_eq!(pad.inject_all(&[Stamped { now: u64::MAX, ..press }]), Err(Error::BadArgument));
    assert_eq!(pad.inject_all(&[press; 1000]).map(|count| count < 1000), Ok(true));
    assert_eq!(pad.feedback(&mut []), Some(0));
}

#[test]
fn a_joystick_hands_out_its_startup() {
    let mut pad = Device::new(PAD, 0).unwrap();
    assert_eq!(pad.read_joystick(), JoyRead::Closed);
    pad.start_joystick().unwrap();
    assert_eq!(pad.read_joystick(), JoyRead::Record([0, 0, 0, 0, 0, 0, 130, 0]));
    assert_eq!(pad.read_joystick(), JoyRead::Again);
    assert_eq!(pad.picture().axes[0], 0);
}

const KEYBOARD: &str = "inputrecord 2\ndevice kbd\nhint 64\nclock boottime 500\ntype EV_REP\ncap EV_KEY KEY_A\n\
    cap EV_SW SW_LID\naxis ABS_MT_POSITION_X 0 0 99 0 0 0\nslots 2\nlog 900\nsource s\n";

#[test]
fn a_device_tells_what_clients_could_read() {
    let mut pad = Device::new(PAD, 0).unwrap();
    let (one, other) = (pad.open().unwrap(), pad.open().unwrap());
    let mut clients = [Client::from(77); CLIENTS_MAX];
    assert_eq!((pad.visible(one), pad.readable(&mut clients)), (Some(0), 0));
    press(&mut pad, 1);
    assert_eq!((pad.visible(one), pad.visible(other)), (Some(2), Some(2)));
    assert_eq!(pad.readable(&mut clients), 2);
    assert_eq!(clients[..3], [one, other, Client::from(77)]);
    assert_eq!(pad.readable(&mut []), 2);
    assert_eq!(pad.read(one, &mut [Event::default(); 8]), Ok(2));
    assert_eq!((pad.visible(one), pad.readable(&mut clients), clients[0]), (Some(0), 1, other));
    pad.close(other).unwrap();
    assert_eq!((pad.visible(other), pad.readable(&mut clients)), (None, 0));
}

#[test]
fn a_device_tells_how_a_client_stands() {
    let mut pad = Device::new(PAD, 0).unwrap();
    let client = pad.open().unwrap();
    let new = ClientState { clock: Clock::Realtime, revoked: false, grabs: false };
    assert_eq!(pad.client_state(client), Some(new));
    pad.grab(client).unwrap();
    pad.step(&Step::clock(client, Clock::Monotonic, 5), &mut [], &mut []).unwrap();
    assert_eq!(pad.client_state(client), Some(ClientState { clock: Clock::Monotonic, grabs: true, ..new }));
    pad.step(&Step::mask(client, EV_KEY, 11, 5), &mut [], &mut []).unwrap();
    assert_eq!((pad.mask(client, EV_KEY, 11), pad.mask(client, EV_KEY, 10)), (Some(5), Some(u64::MAX)));
    assert_eq!((pad.mask(client, EV_KEY, 12), pad.mask(client, EV_REP, 0)), (None, None));
    pad.step(&Step::revoke(client), &mut [], &mut []).unwrap();
    assert_eq!(pad.client_state(client), Some(ClientState { clock: Clock::Monotonic, revoked: true, grabs: false }));
    pad.close(client).unwrap();
    assert_eq!((pad.client_state(client), pad.mask(client, EV_KEY, 0)), (None, None));
}

#[test]
fn a_device_tells_what_it_has_and_enters_nothing() {
    let mut kbd = Device::new(KEYBOARD, 0).unwrap();
    assert_eq!(kbd.codes(EV_SYN)[0], 1 << EV_SYN | 1 << EV_KEY | 1 << EV_ABS | 1 << EV_SW | 1 << EV_REP);
    assert_eq!((kbd.codes(EV_KEY)[0], kbd.codes(EV_MSC)), (1 << KEY_A, [0; 12]));
    let codes = [codes::ABS_MT_SLOT, ABS_MT_POSITION_X, ABS_MT_TRACKING_ID];
    assert_eq!(kbd.codes(EV_ABS)[0], codes.iter().map(|code| 1 << code).sum::<u64>());
    let limits = Limits { slots: 2, hint: 64, log: 900, ring: 512, realtime: 0, boottime: 500 };
    assert_eq!(kbd.limits(), limits);
    let client = kbd.open().unwrap();
    let contact = [(EV_ABS, codes::ABS_MT_SLOT, 1), (EV_ABS, ABS_MT_TRACKING_ID, 8)];
    for (kind, code, value) in [(EV_KEY, KEY_A, 1), (EV_SW, 0, 1)].into_iter().chain(contact) {
        kbd.inject(kind, code, value, 5).unwrap();
    }
    kbd.report(5).unwrap();
    let (waiting, entered) = (kbd.visible(client), kbd.history(0, &mut []));
    assert_eq!(kbd.state(EV_KEY).map(|words| words[0]), Some(1 << KEY_A));
    assert_eq!((kbd.state(EV_SW).map(|words| words[0]), kbd.state(EV_ABS)), (Some(1), None));
    assert_eq!([0, 1].map(|slot| kbd.slot(slot, ABS_MT_TRACKING_ID)), [Some(-1), Some(8)]);
    assert_eq!((kbd.slot(2, ABS_MT_TRACKING_ID), kbd.slot(0, codes::ABS_X)), (None, None));
    assert_eq!(kbd.axis(codes::ABS_MT_SLOT), Some(Axis { value: 1, maximum: 1, ..Axis::default() }));
    assert_eq!((kbd.axis(codes::ABS_X), kbd.axis(64)), (Some(Axis::default()), None));
    assert_eq!((kbd.visible(client), kbd.history(0, &mut [])), (waiting, entered));
}

#[test]
fn a_device_tells_when_a_key_repeats() {
    let mut kbd = Device::new(KEYBOARD, 0).unwrap();
    let first = Repeat { delay: 250, period: 33, key: 0, due: None };
    assert_eq!(kbd.repeat(), first);
    let client = kbd.open().unwrap();
    press(&mut kbd, 1);
    assert_eq!(kbd.repeat(), Repeat { key: KEY_A, due: Some(250_005), ..first });
    kbd.read(client, &mut [Event::default(); 8]).unwrap();
    kbd.step(&Step::tick(250_004), &mut [], &mut []).unwrap();
    assert_eq!(kbd.visible(client), Some(0));
    kbd.step(&Step::tick(250_005), &mut [], &mut []).unwrap();
    assert_eq!((kbd.visible(client), kbd.repeat().due), (Some(2), Some(283_005)));
    press(&mut kbd, 0);
    assert_eq!(kbd.repeat(), Repeat { key: KEY_A, ..first });
}

#[test]
fn four_threads_share_a_device_under_a_lock() {
    let pad = Arc::new(Mutex::new(Device::new(KEYBOARD, 0).unwrap()));
    let work = |number: i32| {
        let pad = Arc::clone(&pad);
        thread::spawn(move || {
            let client = pad.lock().unwrap().open().unwrap();
            for i in 0..40 {
                let mut pad = pad.lock().unwrap();
                pad.inject(EV_ABS, ABS_MT_POSITION_X, 40 * number + i + 1, 5).unwrap();
                pad.report(5).unwrap();
                assert!(pad.visible(client) >= Some(2));
                pad.read(client, &mut [Event::default(); 64]).unwrap();
            }
        })
    };
    for thread in [0, 1, 2, 3].map(work) {
        thread.join().unwrap();
    }
    // (four clients, and two events and a read each time)
    let mut pad = Arc::into_inner(pad).unwrap().into_inner().unwrap();
    assert_eq!(pad.history(0, &mut []), Some(4 + 3 * 160));
    thread::spawn(move || drop(pad)).join().unwrap();
}

const LINES: &str = "inputrecord 2\ndevice pad\ncap EV_KEY KEY_A\nlog 90\nsource s\ntap t\nudevice lamp\n\
    cap EV_LED LED_CAPSL\nclient c\ndo t open\ndo s event 5 EV_KEY KEY_A 1\ndo t mask EV_KEY 3 0xff\ndo c next 3\n\
    do s stream keys\n";

#[test]
fn a_record_tells_its_actors_and_lines() {
    let mut record = Record::new(LINES).unwrap();
    assert_eq!(record.counts(), Counts { devices: 2, actors: 3, lines: 5 });
    let mut name = [0; 8];
    assert_eq!((record.device(1, &mut name), &name), (Some(4), b"lamp\0\0\0\0"));
    assert_eq!((record.device(0, &mut []), record.device(2, &mut [])), (Some(3), None));
    for (number, role, device) in [(0, Role::Source, 0), (1, Role::Tap, 0), (2, Role::Client, 1)] {
        assert_eq!(record.actor(number, &mut name), Some(Actor { role, device, len: 1 }));
    }
    assert_eq!((name[0], record.actor(3, &mut name)), (b'c', None));
    let line = |actor, command, count, step| Some(Line { actor, command, count, step });
    assert_eq!(record.line(0), line(1, Command::Open, 0, Some(Step::open())));
    assert_eq!(record.line(1), line(0, Command::Event, 0, Some(Step::inject(EV_KEY, KEY_A, 1, 5))));
    let mask = Step::mask(Client::from(0), EV_KEY, 3, 0xff);
    assert_eq!(record.line(2), line(1, Command::Mask, 0, Some(mask)));
    assert_eq!(record.line(3), line(2, Command::Next, 3, None));
    assert_eq!((record.line(4), record.line(5)), (line(0, Command::Stream, 0, None), None));
    assert_eq!((Role::Joystick.to_string(), Command::SyncSlots.to_string()), ("joy".into(), "syncslots".into()));
    let mut events = [Stamped::default(); 2];
    assert_eq!((record.events(4, 0, &mut events), record.events(3, 0, &mut events)), (Some(0), None));
    let mut bytes = [0; 24];
    (bytes[0], bytes[16], bytes[18], bytes[20]) = (1, 1, 30, 1);
    record.load(4, &bytes).unwrap();
    assert_eq!(record.events(4, 0, &mut events), Some(1));
    assert_eq!(events, [Stamped { kind: EV_KEY, code: KEY_A, value: 1, now: 1_000_000 }, Stamped::default()]);
    assert_eq!((record.events(4, 1, &mut events), record.events(4, 2, &mut events)), (Some(0), None));
}

#[test]
fn a_device_is_made_of_a_description() {
    let described = Description::new().kind(EV_REP).code(EV_KEY, KEY_A).code(EV_SW, 0);
    let axis = Axis { maximum: 99, ..Axis::default() };
    let described = described.axis(ABS_MT_POSITION_X, axis).slots(2).hint(64).log(900).offsets(0, 500);
    let (mut one, mut other) = (Device::of(&described).unwrap(), Device::new(KEYBOARD, 0).unwrap());
    assert_eq!(one.limits(), other.limits());
    for kind in 0..=EV_REP {
        assert_eq!(one.codes(kind), other.codes(kind));
    }
    assert_eq!(one.axis(ABS_MT_POSITION_X), Some(axis));
    let eating = described.clone().eat(EV_KEY, KEY_A).norepeat().chord(KEY_A, codes::KEY_B).bounce(KEY_A, 1000);
    let mut eater = Device::of(&eating).unwrap();
    for (device, waiting) in [(&mut one, 2), (&mut eater, 0)] {
        let client = device.open().unwrap();
        press(device, 1);
        assert_eq!(device.visible(client), Some(waiting));
    }
}

#[test]
fn no_device_has_such_a_description() {
    let filters = (0..9).fold(Description::new(), |description, _| description.norepeat());
    let new = Description::new;
    let fuzz = Axis { fuzz: -1, ..Axis::default() };
    for (description, cause) in [
        (new().code(EV_KEY, 0), Cause::BadCode),
        (new().code(EV_KEY, 768), Cause::BadCode),
        (new().code(EV_ABS, 0), Cause::BadCode),
        (new().kind(64), Cause::BadCode),
        (new().axis(64, Axis::default()), Cause::BadCode),
        (new().axis(codes::ABS_X, fuzz), Cause::BadAxis),
        (new().slots(257), Cause::BadSlots),
        (new().hint(1), Cause::BadHint),
        (new().log(u32::MAX), Cause::BadLog),
        (new().offsets(0, u64::MAX), Cause::BadOffset),
        (filters, Cause::BadFilter),
    ] {
        assert_eq!(Device::of(&description).err(), Some(NotMade::Description(cause)));
    }
    assert_eq!(NotMade::Description(Cause::BadCode).to_string(), "bad-code");
}

#[test]
fn the_version_is_right() {
    assert!(inputplay::is_right_version());
}
