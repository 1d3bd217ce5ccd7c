//! Makes the steps that `checks/conformance` noted, and compares all that comes of each, as `checks/conformance.c` does.

use inputplay::codes::{EV_ABS, EV_KEY, EV_LED, EV_MSC, EV_REL, EV_SND, EV_SW};
use inputplay::{
    Axis, Client, Command, Counts, Description, Device, Error, Event, JoyRead, Limits, Mode, Next, Record, Reply, Stamped,
    Step, CLIENTS_MAX,
};
use std::io::{self, BufRead, Read};
use std::process::exit;

struct Numbers<'a>(std::str::SplitAsciiWhitespace<'a>);

impl Numbers<'_> {
    fn next<T: TryFrom<i128>>(&mut self) -> T {
        let number = self.0.next().and_then(|word| word.parse::<i128>().ok()).and_then(|number| T::try_from(number).ok());
        number.unwrap_or_else(|| exit(3))
    }

    fn axis(&mut self) -> Axis {
        Axis {
            value: self.next(),
            minimum: self.next(),
            maximum: self.next(),
            fuzz: self.next(),
            flat: self.next(),
            resolution: self.next(),
        }
    }

    fn step(&mut self) -> Step {
        Step {
            step: self.next(),
            client: self.next(),
            kind: self.next(),
            code: self.next(),
            value: self.next(),
            now: self.next(),
            count: self.next(),
            clock: self.next(),
            bits: self.next(),
            info: self.axis(),
        }
    }

    fn reply(&mut self) -> Reply {
        let mut reply = Reply {
            reply: self.next(),
            at: self.next(),
            client: self.next(),
            count: self.next(),
            slot: self.next(),
            why: self.next(),
            ..Reply::default()
        };
        reply.words = self.words();
        reply.info = self.axis();
        reply
    }

    /// The next word.
    fn name(&mut self) -> String {
        self.0.next().unwrap_or_else(|| exit(3)).into()
    }

    /// Twelve words of bits.
    fn words(&mut self) -> [u64; 12] {
        std::array::from_fn(|_| self.next())
    }

    /// What a query told, which was noted behind its status: `None` where that is not 0.
    fn told<T>(&mut self, read: impl FnOnce(&mut Self) -> T) -> Option<T> {
        let status: u32 = self.next();
        let told = read(self);
        (status == 0).then_some(told)
    }

    fn client(&mut self) -> Client {
        Client::from(self.next::<u32>())
    }

    fn event(&mut self) -> Event {
        Event { kind: self.next(), code: self.next(), value: self.next(), time: self.next(), place: self.next() }
    }
}

fn same<T: PartialEq + std::fmt::Debug>(steps: u64, wanted: T, came: T) {
    if wanted != came {
        println!("step {steps}: {wanted:?} was wanted, and {came:?} came");
        exit(1);
    }
}

/// The bytes behind a line.
fn bytes(input: &mut impl Read, len: usize) -> io::Result<Vec<u8>> {
    let mut made = vec![0; len];
    input.read_exact(&mut made)?;
    Ok(made)
}

/// The numbers of the next line.
fn next_numbers<'a>(input: &mut impl BufRead, line: &'a mut String) -> io::Result<Numbers<'a>> {
    line.clear();
    input.read_line(line)?;
    Ok(Numbers(line.split_ascii_whitespace()))
}

/// What a record says: its devices, actors and lines.
fn compare_said(input: &mut impl BufRead, record: &mut Record, reports: u64) -> io::Result<()> {
    let (mut line, mut name) = (String::new(), [0; 32]);
    let mut numbers = next_numbers(input, &mut line)?;
    numbers.0.next();
    let counts = Counts { devices: numbers.next(), actors: numbers.next(), lines: numbers.next() };
    same(reports, counts, record.counts());
    for device in 0..counts.devices {
        let wanted = next_numbers(input, &mut line)?.name();
        let len = record.device(device, &mut name).unwrap_or_else(|| exit(3));
        same(reports, wanted.as_bytes(), &name[..len]);
    }
    for actor in 0..counts.actors {
        let mut numbers = next_numbers(input, &mut line)?;
        let came = record.actor(actor, &mut name).unwrap_or_else(|| exit(3));
        same(reports, (numbers.next(), numbers.next()), (came.role.number(), came.device));
        same(reports, numbers.name().as_bytes(), &name[..came.len]);
    }
    for number in 0..counts.lines {
        compare_line(&mut next_numbers(input, &mut line)?, record, number, reports);
        if record.line(number).is_some_and(|line| matches!(line.command, Command::Stream | Command::Stream16)) {
            compare_events(&mut next_numbers(input, &mut line)?, record, number, reports);
        }
    }
    Ok(())
}

fn compare_line(numbers: &mut Numbers, record: &mut Record, number: u32, reports: u64) {
    let (actor, command, count, step): (u32, u32, u32, Step) =
        (numbers.next(), numbers.next(), numbers.next(), numbers.step());
    let step = (step.step != u32::MAX).then_some(step);
    let came = record.line(number).unwrap_or_else(|| exit(3));
    same(reports, (actor, command, count, step), (came.actor, came.command.number(), came.count, came.step));
}

fn compare_events(numbers: &mut Numbers, record: &mut Record, number: u32, reports: u64) {
    let mut came = vec![Stamped::default(); numbers.next()];
    same(reports, Some(came.len()), record.events(number, 0, &mut came));
    for event in came {
        let wanted =
            Stamped { kind: numbers.next(), code: numbers.next(), value: numbers.next(), now: numbers.next() };
        same(reports, wanted, event);
    }
}

/// The codes whose bits are set in words.
fn codes(words: &[u64]) -> impl Iterator<Item = u16> + '_ {
    (0..64 * words.len() as u16).filter(|code| words[usize::from(code / 64)] >> (code % 64) & 1 == 1)
}

/// A description, of the words of its bits, its axes, its limits and its filters.
fn description(numbers: &mut Numbers) -> Description {
    let types: u64 = numbers.next();
    let mut made = codes(&[types]).fold(Description::new(), Description::kind);
    made = codes(&numbers.words()).fold(made, |made, key| made.code(EV_KEY, key));
    for kind in [EV_REL, EV_ABS, EV_MSC, EV_SW, EV_LED, EV_SND] {
        let word: u64 = numbers.next();
        // (axes come with their numbers, behind these)
        if kind != EV_ABS {
            made = codes(&[word]).fold(made, |made, code| made.code(kind, code));
        }
    }
    for _ in 0..numbers.next::<usize>() {
        made = made.axis(numbers.next(), numbers.axis());
    }
    made = made.slots(numbers.next()).hint(numbers.next()).log(numbers.next());
    let filters: usize = numbers.next();
    made = made.offsets(numbers.next(), numbers.next());
    for _ in 0..filters {
        let (filter, micros): (u32, u32) = (numbers.next(), numbers.next());
        let (kind, code, second) = (numbers.next(), numbers.next(), numbers.next());
        made = match filter {
            0 => made.eat(kind, code),
            1 => made.norepeat(),
            2 => made.chord(code, second),
            _ => made.bounce(code, micros),
        };
    }
    made
}

/// Plays a record whose line had these numbers, with its streams, and compares its report.
fn compare_report(input: &mut impl BufRead, mut numbers: Numbers, reports: u64) -> io::Result<()> {
    let (len, streams, report_len): (usize, usize, usize) = (numbers.next(), numbers.next(), numbers.next());
    // A comment may hold any bytes, and says nothing.
    let text = bytes(input, len)?;
    let mut record = Record::new(&String::from_utf8_lossy(&text)).map_err(io::Error::other)?;
    for _ in 0..streams {
        let mut line = String::new();
        input.read_line(&mut line)?;
        let mut words = line.split_ascii_whitespace();
        words.next();
        let mut numbers = Numbers(words);
        let (line, len) = (numbers.next(), numbers.next());
        record.load(line, &bytes(input, len)?).map_err(io::Error::other)?;
    }
    compare_said(input, &mut record, reports)?;
    input.read_line(&mut String::new())?;
    let wanted = bytes(input, report_len)?;
    let mut came = vec![0; record.play(false).map_err(io::Error::other)?];
    record.text(0, &mut came);
    same(reports, String::from_utf8(wanted), String::from_utf8(came));
    Ok(())
}

/// An owner's call, and what it takes.
fn compare_feedback(device: &mut Device, numbers: &mut Numbers, steps: u64, events: &mut [Event]) {
    let room: usize = numbers.next();
    let (_at, full, count): (u32, u8, usize) = (numbers.next(), numbers.next(), numbers.next());
    same(steps, (full == 0).then_some(count), device.feedback(&mut events[..room]));
    for event in &events[..count] {
        let wanted = (numbers.next(), numbers.next(), numbers.next());
        same::<(u16, u16, i32)>(steps, wanted, (event.kind, event.code, event.value));
    }
}

/// The reader starts, or where the number is 1 the joystick client.
fn compare_start(device: &mut Device, numbers: &mut Numbers, steps: u64) {
    let which: u32 = numbers.next();
    let (why, client): (u32, u32) = (numbers.next(), numbers.next());
    let came = match if which == 1 { device.start_joystick() } else { device.start_reader() } {
        Ok(client) => (0, client),
        Err(Error::Refused(refusal)) => (refusal as u32, 0),
        Err(_) => exit(3),
    };
    same(steps, (why, client), came);
}

/// The reader's next event.
fn compare_next(device: &mut Device, numbers: &mut Numbers, steps: u64) {
    let mode = if numbers.next::<u32>() == 1 { Mode::Sync } else { Mode::Normal };
    let (told, event): (u32, Event) = (numbers.next(), numbers.event());
    let came = match device.next(mode) {
        Next::Event(event) => (0, event),
        Next::Dropped(event) => (1, event),
        Next::Sync(event) => (2, event),
        Next::Again => (3, Event::default()),
        Next::Synced => (4, Event::default()),
        Next::NoDevice => (5, Event::default()),
        Next::Closed => (6, Event::default()),
        _ => (7, Event::default()),
    };
    same(steps, (told, event), came);
}

/// The joystick client's next record or answer.
fn compare_joy_read(device: &mut Device, numbers: &mut Numbers, steps: u64) {
    let (told, place): (u32, u32) = (numbers.next(), numbers.next());
    let record: [u8; 8] = std::array::from_fn(|_| numbers.next());
    let came = match device.read_joystick() {
        JoyRead::Record(record) => (0, 0, record),
        JoyRead::Frame(place) => (1, place, [0; 8]),
        JoyRead::Again => (2, 0, [0; 8]),
        JoyRead::NoDevice => (3, 0, [0; 8]),
        JoyRead::Closed => (4, 0, [0; 8]),
        JoyRead::Full => (5, 0, [0; 8]),
        _ => (6, 0, [0; 8]),
    };
    same(steps, (told, place, record), came);
}

/// The clients that could read something; there is room for more or fewer of them in turn.
fn compare_readable(device: &mut Device, numbers: &mut Numbers, queries: u64) {
    const UNTOUCHED: u32 = 77;
    let mut clients = [Client::from(UNTOUCHED); CLIENTS_MAX];
    let room = match queries % 3 {
        0 => CLIENTS_MAX,
        few => few as usize,
    };
    let count = device.readable(&mut clients[..room]);
    let wanted = numbers.told(|numbers| {
        let all: Vec<u32> = (0..numbers.next::<usize>()).map(|_| numbers.next()).collect();
        all
    });
    let wanted = wanted.unwrap_or_else(|| exit(3));
    same(queries, wanted.len(), count);
    for (place, client) in clients.into_iter().enumerate() {
        let number = if place < room { wanted.get(place) } else { None };
        same(queries, *number.unwrap_or(&UNTOUCHED), u32::from(client));
    }
}

/// How a client stands, in numbers.
fn standing(device: &mut Device, client: Client) -> Option<[u32; 3]> {
    let state = device.client_state(client)?;
    Some([u32::from(state.clock), state.revoked.into(), state.grabs.into()])
}

/// The limits of a device.
fn limits(numbers: &mut Numbers) -> Limits {
    Limits {
        slots: numbers.next(),
        hint: numbers.next(),
        log: numbers.next(),
        ring: numbers.next(),
        realtime: numbers.next(),
        boottime: numbers.next(),
    }
}

/// The autorepeat: delay, period, whether it is armed, the key and the moment, which is 0 where it is not.
fn repeat(device: &mut Device) -> (i32, i32, u8, u16, u64) {
    let repeat = device.repeat();
    (repeat.delay, repeat.period, repeat.due.is_some().into(), repeat.key, repeat.due.unwrap_or(0))
}

/// A query, if the line has one, and what comes of it.
fn is_query(first: &str, device: &mut Device, numbers: &mut Numbers, queries: u64) -> bool {
    match first {
        "visible" => {
            let came = device.visible(numbers.client());
            same(queries, numbers.told(Numbers::next), came);
        }
        "readable" => compare_readable(device, numbers, queries),
        "client" => {
            let came = standing(device, numbers.client());
            same(queries, numbers.told(|numbers| std::array::from_fn(|_| numbers.next())), came);
        }
        "mask" => {
            let came = device.mask(numbers.client(), numbers.next(), numbers.next());
            same(queries, numbers.told(Numbers::next), came);
        }
        "codes" => {
            let came = device.codes(numbers.next());
            same(queries, numbers.told(Numbers::words), Some(came));
        }
        "state" => {
            let came = device.state(numbers.next());
            same(queries, numbers.told(Numbers::words), came);
        }
        "axis" => {
            let came = device.axis(numbers.next());
            same(queries, numbers.told(Numbers::axis), came);
        }
        "slot" => {
            let came = device.slot(numbers.next(), numbers.next());
            same(queries, numbers.told(Numbers::next), came);
        }
        "limits" => same(queries, numbers.told(limits), Some(device.limits())),
        "repeat" => {
            let wanted = numbers.told(|numbers| {
                (numbers.next(), numbers.next(), numbers.next(), numbers.next(), numbers.next())
            });
            same(queries, wanted, Some(repeat(device)));
        }
        _ => return false,
    }
    true
}

/// One step, and all that comes of it.
fn compare_step(
    device: &mut Device,
    numbers: &mut Numbers,
    steps: u64,
    events: &mut [Event],
    cells: &mut [i32],
) -> io::Result<()> {
    let reply = device.step(&numbers.step(), events, cells).map_err(io::Error::other)?;
    same(steps, numbers.reply(), reply);
    let (took, given) = if reply.reply == 2 { (reply.count, 0) } else { (0, reply.count) };
    for event in &events[..took as usize] {
        same(steps, numbers.event(), *event);
    }
    for value in &cells[..if reply.reply == 6 { given as usize } else { 0 }] {
        same(steps, numbers.next(), *value);
    }
    Ok(())
}

/// The device of a record's text.
fn device_of(input: &mut impl Read, numbers: &mut Numbers, at: usize) -> io::Result<Device> {
    let text = bytes(input, numbers.next())?;
    // A comment may hold any bytes, and says nothing.
    let text = String::from_utf8_lossy(&text);
    Device::new(&text, at as u32).map_err(io::Error::other)
}

fn main() -> io::Result<()> {
    let mut input = io::stdin().lock();
    let mut devices: Vec<Option<Device>> = (0..8).map(|_| None).collect();
    let (mut events, mut cells) = (vec![Event::default(); 4096], vec![0; 14 * 256]);
    let (mut steps, mut queries, mut reports, mut line) = (0, 0, 0, String::new());
    while input.read_line(&mut line)? > 0 {
        let mut words = line.split_ascii_whitespace();
        let first = words.next().unwrap_or_default();
        let mut numbers = Numbers(words);
        if first == "record" {
            compare_report(&mut input, numbers, reports)?;
            reports += 1;
            line.clear();
            continue;
        }
        let at: usize = numbers.next();
        if matches!(first, "device" | "described") {
            devices[at] = Some(match first {
                "device" => device_of(&mut input, &mut numbers, at)?,
                _ => Device::of(&description(&mut numbers)).map_err(io::Error::other)?,
            });
            line.clear();
            continue;
        }
        let device = devices[at].as_mut().unwrap_or_else(|| exit(3));
        if is_query(first, device, &mut numbers, queries) {
            queries += 1;
            line.clear();
            continue;
        }
        match first {
            "feedback" => compare_feedback(device, &mut numbers, steps, &mut events),
            "start" => compare_start(device, &mut numbers, steps),
            "force" => device.force_sync(),
            "next" => compare_next(device, &mut numbers, steps),
            "joyread" => compare_joy_read(device, &mut numbers, steps),
            _ => compare_step(device, &mut numbers, steps, &mut events, &mut cells)?,
        }
        steps += 1;
        line.clear();
    }
    println!("{steps} steps and calls and {queries} queries are told the same, and {reports} reports");
    Ok(())
}
