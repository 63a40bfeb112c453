//! The group controller once more, in plain Rust with the standard library alone: what one would
//! write by hand in place of `liftd`. It is the measure of `tools/bench/bench` and a second judge beside
//! `tools/judge/plain_group.py`. Nothing of it is proved, and it shares nothing with the program.
//!
//! ```text
//! rustc -O --edition 2021 -C target-cpu=x86-64 tools/judge/group.rs -o group
//! group [replay [--policy P]]         a script on the standard input, its report on the output;
//!                                     P is etd, fewest or wait
//! group format IMAGE BUILDING [--half N]
//! group show IMAGE BUILDING           the open calls of an image
//! group fill IMAGE BUILDING HALF      a new journal, full of batches of 63 stops of all cars
//! group batches IMAGE BUILDING COUNT  batches of one stop of car A each
//! group decide CARS CALLS TIMES KIND  KIND is call, stops, ahead or turn
//! ```
//!
//! The first three print and answer what those of `liftd` do (docs/formats.md, section 7); the
//! others are workloads, as `lift_bench` has them for the program's own crates.
use std::fs::File;
use std::io::{self, Read, Write};
use std::os::unix::fs::FileExt;
use std::process::ExitCode;

const CARS: usize = 16;
const TERMINALS: usize = 63;
const TOP_NUMBER: u32 = 16_777_215;
const TOP_DONE: u32 = 788_529_105;
/// The bytes of a script or of a building's file at most.
const TOP_BYTES: usize = 1_048_576;

// Terminals, directions, calls

/// Cars are 0 to 15, kiosks 16 to 62.
type Terminal = u8;

#[derive(Clone, Copy, PartialEq, Eq)]
enum Dir {
    Up,
    Down,
}

impl Dir {
    fn reversed(self) -> Dir {
        match self {
            Dir::Up => Dir::Down,
            Dir::Down => Dir::Up,
        }
    }

    fn name(self) -> &'static str {
        match self {
            Dir::Up => "up",
            Dir::Down => "down",
        }
    }
}

/// The next floor at which a car can still stop, and where it goes from there.
#[derive(Clone, Copy, PartialEq, Eq)]
struct Position {
    floor: u8,
    dir: Dir,
}

#[derive(Clone, Copy)]
struct Call {
    kiosk: Terminal,
    number: u32,
    from: u8,
    to: u8,
    party: u8,
}

impl Call {
    fn dir(&self) -> Dir {
        if self.to > self.from {
            Dir::Up
        } else {
            Dir::Down
        }
    }
}

/// A call that a car has; whoever isn't aboard waits.
#[derive(Clone, Copy)]
struct OpenCall {
    call: Call,
    is_aboard: bool,
}

// The building

struct Car {
    places: u32,
    serves: u64,
}

impl Car {
    fn serves(&self, floor: u8) -> bool {
        floor < 64 && self.serves >> floor & 1 == 1
    }
}

struct Building {
    floors: usize,
    door: u32,
    kiosks: Vec<u8>,
    /// Row by row.
    flight: Vec<u32>,
    cars: Vec<Car>,
}

/// Why a text is no building.
enum BuildingFault {
    NotToml,
    Missing,
    WrongType,
    OutOfRange,
    TableShape,
    Detour(usize, usize, usize),
}

impl BuildingFault {
    fn report(&self) -> String {
        match self {
            BuildingFault::NotToml => "1".into(),
            BuildingFault::Missing => "2".into(),
            BuildingFault::WrongType => "3".into(),
            BuildingFault::OutOfRange => "4".into(),
            BuildingFault::TableShape => "5".into(),
            BuildingFault::Detour(i, j, k) => format!("6 {i} {j} {k}"),
        }
    }
}

fn key<'a>(table: &'a toml::Table, name: &str) -> Result<&'a toml::Value, BuildingFault> {
    table.get(name).ok_or(BuildingFault::Missing)
}

fn array(value: &toml::Value) -> Result<&[toml::Value], BuildingFault> {
    value.as_array().ok_or(BuildingFault::WrongType)
}

fn integer(value: &toml::Value, low: i64, high: i64) -> Result<u32, BuildingFault> {
    let number = value.as_integer().ok_or(BuildingFault::WrongType)?;
    if (low..=high).contains(&number) {
        Ok(number as u32)
    } else {
        Err(BuildingFault::OutOfRange)
    }
}

fn floors_in(value: &toml::Value, floors: usize, most: usize) -> Result<Vec<u8>, BuildingFault> {
    let items = array(value)?;
    if items.is_empty() || items.len() > most {
        return Err(BuildingFault::OutOfRange);
    }
    items
        .iter()
        .map(|item| Ok(integer(item, 0, floors as i64 - 1)? as u8))
        .collect()
}

fn flight_in(value: &toml::Value, floors: usize) -> Result<Vec<u32>, BuildingFault> {
    let rows = array(value)?;
    if rows.len() != floors {
        return Err(BuildingFault::TableShape);
    }
    let mut flight = Vec::with_capacity(floors * floors);
    for (i, row) in rows.iter().enumerate() {
        let row = array(row)?;
        if row.len() != floors {
            return Err(BuildingFault::TableShape);
        }
        for (j, time) in row.iter().enumerate() {
            let (low, high) = if i == j { (0, 0) } else { (1, 600_000) };
            flight.push(integer(time, low, high)?);
        }
    }
    Ok(flight)
}

fn car_in(value: &toml::Value, floors: usize) -> Result<Car, BuildingFault> {
    let table = value.as_table().ok_or(BuildingFault::WrongType)?;
    let places = integer(key(table, "places")?, 1, 32)?;
    let serves = match table.get("serves") {
        None => u64::MAX >> (64 - floors),
        Some(value) => floors_in(value, floors, usize::MAX)?
            .iter()
            .fold(0, |set, floor| set | 1 << floor),
    };
    Ok(Car { places, serves })
}

impl Building {
    fn read(text: &str) -> Result<Building, BuildingFault> {
        let table = toml::parse(text).ok_or(BuildingFault::NotToml)?;
        let floors = integer(key(&table, "floors")?, 2, 64)? as usize;
        let door = integer(key(&table, "door_ms")?, 0, 60_000)?;
        let kiosks = floors_in(key(&table, "kiosks")?, floors, 47)?;
        let flight = flight_in(key(&table, "flight")?, floors)?;
        let cars = array(key(&table, "cars")?)?;
        if cars.is_empty() || cars.len() > CARS {
            return Err(BuildingFault::OutOfRange);
        }
        let cars = cars
            .iter()
            .map(|car| car_in(car, floors))
            .collect::<Result<_, _>>()?;
        let building = Building {
            floors,
            door,
            kiosks,
            flight,
            cars,
        };
        match building.detour() {
            None => Ok(building),
            Some((i, j, k)) => Err(BuildingFault::Detour(i, j, k)),
        }
    }

    fn flights_from(&self, floor: usize) -> &[u32] {
        &self.flight[floor * self.floors..][..self.floors]
    }

    /// The first floors i, j, k where a stop at j makes the way from i to k shorter.
    fn detour(&self) -> Option<(usize, usize, usize)> {
        for i in 0..self.floors {
            let direct = self.flights_from(i);
            for j in 0..self.floors {
                let over = direct[j] + self.door;
                let onwards = self.flights_from(j);
                let is_longer = |(direct, onward): (&u32, &u32)| *direct > over + onward;
                if let Some(k) = direct.iter().zip(onwards).position(is_longer) {
                    return Some((i, j, k));
                }
            }
        }
        None
    }

    fn kiosk_floor(&self, kiosk: Terminal) -> u8 {
        self.kiosks[usize::from(kiosk) - CARS]
    }

    fn allows_call(&self, car: u8, call: &Call) -> bool {
        let from = self.kiosks.get(usize::from(call.kiosk) - CARS);
        from == Some(&call.from)
            && self
                .cars
                .get(usize::from(car))
                .is_some_and(|car| car.serves(call.from) && car.serves(call.to))
    }

    fn allows_stop(&self, car: u8, floor: u8) -> bool {
        self.cars
            .get(usize::from(car))
            .is_some_and(|car| car.serves(floor))
    }
}

// The register

/// What is written of calls and stops; the first two are entries, the others make a base.
#[derive(Clone, Copy)]
enum Record {
    Allot {
        car: u8,
        call: Call,
    },
    Stop {
        car: u8,
        number: u32,
        at: Position,
    },
    Row {
        car: u8,
        call: Call,
        is_aboard: bool,
    },
    LastCall {
        car: u8,
        call: Call,
    },
    LastStop {
        car: u8,
        number: u32,
        at: Position,
    },
    Done(u32),
}

/// The last command of a terminal that was accepted.
#[derive(Clone, Copy)]
enum Last {
    Call { car: u8, call: Call },
    Stop { number: u32, at: Position },
}

#[derive(Clone, Default)]
struct Load {
    /// In order of allotment.
    calls: Vec<OpenCall>,
    /// Those of the calls.
    persons: u32,
}

/// The open calls of each car, the last command of each terminal, and how many calls are done.
#[derive(Clone)]
struct Register {
    loads: [Load; CARS],
    last: [Option<Last>; TERMINALS],
    done: u32,
}

impl Register {
    fn new() -> Register {
        Register {
            loads: Default::default(),
            last: [None; TERMINALS],
            done: 0,
        }
    }

    fn last_number(&self, terminal: Terminal) -> u32 {
        match self.last[usize::from(terminal)] {
            None => 0,
            Some(Last::Call { call, .. }) => call.number,
            Some(Last::Stop { number, .. }) => number,
        }
    }

    fn open_count(&self) -> usize {
        self.loads.iter().map(|load| load.calls.len()).sum()
    }

    fn has_places(&self, building: &Building, car: u8, party: u8) -> bool {
        let car = usize::from(car);
        self.loads[car].persons + u32::from(party) <= building.cars[car].places
    }

    /// Whether a record of its form is one that the building and the register allow.
    fn fits(&self, building: &Building, record: &Record) -> bool {
        match *record {
            Record::Allot { car, call } => {
                building.allows_call(car, &call)
                    && call.number == self.last_number(call.kiosk) + 1
                    && self.has_places(building, car, call.party)
            }
            Record::Stop { car, number, at } => {
                building.allows_stop(car, at.floor) && number == self.last_number(car) + 1
            }
            Record::Row { car, call, .. } => {
                building.allows_call(car, &call) && self.has_places(building, car, call.party)
            }
            Record::LastCall { car, call } => building.allows_call(car, &call),
            Record::LastStop { car, at, .. } => building.allows_stop(car, at.floor),
            Record::Done(count) => {
                let calls: u64 = (CARS..TERMINALS)
                    .map(|kiosk| u64::from(self.last_number(kiosk as u8)))
                    .sum();
                self.open_count() as u64 + u64::from(count) == calls
            }
        }
    }

    fn apply(&mut self, record: &Record) {
        match *record {
            Record::Allot { car, call } => {
                self.open(car, call, false);
                self.last[usize::from(call.kiosk)] = Some(Last::Call { car, call });
            }
            Record::Stop { car, number, at } => {
                self.stop(car, at);
                self.last[usize::from(car)] = Some(Last::Stop { number, at });
            }
            Record::Row {
                car,
                call,
                is_aboard,
            } => self.open(car, call, is_aboard),
            Record::LastCall { car, call } => {
                self.last[usize::from(call.kiosk)] = Some(Last::Call { car, call });
            }
            Record::LastStop { car, number, at } => {
                self.last[usize::from(car)] = Some(Last::Stop { number, at });
            }
            Record::Done(count) => self.done = count,
        }
    }

    fn open(&mut self, car: u8, call: Call, is_aboard: bool) {
        let load = &mut self.loads[usize::from(car)];
        load.persons += u32::from(call.party);
        load.calls.push(OpenCall { call, is_aboard });
    }

    /// Who goes there leaves; then who waits there to go that way boards.
    fn stop(&mut self, car: u8, at: Position) {
        let load = &mut self.loads[usize::from(car)];
        let (mut left, mut persons) = (0, load.persons);
        load.calls.retain_mut(|row| {
            if row.is_aboard {
                if row.call.to == at.floor {
                    left += 1;
                    persons -= u32::from(row.call.party);
                    return false;
                }
            } else if row.call.from == at.floor && row.call.dir() == at.dir {
                row.is_aboard = true;
            }
            true
        });
        load.persons = persons;
        self.done += left;
    }

    /// The register as records.
    fn base(&self) -> Vec<Record> {
        let rows = self.loads.iter().enumerate().flat_map(|(car, load)| {
            load.calls.iter().map(move |row| Record::Row {
                car: car as u8,
                call: row.call,
                is_aboard: row.is_aboard,
            })
        });
        let last = self
            .last
            .iter()
            .enumerate()
            .filter_map(|(terminal, last)| match *last {
                None => None,
                Some(Last::Call { car, call }) => Some(Record::LastCall { car, call }),
                Some(Last::Stop { number, at }) => Some(Record::LastStop {
                    car: terminal as u8,
                    number,
                    at,
                }),
            });
        rows.chain(last).chain([Record::Done(self.done)]).collect()
    }
}

// Stop lists and costs

/// A pass of a car and a floor at which it halts in that pass, as one number.
type Halt = usize;

const PASSES: usize = 3;
const HALTS: usize = PASSES * 64;

/// Pass 0 is in the car's direction from where it is, 1 is back, 2 in its direction again.
fn pass_of(position: Position, call: &Call, leg: u8) -> usize {
    if call.dir() != position.dir {
        return 1;
    }
    let is_ahead = match position.dir {
        Dir::Up => leg >= position.floor,
        Dir::Down => leg <= position.floor,
    };
    if is_ahead {
        0
    } else {
        2
    }
}

fn pass_dir(pass: usize, dir: Dir) -> Dir {
    if pass == 1 {
        dir.reversed()
    } else {
        dir
    }
}

/// Where a car still halts: a set of floors for each pass.
#[derive(Clone, Copy)]
struct Halts {
    floors: [u64; PASSES],
    dir: Dir,
}

impl Halts {
    /// None yet.
    fn at(position: Position) -> Halts {
        Halts {
            floors: [0; PASSES],
            dir: position.dir,
        }
    }

    fn of(position: Position, rows: &[OpenCall]) -> Halts {
        let mut halts = Halts::at(position);
        for row in rows {
            halts.add(position, row);
        }
        halts
    }

    /// Adds those of a call, and gives the one at which its passengers leave.
    fn add(&mut self, position: Position, row: &OpenCall) -> Halt {
        let call = &row.call;
        let (leg, boarding) = if row.is_aboard {
            (call.to, 0)
        } else {
            (call.from, 1 << call.from)
        };
        let pass = pass_of(position, call, leg);
        self.floors[pass] |= boarding | 1 << call.to;
        64 * pass + usize::from(call.to)
    }

    fn has(&self, halt: Halt) -> bool {
        self.floors[halt / 64] >> (halt % 64) & 1 == 1
    }

    fn of_pass(&self, pass: usize) -> (u64, Dir) {
        (self.floors[pass], pass_dir(pass, self.dir))
    }

    /// Visits each, in the car's order.
    fn each(&self, mut visit: impl FnMut(Halt)) {
        for pass in 0..PASSES {
            let (mut floors, dir) = self.of_pass(pass);
            while floors != 0 {
                let floor = first_floor(floors, dir);
                floors &= !(1 << floor);
                visit(64 * pass + floor);
            }
        }
    }

    /// The first stop, with the direction in which the car goes on.
    fn next_stop(&self) -> Option<Position> {
        let mut passes = (0..PASSES).map(|pass| self.of_pass(pass));
        let (floors, dir) = passes.find(|(floors, _)| *floors != 0)?;
        Some(Position {
            floor: first_floor(floors, dir) as u8,
            dir,
        })
    }
}

/// The first of some floors in a direction.
fn first_floor(floors: u64, dir: Dir) -> usize {
    match dir {
        Dir::Up => floors.trailing_zeros() as usize,
        Dir::Down => 63 - floors.leading_zeros() as usize,
    }
}

/// The time in ms of a car that halts at one floor after another.
struct Clock {
    floor: usize,
    time: u32,
}

impl Clock {
    fn at(position: Position) -> Clock {
        Clock {
            floor: position.floor.into(),
            time: 0,
        }
    }

    /// When the car stands at the next floor; then its doors are closed again.
    fn move_to(&mut self, building: &Building, floor: usize) -> u32 {
        let arrival = self.time + building.flight[self.floor * building.floors + floor];
        self.floor = floor;
        self.time = arrival + building.door;
        arrival
    }
}

/// What a call adds to the times to destination of all persons of a car, its own party with them.
fn total_cost(building: &Building, position: Position, rows: &[OpenCall], call: Call) -> u64 {
    let row = OpenCall {
        call,
        is_aboard: false,
    };
    let mut before = Halts::at(position);
    let mut leaving = [0u32; HALTS];
    for row in rows {
        leaving[before.add(position, row)] += u32::from(row.call.party);
    }
    let mut after = before;
    let goal = after.add(position, &row);
    let mut cost = 0;
    let (mut early, mut late) = (Clock::at(position), Clock::at(position));
    after.each(|halt| {
        let arrival = late.move_to(building, halt % 64);
        if before.has(halt) {
            let delay = arrival - early.move_to(building, halt % 64);
            cost += u64::from(leaving[halt]) * u64::from(delay);
        }
        if halt == goal {
            cost += u64::from(call.party) * u64::from(arrival);
        }
    });
    cost
}

/// When a car that takes the call is where its passengers wait.
fn wait(building: &Building, position: Position, rows: &[OpenCall], call: Call) -> u64 {
    let mut halts = Halts::of(position, rows);
    let row = OpenCall {
        call,
        is_aboard: false,
    };
    let start = 64 * (halts.add(position, &row) / 64) + usize::from(call.from);
    let mut clock = Clock::at(position);
    let mut arrival = 0;
    halts.each(|halt| {
        let time = clock.move_to(building, halt % 64);
        if halt == start {
            arrival = time;
        }
    });
    u64::from(arrival)
}

// Decisions

#[derive(Clone, Copy)]
enum Policy {
    /// The least total cost.
    EstimatedTime,
    FewestPersons,
    ShortestWait,
}

#[derive(Clone, Copy)]
enum Command {
    Call { to: u8, party: u8 },
    Stop(Position),
    Place(Position),
}

#[derive(Clone, Copy)]
enum Reply {
    Car(u8),
    Next(Option<Position>),
    No(u8),
    Unknown,
}

/// How a number stands to the last one of its terminal.
enum Turn {
    New,
    Repeat(Last),
}

const NO_SUCH_FLOOR: u8 = 1;
const SAME_FLOOR: u8 = 2;
const NO_CAR: u8 = 3;
const OLD_NUMBER: u8 = 4;
const GAP_NUMBER: u8 = 5;
const OTHER_BODY: u8 = 6;
const NOT_SERVED: u8 = 11;

/// Decides commands one after another; what they add to the journal gathers in the batch.
struct Dispatcher<'a> {
    building: &'a Building,
    policy: Policy,
    register: Register,
    positions: [Option<Position>; CARS],
    batch: Vec<Record>,
}

impl<'a> Dispatcher<'a> {
    fn new(building: &'a Building, policy: Policy) -> Dispatcher<'a> {
        Dispatcher {
            building,
            policy,
            register: Register::new(),
            positions: [None; CARS],
            batch: Vec::with_capacity(TERMINALS),
        }
    }

    fn rows(&self, car: u8) -> &[OpenCall] {
        &self.register.loads[usize::from(car)].calls
    }

    /// The cars that may take a call, each with its position.
    fn eligible(&self, call: Call) -> impl Iterator<Item = (u8, Position)> + '_ {
        (0u8..)
            .zip(&self.building.cars)
            .filter_map(move |(letter, car)| {
                let position = self.positions[usize::from(letter)]?;
                let takes = car.serves(call.from)
                    && car.serves(call.to)
                    && self.register.has_places(self.building, letter, call.party);
                takes.then_some((letter, position))
            })
    }

    fn cost(&self, car: u8, position: Position, call: Call) -> u64 {
        total_cost(self.building, position, self.rows(car), call)
    }

    /// The car that the policy picks; of several the first.
    fn choose(&self, call: Call) -> Option<u8> {
        let measure = |(car, position): &(u8, Position)| match self.policy {
            Policy::EstimatedTime => self.cost(*car, *position, call),
            Policy::FewestPersons => u64::from(self.register.loads[usize::from(*car)].persons),
            Policy::ShortestWait => wait(self.building, *position, self.rows(*car), call),
        };
        self.eligible(call).min_by_key(measure).map(|(car, _)| car)
    }

    fn decide(&mut self, terminal: Terminal, number: u32, command: Command) -> Reply {
        let decided = match command {
            Command::Call { to, party } => self.call(terminal, number, to, party),
            Command::Stop(at) => self.stop(terminal, number, at),
            Command::Place(at) => self.place(terminal, at),
        };
        decided.unwrap_or_else(Reply::No)
    }

    fn accept(&mut self, record: Record) {
        self.register.apply(&record);
        self.batch.push(record);
    }

    fn turn_of(&self, terminal: Terminal, number: u32) -> Result<Turn, u8> {
        let last = self.register.last_number(terminal);
        match self.register.last[usize::from(terminal)] {
            Some(content) if number == last => Ok(Turn::Repeat(content)),
            _ if number <= last => Err(OLD_NUMBER),
            _ if number > last + 1 => Err(GAP_NUMBER),
            _ => Ok(Turn::New),
        }
    }

    fn call(&mut self, kiosk: Terminal, number: u32, to: u8, party: u8) -> Result<Reply, u8> {
        let from = self.building.kiosk_floor(kiosk);
        if usize::from(to) >= self.building.floors {
            return Err(NO_SUCH_FLOOR);
        }
        if to == from {
            return Err(SAME_FLOOR);
        }
        match self.turn_of(kiosk, number)? {
            Turn::Repeat(Last::Call { car, call }) if call.to == to && call.party == party => {
                Ok(Reply::Car(car))
            }
            Turn::Repeat(_) => Err(OTHER_BODY),
            Turn::New => {
                let call = Call {
                    kiosk,
                    number,
                    from,
                    to,
                    party,
                };
                let car = self.choose(call).ok_or(NO_CAR)?;
                self.accept(Record::Allot { car, call });
                Ok(Reply::Car(car))
            }
        }
    }

    fn check_floor(&self, car: u8, floor: u8) -> Result<(), u8> {
        if usize::from(floor) >= self.building.floors {
            Err(NO_SUCH_FLOOR)
        } else if !self.building.allows_stop(car, floor) {
            Err(NOT_SERVED)
        } else {
            Ok(())
        }
    }

    fn stop(&mut self, car: u8, number: u32, at: Position) -> Result<Reply, u8> {
        self.check_floor(car, at.floor)?;
        match self.turn_of(car, number)? {
            Turn::Repeat(Last::Stop { at: before, .. }) if before == at => {}
            Turn::Repeat(_) => return Err(OTHER_BODY),
            Turn::New => self.accept(Record::Stop { car, number, at }),
        }
        Ok(self.arrive(car, at))
    }

    fn place(&mut self, car: u8, at: Position) -> Result<Reply, u8> {
        self.check_floor(car, at.floor)?;
        Ok(self.arrive(car, at))
    }

    fn arrive(&mut self, car: u8, at: Position) -> Reply {
        self.positions[usize::from(car)] = Some(at);
        Reply::Next(Halts::of(at, self.rows(car)).next_stop())
    }
}

// Disks

type Sector = [u8; 512];

/// A call of the device that failed.
#[derive(Debug)]
struct Failed;

trait Disk {
    fn sectors(&self) -> u64;
    fn read(&mut self, sector: u32, into: &mut Sector) -> Result<(), Failed>;
    fn write(&mut self, sector: u32, bytes: &Sector) -> Result<(), Failed>;
    fn sync(&mut self) -> Result<(), Failed>;
}

/// What becomes of the sectors that a power cut finds loose.
#[derive(Clone, Copy)]
enum Cut {
    Keep,
    Lose,
    Fill(u8),
}

/// Sectors as they are read and as the last sync left them; with a fuse after which calls fail.
struct MemoryDisk {
    current: Vec<Sector>,
    safe: Vec<Sector>,
    /// Written, or a write of them failed, since the last sync.
    loose: Vec<u32>,
    fuse: Option<u32>,
}

impl MemoryDisk {
    fn new(sectors: usize) -> MemoryDisk {
        let zeros = vec![[0; 512]; sectors];
        MemoryDisk {
            current: zeros.clone(),
            safe: zeros,
            loose: Vec::new(),
            fuse: None,
        }
    }

    fn pass(&mut self) -> Result<(), Failed> {
        match &mut self.fuse {
            None => Ok(()),
            Some(0) => Err(Failed),
            Some(calls) => {
                *calls -= 1;
                Ok(())
            }
        }
    }

    fn cut(&mut self, cut: Cut) {
        for sector in self.loose.drain(..) {
            let at = sector as usize;
            match cut {
                Cut::Keep => {}
                Cut::Lose => self.current[at] = self.safe[at],
                Cut::Fill(byte) => self.current[at] = [byte; 512],
            }
            self.safe[at] = self.current[at];
        }
        self.fuse = None;
    }
}

impl Disk for MemoryDisk {
    fn sectors(&self) -> u64 {
        self.current.len() as u64
    }

    fn read(&mut self, sector: u32, into: &mut Sector) -> Result<(), Failed> {
        self.pass()?;
        *into = self.current[sector as usize];
        Ok(())
    }

    fn write(&mut self, sector: u32, bytes: &Sector) -> Result<(), Failed> {
        if !self.loose.contains(&sector) {
            self.loose.push(sector);
        }
        self.pass()?;
        self.current[sector as usize] = *bytes;
        Ok(())
    }

    fn sync(&mut self) -> Result<(), Failed> {
        self.pass()?;
        for sector in self.loose.drain(..) {
            self.safe[sector as usize] = self.current[sector as usize];
        }
        Ok(())
    }
}

/// A file of sectors, read ahead by a piece of it.
struct FileDisk {
    file: File,
    sectors: u64,
    /// The sectors from `first` on.
    piece: Vec<u8>,
    first: u64,
}

impl FileDisk {
    const PIECE: usize = 128 * 512;

    fn of(file: File) -> io::Result<FileDisk> {
        let sectors = file.metadata()?.len() / 512;
        Ok(FileDisk {
            file,
            sectors,
            piece: Vec::new(),
            first: 0,
        })
    }

    fn create(path: &str, sectors: u64) -> io::Result<FileDisk> {
        let file = File::options()
            .read(true)
            .write(true)
            .create(true)
            .truncate(true)
            .open(path)?;
        file.set_len(512 * sectors)?;
        file.sync_all()?;
        FileDisk::of(file)
    }

    fn fetch(&mut self, sector: u64) -> io::Result<()> {
        let rest = (self.sectors - sector) * 512;
        self.piece.resize(FileDisk::PIECE.min(rest as usize), 0);
        self.first = sector;
        self.file.read_exact_at(&mut self.piece, 512 * sector)
    }
}

impl Disk for FileDisk {
    fn sectors(&self) -> u64 {
        self.sectors
    }

    fn read(&mut self, sector: u32, into: &mut Sector) -> Result<(), Failed> {
        let sector = u64::from(sector);
        if sector < self.first || sector >= self.first + self.piece.len() as u64 / 512 {
            if let Err(_fault) = self.fetch(sector) {
                self.piece.clear();
                return Err(Failed);
            }
        }
        let at = (sector - self.first) as usize * 512;
        into.copy_from_slice(&self.piece[at..at + 512]);
        Ok(())
    }

    fn write(&mut self, sector: u32, bytes: &Sector) -> Result<(), Failed> {
        self.piece.clear();
        self.file
            .write_all_at(bytes, 512 * u64::from(sector))
            .map_err(|_| Failed)
    }

    fn sync(&mut self) -> Result<(), Failed> {
        self.file.sync_data().map_err(|_| Failed)
    }
}

// Records in bytes

const CLOSED: Sector = [0; 512];
const OPEN: Sector = {
    let mut gate = CLOSED;
    gate[0] = MARK;
    gate
};
const MARK: u8 = 0xA5;
const TOP_RECORDS: usize = 63;

fn bodies(records: usize) -> u32 {
    if records <= 31 {
        1
    } else {
        2
    }
}

fn spelled(kind: u8, terminal: u8, middle: [u8; 5], number: u32) -> [u8; 16] {
    let [a, b, c, d, e] = middle;
    let [n0, n1, n2, n3] = number.to_be_bytes();
    [kind, terminal, a, b, c, d, e, 0, n0, n1, n2, n3, 0, 0, 0, 0]
}

fn encode(record: &Record) -> [u8; 16] {
    let of_call = |kind, car, call: Call, status| {
        spelled(
            kind,
            call.kiosk,
            [call.from, call.to, car, call.party, status],
            call.number,
        )
    };
    let of_stop = |kind, car, number, at: Position| {
        spelled(kind, car, [at.floor, at.dir as u8, 0, 0, 0], number)
    };
    match *record {
        Record::Allot { car, call } => of_call(1, car, call, 0),
        Record::Stop { car, number, at } => of_stop(2, car, number, at),
        Record::Row {
            car,
            call,
            is_aboard,
        } => of_call(4, car, call, u8::from(is_aboard)),
        Record::LastCall { car, call } => of_call(5, car, call, 0),
        Record::LastStop { car, number, at } => of_stop(5, car, number, at),
        Record::Done(count) => spelled(6, 0, [0; 5], count),
    }
}

/// The record that these bytes spell in this version.
fn decode(bytes: &[u8], version: u8) -> Option<Record> {
    let bytes: &[u8; 16] = bytes.try_into().ok()?;
    let [kind, terminal, a, b, c, d, e, 0, n0, n1, n2, n3, 0, 0, 0, 0] = *bytes else {
        return None;
    };
    let number = u32::from_be_bytes([n0, n1, n2, n3]);
    if kind == 6 {
        let is_blank = [terminal, a, b, c, d, e] == [0; 6];
        (is_blank && number <= TOP_DONE).then_some(Record::Done(number))
    } else if !(1..=TOP_NUMBER).contains(&number) {
        None
    } else if usize::from(terminal) < CARS {
        let is_blank = [c, d, e] == [0; 3];
        is_blank.then(|| decode_stop(kind, terminal, number, a, b))?
    } else {
        let party = match (version, d) {
            (1, 0) => 1,
            (1, _) => return None,
            _ => d,
        };
        let call = Call {
            kiosk: terminal,
            number,
            from: a,
            to: b,
            party,
        };
        decode_call(kind, call, c, e)
    }
}

fn decode_stop(kind: u8, car: u8, number: u32, floor: u8, dir: u8) -> Option<Record> {
    let dir = match dir {
        0 => Dir::Up,
        1 => Dir::Down,
        _ => return None,
    };
    let at = Position { floor, dir };
    match kind {
        2 if floor <= 63 => Some(Record::Stop { car, number, at }),
        5 if floor <= 63 => Some(Record::LastStop { car, number, at }),
        _ => None,
    }
}

fn decode_call(kind: u8, call: Call, car: u8, status: u8) -> Option<Record> {
    let is_lawful = usize::from(call.kiosk) < TERMINALS
        && call.from <= 63
        && call.to <= 63
        && call.from != call.to
        && usize::from(car) < CARS
        && (1..=15).contains(&call.party);
    match (kind, status) {
        _ if !is_lawful => None,
        (1, 0) => Some(Record::Allot { car, call }),
        (4, 0 | 1) => Some(Record::Row {
            car,
            call,
            is_aboard: status == 1,
        }),
        (5, 0) => Some(Record::LastCall { car, call }),
        _ => None,
    }
}

// The journal

/// What a journal is for: floors, cars, kiosks, and the sectors of a half.
#[derive(Clone, Copy, PartialEq, Eq)]
struct Shape {
    floors: u8,
    cars: u8,
    kiosks: u8,
    half: u32,
}

impl Shape {
    fn of(building: &Building, half: u32) -> Shape {
        let (cars, kiosks) = (building.cars.len() as u8, building.kiosks.len() as u8);
        Shape {
            floors: building.floors as u8,
            cars,
            kiosks,
            half,
        }
    }

    fn sectors(&self) -> u64 {
        2 + 2 * u64::from(self.half)
    }

    fn stamp(&self) -> Sector {
        let mut stamp = CLOSED;
        stamp[..8].copy_from_slice(b"LIFTJRNL");
        stamp[8..12].copy_from_slice(&[self.floors, self.cars, self.kiosks, 0]);
        stamp[12..16].copy_from_slice(&self.half.to_be_bytes());
        stamp
    }

    fn read(stamp: &Sector) -> Option<Shape> {
        let half = u32::from_be_bytes(stamp[12..16].try_into().ok()?);
        let shape = Shape {
            floors: stamp[8],
            cars: stamp[9],
            kiosks: stamp[10],
            half,
        };
        let is_lawful = (2..=64).contains(&shape.floors)
            && (1..=16).contains(&shape.cars)
            && (1..=47).contains(&shape.kiosks)
            && (64..=1_000_000).contains(&half);
        (is_lawful && shape.stamp() == *stamp).then_some(shape)
    }
}

/// Why an image doesn't open.
#[derive(Debug)]
enum Refused {
    Device,
    NotFormatted,
    /// At this sector.
    Damaged(u32),
    OtherBuilding,
    /// The record at this place doesn't fit.
    Misfit(u64),
}

impl Refused {
    fn report(&self) -> String {
        match self {
            Refused::Device => "1".into(),
            Refused::NotFormatted => "2".into(),
            Refused::Damaged(sector) => format!("3 {sector}"),
            Refused::OtherBuilding => "6".into(),
            Refused::Misfit(place) => format!("7 {place}"),
        }
    }
}

impl From<Failed> for Refused {
    fn from(_failed: Failed) -> Refused {
        Refused::Device
    }
}

/// What may follow in a chain: a base in its order or none, then entries alone.
#[derive(Clone, Copy)]
enum Stage {
    Start,
    /// Of this car, or a later one.
    Rows(u8),
    /// Behind that of this terminal.
    Lasts(u8),
    Entries,
}

impl Stage {
    fn next(self, record: &Record) -> Option<Stage> {
        match (self, record) {
            (Stage::Start | Stage::Entries, Record::Allot { .. } | Record::Stop { .. }) => {
                Some(Stage::Entries)
            }
            (Stage::Start, Record::Row { car, .. }) => Some(Stage::Rows(*car)),
            (Stage::Rows(before), Record::Row { car, .. }) if before <= *car => {
                Some(Stage::Rows(*car))
            }
            (_, Record::LastCall { call, .. }) => self.after_last(call.kiosk),
            (_, Record::LastStop { car, .. }) => self.after_last(*car),
            (Stage::Start | Stage::Rows(_) | Stage::Lasts(_), Record::Done(_)) => {
                Some(Stage::Entries)
            }
            _ => None,
        }
    }

    fn after_last(self, terminal: Terminal) -> Option<Stage> {
        match self {
            Stage::Start | Stage::Rows(_) => Some(Stage::Lasts(terminal)),
            Stage::Lasts(before) if before < terminal => Some(Stage::Lasts(terminal)),
            _ => None,
        }
    }
}

/// A journal, with the place of its next batch.
struct Journal<D> {
    disk: D,
    half: u32,
    is_second: bool,
    used: u32,
    /// The number of the next batch.
    next: u32,
}

/// A chain while it is read.
struct Chain<'a> {
    building: &'a Building,
    register: Register,
    is_ours: bool,
    version: u8,
    stage: Stage,
    places: u64,
    misfit: Option<u64>,
}

impl Chain<'_> {
    /// Takes in what stands in a body after its header; nothing where a record breaks a rule.
    fn take(&mut self, version: u8, records: &[u8]) -> Option<()> {
        self.version = version;
        for bytes in records.chunks_exact(16) {
            let record = decode(bytes, version)?;
            self.stage = self.stage.next(&record)?;
            if self.is_ours && self.misfit.is_none() {
                if self.register.fits(self.building, &record) {
                    self.register.apply(&record);
                } else {
                    self.misfit = Some(self.places);
                }
            }
            self.places += 1;
        }
        Some(())
    }
}

/// The version of a batch with this number, and how many records it has.
fn header(sector: &Sector, number: u32) -> Option<(u8, usize)> {
    let [0x4C, 0x42, version, 0, c0, c1, 0, 0, n0, n1, n2, n3, 0, 0, 0, 0] = sector[..16] else {
        return None;
    };
    let count = usize::from(u16::from_be_bytes([c0, c1]));
    let is_lawful = matches!(version, 1 | 2)
        && (1..=TOP_RECORDS).contains(&count)
        && u32::from_be_bytes([n0, n1, n2, n3]) == number;
    is_lawful.then_some((version, count))
}

impl<D: Disk> Journal<D> {
    fn format(mut disk: D, shape: Shape) -> Result<D, Failed> {
        disk.write(0, &CLOSED)?;
        disk.write(2, &CLOSED)?;
        disk.sync()?;
        disk.write(1, &shape.stamp())?;
        disk.sync()?;
        Ok(disk)
    }

    /// A journal that is still to be opened.
    fn on(disk: D) -> Journal<D> {
        Journal {
            disk,
            half: 0,
            is_second: false,
            used: 0,
            next: 1,
        }
    }

    /// Reads the chain of the picked half, and what it says.
    fn open(&mut self, building: &Building) -> Result<Register, Refused> {
        self.disk.sync()?;
        if self.disk.sectors() < 2 {
            return Err(Refused::NotFormatted);
        }
        let mut sector = CLOSED;
        self.disk.read(1, &mut sector)?;
        let shape = Shape::read(&sector).ok_or(Refused::NotFormatted)?;
        if self.disk.sectors() < shape.sectors() {
            return Err(Refused::NotFormatted);
        }
        self.disk.read(0, &mut sector)?;
        let is_second = sector[0] == MARK;
        (self.half, self.is_second, self.used, self.next) = (shape.half, is_second, 0, 1);
        let mut chain = Chain {
            building,
            register: Register::new(),
            is_ours: shape == Shape::of(building, shape.half),
            version: 1,
            stage: Stage::Start,
            places: 0,
            misfit: None,
        };
        self.read_chain(&mut chain)?;
        match chain.misfit {
            _ if !chain.is_ours => Err(Refused::OtherBuilding),
            Some(place) => Err(Refused::Misfit(place)),
            None => Ok(chain.register),
        }
    }

    fn read_chain(&mut self, chain: &mut Chain) -> Result<(), Refused> {
        let mut gate = CLOSED;
        loop {
            let at = self.place_of(self.is_second) + self.used;
            self.disk.read(at, &mut gate)?;
            if gate[0] != MARK {
                return match chain.stage {
                    Stage::Rows(_) | Stage::Lasts(_) => Err(Refused::Damaged(at)),
                    Stage::Start | Stage::Entries => Ok(()),
                };
            }
            let bodies = self.read_batch(at, chain)?.ok_or(Refused::Damaged(at))?;
            self.used += 1 + bodies;
            self.next += 1;
        }
    }

    /// The sectors of the body after an open gate; none where it breaks a rule.
    fn read_batch(&mut self, gate: u32, chain: &mut Chain) -> Result<Option<u32>, Failed> {
        if self.used + 2 >= self.half {
            return Ok(None);
        }
        let mut body = [CLOSED; 2];
        self.disk.read(gate + 1, &mut body[0])?;
        let Some((version, count)) = header(&body[0], self.next) else {
            return Ok(None);
        };
        let bodies = bodies(count);
        if version < chain.version || self.used + 1 + bodies >= self.half {
            return Ok(None);
        }
        if bodies == 2 {
            self.disk.read(gate + 2, &mut body[1])?;
        }
        let (records, tail) = body.as_flattened()[16..].split_at(16 * count);
        let is_lawful =
            tail.iter().all(|byte| *byte == 0) && chain.take(version, records).is_some();
        Ok(is_lawful.then_some(bodies))
    }

    fn place_of(&self, is_second: bool) -> u32 {
        if is_second {
            2 + self.half
        } else {
            2
        }
    }

    fn has_room(&self, records: usize) -> bool {
        self.used + bodies(records) + 2 <= self.half
    }

    /// Writes the body of a batch after the gate at this sector; gives the next gate's sector.
    fn write_body(&mut self, gate: u32, number: u32, batch: &[Record]) -> Result<u32, Failed> {
        let mut body = [CLOSED; 2];
        let bytes = body.as_flattened_mut();
        bytes[..3].copy_from_slice(&[0x4C, 0x42, 2]);
        bytes[4..6].copy_from_slice(&(batch.len() as u16).to_be_bytes());
        bytes[8..12].copy_from_slice(&number.to_be_bytes());
        for (place, record) in bytes[16..].chunks_exact_mut(16).zip(batch) {
            place.copy_from_slice(&encode(record));
        }
        let bodies = bodies(batch.len());
        for (sector, bytes) in (gate + 1..=gate + bodies).zip(&body) {
            self.disk.write(sector, bytes)?;
        }
        Ok(gate + bodies + 1)
    }

    fn append(&mut self, batch: &[Record]) -> Result<(), Failed> {
        let gate = self.place_of(self.is_second) + self.used;
        let next_gate = self.write_body(gate, self.next, batch)?;
        self.disk.write(next_gate, &CLOSED)?;
        self.disk.sync()?;
        self.disk.write(gate, &OPEN)?;
        self.disk.sync()?;
        self.used += next_gate - gate;
        self.next += 1;
        Ok(())
    }

    /// Writes a base into the other half, and picks that.
    fn checkpoint(&mut self, base: &[Record]) -> Result<(), Failed> {
        let first = self.place_of(!self.is_second);
        let (mut gate, mut number) = (first, 1);
        for batch in base.chunks(TOP_RECORDS) {
            let next_gate = self.write_body(gate, number, batch)?;
            self.disk.write(gate, &OPEN)?;
            (gate, number) = (next_gate, number + 1);
        }
        self.disk.write(gate, &CLOSED)?;
        self.disk.sync()?;
        self.disk
            .write(0, if self.is_second { &CLOSED } else { &OPEN })?;
        self.disk.sync()?;
        (self.is_second, self.used, self.next) = (!self.is_second, gate - first, number);
        Ok(())
    }

    /// Makes a batch safe, after a checkpoint of what is safe where there is no room.
    fn commit(&mut self, safe: &Register, batch: &[Record]) -> Result<(), Failed> {
        if batch.is_empty() {
            return Ok(());
        }
        if !self.has_room(batch.len()) {
            self.checkpoint(&safe.base())?;
        }
        self.append(batch)
    }
}

// Reports

/// Text that gathers until it is written.
struct Report<W> {
    text: Vec<u8>,
    writer: W,
}

impl<W: Write> Report<W> {
    const PIECE: usize = 1 << 16;

    fn to(writer: W) -> Report<W> {
        Report {
            text: Vec::with_capacity(2 * Self::PIECE),
            writer,
        }
    }

    fn text(&mut self, text: &str) -> &mut Self {
        self.text.extend_from_slice(text.as_bytes());
        self
    }

    fn byte(&mut self, byte: u8) -> &mut Self {
        self.text.push(byte);
        self
    }

    fn number(&mut self, mut number: u64) -> &mut Self {
        let mut digits = [0; 20];
        let mut at = digits.len();
        loop {
            at -= 1;
            digits[at] = b'0' + (number % 10) as u8;
            number /= 10;
            if number == 0 {
                break;
            }
        }
        self.text.extend_from_slice(&digits[at..]);
        self
    }

    fn letter(&mut self, car: u8) -> &mut Self {
        self.byte(b'A' + car)
    }

    fn terminal(&mut self, terminal: Terminal) -> &mut Self {
        match usize::from(terminal).checked_sub(CARS) {
            None => self.letter(terminal),
            Some(kiosk) => self.byte(b'K').number(kiosk as u64),
        }
    }

    fn reply(&mut self, reply: Reply) -> &mut Self {
        match reply {
            Reply::Car(car) => self.text("CAR ").letter(car),
            Reply::Next(None) => self.text("IDLE"),
            Reply::Next(Some(at)) => self
                .text("NEXT ")
                .number(at.floor.into())
                .byte(b' ')
                .text(at.dir.name()),
            Reply::No(reason) => self.text("NO ").number(reason.into()),
            Reply::Unknown => self.text("UNKNOWN"),
        }
    }

    fn rows(&mut self, register: &Register) {
        self.text("rows ").number(register.open_count() as u64);
        self.byte(b' ').number(register.done.into()).byte(b'\n');
        for (car, load) in (0u8..).zip(&register.loads) {
            for OpenCall { call, is_aboard } in &load.calls {
                self.letter(car).byte(b' ').terminal(call.kiosk);
                self.byte(b' ').number(call.number.into());
                self.byte(b' ').number(call.from.into());
                self.byte(b' ').number(call.to.into());
                self.text(if *is_aboard { " aboard" } else { " waiting" });
                if call.party > 1 {
                    self.text(" x").number(call.party.into());
                }
                self.byte(b'\n');
            }
        }
    }

    /// Writes what has gathered, where that is much.
    fn pour(&mut self) -> io::Result<()> {
        if self.text.len() >= Self::PIECE {
            self.flush()?;
        }
        Ok(())
    }

    fn flush(&mut self) -> io::Result<()> {
        self.writer.write_all(&self.text)?;
        self.text.clear();
        self.writer.flush()
    }
}

// Scripts

/// What a line asks for.
enum Line {
    Ask(Terminal, Ask),
    Turn,
    Stops(u8),
    Cost(Terminal, u8, u8),
    Rows,
    Fuse(u32),
    Cut(Cut),
}

#[derive(Clone, Copy)]
struct Ask {
    number: u32,
    command: Command,
}

const NO_ASK: Ask = Ask {
    number: 0,
    command: Command::Call { to: 0, party: 0 },
};

fn number_in(word: &[u8], low: u32, high: u32) -> Option<u32> {
    if word.is_empty() || word.len() > 8 || word[0] == b'0' && word.len() > 1 {
        return None;
    }
    let mut number = 0;
    for byte in word {
        if !byte.is_ascii_digit() {
            return None;
        }
        number = 10 * number + u32::from(byte - b'0');
    }
    (low..=high).contains(&number).then_some(number)
}

fn small_in(word: &[u8], low: u8, high: u8) -> Option<u8> {
    number_in(word, low.into(), high.into()).map(|number| number as u8)
}

fn position_in(floor: &[u8], dir: &[u8]) -> Option<Position> {
    let floor = small_in(floor, 0, 63)?;
    match dir {
        b"up" => Some(Position {
            floor,
            dir: Dir::Up,
        }),
        b"down" => Some(Position {
            floor,
            dir: Dir::Down,
        }),
        _ => None,
    }
}

impl Building {
    fn car_in(&self, word: &[u8]) -> Option<u8> {
        match word {
            [letter @ b'A'..=b'P'] => Some(letter - b'A'),
            _ => None,
        }
        .filter(|car| usize::from(*car) < self.cars.len())
    }

    fn kiosk_in(&self, word: &[u8]) -> Option<Terminal> {
        let kiosk = small_in(word, 0, 46)?;
        (usize::from(kiosk) < self.kiosks.len()).then_some(CARS as u8 + kiosk)
    }

    fn call_in(&self, kiosk: &[u8], number: &[u8], to: &[u8], party: &[u8]) -> Option<Line> {
        let (to, party) = (small_in(to, 0, 63)?, small_in(party, 1, 15)?);
        let number = number_in(number, 0, TOP_NUMBER)?;
        let command = Command::Call { to, party };
        Some(Line::Ask(self.kiosk_in(kiosk)?, Ask { number, command }))
    }

    fn cost_in(&self, kiosk: &[u8], to: &[u8], party: &[u8]) -> Option<Line> {
        Some(Line::Cost(
            self.kiosk_in(kiosk)?,
            small_in(to, 0, 63)?,
            small_in(party, 1, 15)?,
        ))
    }

    /// What a line asks for; nothing where it is of no form, or names what the building lacks.
    fn line_in(&self, line: &[u8]) -> Option<Line> {
        let mut words: [&[u8]; 6] = [b""; 6];
        let mut count = 0;
        for word in line.split(|byte| *byte == b' ').take(words.len()) {
            words[count] = word;
            count += 1;
        }
        match words[..count] {
            [b"turn"] => Some(Line::Turn),
            [b"place", car, floor, dir] => {
                let command = Command::Place(position_in(floor, dir)?);
                Some(Line::Ask(self.car_in(car)?, Ask { number: 0, command }))
            }
            [b"stop", car, number, floor, dir] => {
                let number = number_in(number, 0, TOP_NUMBER)?;
                let command = Command::Stop(position_in(floor, dir)?);
                Some(Line::Ask(self.car_in(car)?, Ask { number, command }))
            }
            [b"call", kiosk, number, to] => self.call_in(kiosk, number, to, b"1"),
            [b"call", kiosk, number, to, party] => self.call_in(kiosk, number, to, party),
            [b"stops", car] => self.car_in(car).map(Line::Stops),
            [b"cost", kiosk, to] => self.cost_in(kiosk, to, b"1"),
            [b"cost", kiosk, to, party] => self.cost_in(kiosk, to, party),
            [b"rows"] => Some(Line::Rows),
            [b"fuse", calls] => number_in(calls, 0, 1_000_000).map(Line::Fuse),
            [b"cut", b"keep"] => Some(Line::Cut(Cut::Keep)),
            [b"cut", b"lose"] => Some(Line::Cut(Cut::Lose)),
            [b"cut", b"fill", byte] => {
                small_in(byte, 0, 255).map(|byte| Line::Cut(Cut::Fill(byte)))
            }
            _ => None,
        }
    }
}

/// A group over a disk in memory, between two lines of a script.
struct Group<'a> {
    dispatcher: Dispatcher<'a>,
    journal: Journal<MemoryDisk>,
    /// The register as it is in the journal.
    safe: Register,
    /// The last ask of each terminal.
    asks: [Ask; TERMINALS],
    /// The terminals that wait for their answer, a bit each.
    waiting: u64,
    /// Of the last turn.
    answers: Vec<(Terminal, u32, Reply)>,
    /// A call of the device failed since the last cut.
    is_broken: bool,
}

impl<'a> Group<'a> {
    fn new(building: &'a Building, policy: Policy) -> Group<'a> {
        let shape = Shape::of(building, 64);
        let disk = Journal::format(MemoryDisk::new(shape.sectors() as usize), shape);
        let mut journal = Journal::on(disk.expect("no fuse is set"));
        let safe = journal.open(building).expect("the disk was just formatted");
        Group {
            dispatcher: Dispatcher::new(building, policy),
            journal,
            safe,
            asks: [NO_ASK; TERMINALS],
            waiting: 0,
            answers: Vec::with_capacity(TERMINALS),
            is_broken: false,
        }
    }

    fn carry_out<W: Write>(&mut self, line: Line, report: &mut Report<W>) {
        match line {
            Line::Ask(terminal, ask) => self.ask(terminal, ask, report),
            Line::Turn => self.turn(report),
            Line::Stops(_) if self.is_broken => {
                report.text("stops FAULT 5\n");
            }
            Line::Stops(car) => self.stops(car, report),
            Line::Cost(..) if self.is_broken => {
                report.text("cost FAULT 5\n");
            }
            Line::Cost(kiosk, to, party) => self.cost(kiosk, to, party, report),
            Line::Rows if self.is_broken => {
                report.text("rows FAULT 5\n");
            }
            Line::Rows => report.rows(&self.dispatcher.register),
            Line::Fuse(calls) => self.journal.disk.fuse = Some(calls),
            Line::Cut(cut) => self.cut(cut, report),
        }
    }

    fn ask<W: Write>(&mut self, terminal: Terminal, ask: Ask, report: &mut Report<W>) {
        if self.waiting >> terminal & 1 == 1 {
            report
                .terminal(terminal)
                .byte(b' ')
                .number(ask.number.into())
                .text(" WAITING\n");
        } else {
            self.asks[usize::from(terminal)] = ask;
            self.waiting |= 1 << terminal;
        }
    }

    /// Decides each ask that waits, by rising terminal.
    fn answer_asks(&mut self) {
        self.answers.clear();
        while self.waiting != 0 {
            let terminal = self.waiting.trailing_zeros() as Terminal;
            self.waiting &= self.waiting - 1;
            let Ask { number, command } = self.asks[usize::from(terminal)];
            let reply = if self.is_broken {
                Reply::Unknown
            } else {
                self.dispatcher.decide(terminal, number, command)
            };
            self.answers.push((terminal, number, reply));
        }
    }

    fn turn<W: Write>(&mut self, report: &mut Report<W>) {
        self.answer_asks();
        report.text("turn ");
        if self.is_broken {
            report.text("FAULT 5\n");
        } else if self.commit().is_ok() {
            report.number(self.answers.len() as u64).byte(b' ');
            report
                .number(self.dispatcher.batch.len() as u64)
                .byte(b'\n');
        } else {
            report.text("FAULT 1\n");
            self.is_broken = true;
            for (_, _, reply) in &mut self.answers {
                *reply = Reply::Unknown;
            }
        }
        self.dispatcher.batch.clear();
        for (terminal, number, reply) in &self.answers {
            report.terminal(*terminal).byte(b' ');
            report.number((*number).into()).byte(b' ');
            report.reply(*reply).byte(b'\n');
        }
    }

    fn commit(&mut self) -> Result<(), Failed> {
        self.journal.commit(&self.safe, &self.dispatcher.batch)?;
        for entry in &self.dispatcher.batch {
            self.safe.apply(entry);
        }
        Ok(())
    }

    fn stops<W: Write>(&mut self, car: u8, report: &mut Report<W>) {
        report.text("stops ").letter(car);
        match self.dispatcher.positions[usize::from(car)] {
            None => {
                report.text(" unplaced");
            }
            Some(position) => {
                let rows = self.dispatcher.rows(car);
                if rows.is_empty() {
                    report.text(" -");
                }
                Halts::of(position, rows).each(|halt| {
                    report.byte(b' ').number(halt as u64 / 64 + 1);
                    report.byte(b':').number(halt as u64 % 64);
                });
            }
        }
        report.byte(b'\n');
    }

    fn cost<W: Write>(&mut self, kiosk: Terminal, to: u8, party: u8, report: &mut Report<W>) {
        let building = self.dispatcher.building;
        let from = building.kiosk_floor(kiosk);
        report.text("cost");
        if usize::from(to) >= building.floors {
            report.text(" NO 1");
        } else if to == from {
            report.text(" NO 2");
        } else {
            let call = Call {
                kiosk,
                number: 0,
                from,
                to,
                party,
            };
            let mut is_none = true;
            for (car, position) in self.dispatcher.eligible(call) {
                let cost = self.dispatcher.cost(car, position, call);
                report.byte(b' ').letter(car).byte(b'=').number(cost);
                is_none = false;
            }
            if is_none {
                report.text(" -");
            }
        }
        report.byte(b'\n');
    }

    fn cut<W: Write>(&mut self, cut: Cut, report: &mut Report<W>) {
        self.journal.disk.cut(cut);
        let building = self.dispatcher.building;
        self.safe = self
            .journal
            .open(building)
            .expect("a cut leaves a journal that opens");
        self.dispatcher.register = self.safe.clone();
        self.dispatcher.positions = [None; CARS];
        self.waiting = 0;
        self.is_broken = false;
        report
            .text("cut ")
            .number(self.safe.open_count() as u64)
            .byte(b'\n');
    }
}

/// What stands before the line `---`, and after it.
fn parts_of(script: &str) -> Option<(&str, &str)> {
    let mut begin = 0;
    for line in script.split_inclusive('\n') {
        let end = begin + line.len();
        if matches!(line, "---\n" | "---\r\n" | "---") {
            return Some((&script[..begin], &script[end..]));
        }
        begin = end;
    }
    None
}

/// Writes the report of a script; whether it is good.
fn replay<W: Write>(script: &[u8], policy: Policy, report: &mut Report<W>) -> io::Result<bool> {
    let refusal = if script.len() > TOP_BYTES {
        "TOO LONG".into()
    } else if let Ok(text) = std::str::from_utf8(script) {
        match parts_of(text) {
            None => "NO SCRIPT".into(),
            Some((building, lines)) => match Building::read(&building.replace("\r\n", "\n")) {
                Ok(building) => return run(Group::new(&building, policy), lines, report),
                Err(fault) => format!("BUILDING {}", fault.report()),
            },
        }
    } else {
        "NOT TEXT".into()
    };
    report.text(&refusal).byte(b'\n');
    report.flush()?;
    Ok(false)
}

fn run<W: Write>(mut group: Group, lines: &str, report: &mut Report<W>) -> io::Result<bool> {
    let building = group.dispatcher.building;
    let mut is_good = true;
    for (place, line) in lines.split_inclusive('\n').enumerate() {
        let line = line
            .strip_suffix("\r\n")
            .or(line.strip_suffix('\n'))
            .unwrap_or(line);
        if line.is_empty() || line.starts_with('#') {
            continue;
        }
        match building.line_in(line.as_bytes()) {
            Some(line) => group.carry_out(line, report),
            None => {
                report.text("BAD ").number(place as u64 + 1).byte(b'\n');
                is_good = false;
                break;
            }
        }
        report.pour()?;
    }
    report.flush()?;
    Ok(is_good)
}

// The program

/// Why a command failed, as it is told on the standard error.
enum Fault {
    Usage,
    File,
    Building(BuildingFault),
    Journal(Refused),
}

impl From<io::Error> for Fault {
    fn from(_error: io::Error) -> Fault {
        Fault::File
    }
}

impl From<Refused> for Fault {
    fn from(refused: Refused) -> Fault {
        Fault::Journal(refused)
    }
}

impl From<Failed> for Fault {
    fn from(failed: Failed) -> Fault {
        Fault::Journal(failed.into())
    }
}

/// All bytes of a reader, or one more than a script may have.
fn bytes_of(reader: impl Read) -> io::Result<Vec<u8>> {
    let mut bytes = Vec::with_capacity(TOP_BYTES + 1);
    reader.take(TOP_BYTES as u64 + 1).read_to_end(&mut bytes)?;
    Ok(bytes)
}

fn building_at(path: &str) -> Result<Building, Fault> {
    let bytes = bytes_of(File::open(path)?)?;
    match std::str::from_utf8(&bytes) {
        Ok(text) if bytes.len() <= TOP_BYTES => Building::read(text).map_err(Fault::Building),
        _ => Err(Fault::File),
    }
}

fn show(image: &str, building: &str) -> Result<(), Fault> {
    let building = building_at(building)?;
    let mut journal = Journal::on(FileDisk::of(File::open(image)?)?);
    let register = journal.open(&building)?;
    let mut report = Report::to(io::stdout().lock());
    report.rows(&register);
    Ok(report.flush()?)
}

fn format_image(image: &str, building: &str, half: u32) -> Result<(), Fault> {
    let shape = Shape::of(&building_at(building)?, half);
    Journal::format(FileDisk::create(image, shape.sectors())?, shape)?;
    Ok(())
}

fn policy_of(word: &str) -> Result<Policy, Fault> {
    match word {
        "etd" => Ok(Policy::EstimatedTime),
        "fewest" => Ok(Policy::FewestPersons),
        "wait" => Ok(Policy::ShortestWait),
        _ => Err(Fault::Usage),
    }
}

fn replay_input(policy: Policy) -> Result<bool, Fault> {
    let script = bytes_of(io::stdin().lock())?;
    Ok(replay(
        &script,
        policy,
        &mut Report::to(io::stdout().lock()),
    )?)
}

fn command(words: &[&str]) -> Result<bool, Fault> {
    let number = |word: &str, low, high| number_in(word.as_bytes(), low, high).ok_or(Fault::Usage);
    match *words {
        [] | ["replay"] => return replay_input(Policy::EstimatedTime),
        ["replay", "--policy", policy] => return replay_input(policy_of(policy)?),
        ["format", image, building] => format_image(image, building, 64)?,
        ["format", image, building, "--half", half] => {
            format_image(image, building, number(half, 64, 1_000_000)?)?;
        }
        ["show", image, building] => show(image, building)?,
        ["fill", image, building, half] => {
            bench::fill(image, building, number(half, 64, 1_000_000)?)?;
        }
        ["batches", image, building, count] => {
            bench::append(image, building, number(count, 0, 99_999_999)?)?;
        }
        ["decide", cars, calls, times, kind] => {
            let (cars, calls) = (
                number(cars, 1, 16)? as usize,
                number(calls, 0, 512)? as usize,
            );
            println!(
                "{}",
                bench::decide(cars, calls, number(times, 0, 99_999_999)?, kind)
            );
        }
        _ => return Err(Fault::Usage),
    }
    Ok(true)
}

fn main() -> ExitCode {
    let words: Vec<String> = std::env::args().skip(1).collect();
    let words: Vec<&str> = words.iter().map(String::as_str).collect();
    let told = match command(&words) {
        Ok(is_good) => return ExitCode::from(u8::from(!is_good)),
        Err(Fault::Usage) => {
            eprintln!("liftd: usage");
            return ExitCode::from(2);
        }
        Err(Fault::File) => "file".into(),
        Err(Fault::Building(fault)) => format!("building {}", fault.report()),
        Err(Fault::Journal(refused)) => format!("journal {}", refused.report()),
    };
    eprintln!("liftd: {told}");
    ExitCode::FAILURE
}

/// The workloads of `lift_bench`, for this program.
mod bench {
    use super::*;

    /// The floors of the new call. No other call starts or ends there.
    const FROM: u8 = 46;
    const TO: u8 = 63;

    fn building(cars: usize) -> Building {
        let flights = |from: u32| {
            (0..64).map(move |to| {
                if from == to {
                    0
                } else {
                    2000 + 1000 * from.abs_diff(to)
                }
            })
        };
        Building {
            floors: 64,
            door: 6000,
            kiosks: (0..47).collect(),
            flight: (0..64).flat_map(flights).collect(),
            cars: (0..cars)
                .map(|_| Car {
                    places: 32,
                    serves: u64::MAX,
                })
                .collect(),
        }
    }

    fn command(dispatcher: &mut Dispatcher, terminal: Terminal, command: Command) -> Reply {
        let number = dispatcher.register.last_number(terminal) + 1;
        let reply = dispatcher.decide(terminal, number, command);
        dispatcher.batch.clear();
        reply
    }

    fn stop(dispatcher: &mut Dispatcher, car: u8, floor: u8, dir: Dir) {
        command(dispatcher, car, Command::Stop(Position { floor, dir }));
    }

    fn place(dispatcher: &mut Dispatcher, car: u8) {
        let position = Position {
            floor: 2 * car,
            dir: Dir::Up,
        };
        command(dispatcher, car, Command::Place(position));
    }

    /// The stops at which the new call's passengers board and leave, and the car's place.
    fn pass_by(dispatcher: &mut Dispatcher, car: u8) {
        stop(dispatcher, car, FROM, Dir::Up);
        stop(dispatcher, car, TO, Dir::Up);
        place(dispatcher, car);
    }

    fn round(dispatcher: &mut Dispatcher) -> Option<u8> {
        let call = Command::Call { to: TO, party: 1 };
        match command(dispatcher, CARS as u8 + FROM, call) {
            Reply::Car(car) => {
                pass_by(dispatcher, car);
                Some(car)
            }
            _ => None,
        }
    }

    /// Decides this number of times, beside this number of open calls.
    pub fn decide(cars: usize, calls: usize, times: u32, kind: &str) -> String {
        let building = building(cars);
        let mut dispatcher = Dispatcher::new(&building, Policy::FewestPersons);
        (0..cars as u8).for_each(|car| place(&mut dispatcher, car));
        for place in 0..calls {
            let goal = (place % 46 + 5 * (place / 46 % 11) + 11) % 62;
            let to = if goal < usize::from(FROM) {
                goal
            } else {
                goal + 1
            } as u8;
            let kiosk = (CARS + place % 46) as u8;
            command(&mut dispatcher, kiosk, Command::Call { to, party: 1 });
        }
        dispatcher.policy = Policy::EstimatedTime;
        let open = dispatcher.register.open_count();
        let mut decisions = times;
        match kind {
            "call" => decisions = (0..times).filter_map(|_| round(&mut dispatcher)).count() as u32,
            "stops" => {
                let car = round(&mut dispatcher).unwrap_or(0);
                (0..times).for_each(|_| pass_by(&mut dispatcher, car));
            }
            "ahead" => {
                let floor = |time: u32| [FROM, TO][time as usize % 2];
                (0..times).for_each(|time| stop(&mut dispatcher, 0, floor(time), Dir::Up));
            }
            _ => {
                let dir = |time: u32| [Dir::Down, Dir::Up][time as usize % 2];
                (0..times).for_each(|time| stop(&mut dispatcher, 0, FROM, dir(time)));
            }
        }
        format!("calls {open} decisions {decisions}")
    }

    /// The next stop of a car, where it stands.
    fn next_stop(building: &Building, register: &Register, car: u8) -> Record {
        let floor = building.cars[usize::from(car)].serves.trailing_zeros() as u8;
        let at = Position {
            floor,
            dir: Dir::Up,
        };
        let number = register.last_number(car) + 1;
        Record::Stop { car, number, at }
    }

    /// A file that is never synced.
    struct Unsynced(FileDisk);

    impl Disk for Unsynced {
        fn sectors(&self) -> u64 {
            self.0.sectors()
        }

        fn read(&mut self, sector: u32, into: &mut Sector) -> Result<(), Failed> {
            self.0.read(sector, into)
        }

        fn write(&mut self, sector: u32, bytes: &Sector) -> Result<(), Failed> {
            self.0.write(sector, bytes)
        }

        fn sync(&mut self) -> Result<(), Failed> {
            Ok(())
        }
    }

    /// Makes a journal whose first half is full of stops, of all cars in turn.
    pub fn fill(image: &str, building: &str, half: u32) -> Result<(), Fault> {
        let building = building_at(building)?;
        let shape = Shape::of(&building, half);
        let disk = Unsynced(FileDisk::create(image, shape.sectors())?);
        let mut journal = Journal::on(Journal::format(disk, shape)?);
        let mut register = journal.open(&building)?;
        let mut cars = (0..building.cars.len() as u8).cycle();
        let mut batch = Vec::with_capacity(TOP_RECORDS);
        while journal.has_room(TOP_RECORDS) {
            batch.clear();
            for car in cars.by_ref().take(TOP_RECORDS) {
                let stop = next_stop(&building, &register, car);
                register.apply(&stop);
                batch.push(stop);
            }
            journal.append(&batch)?;
        }
        Ok(())
    }

    /// Appends this number of batches of one stop each.
    pub fn append(image: &str, building: &str, count: u32) -> Result<(), Fault> {
        let building = building_at(building)?;
        let file = File::options().read(true).write(true).open(image)?;
        let mut journal = Journal::on(FileDisk::of(file)?);
        let mut register = journal.open(&building)?;
        for _ in 0..count {
            let stop = next_stop(&building, &register, 0);
            journal.commit(&register, &[stop])?;
            register.apply(&stop);
        }
        Ok(())
    }
}

/// TOML 1.1: tables, arrays and integers are kept, of other values only that they are there.
mod toml {
    use std::collections::hash_map::Entry;
    use std::collections::HashMap;

    /// The most parts of a key, and the most arrays and inline tables in one another.
    const DEPTH: usize = 80;

    pub enum Value {
        Integer(i64),
        /// Whether headers in double brackets make it.
        Array(Vec<Value>, bool),
        Table(Table),
        Other,
    }

    impl Value {
        pub fn as_integer(&self) -> Option<i64> {
            match self {
                Value::Integer(number) => Some(*number),
                _ => None,
            }
        }

        pub fn as_array(&self) -> Option<&[Value]> {
            match self {
                Value::Array(items, _) => Some(items),
                _ => None,
            }
        }

        pub fn as_table(&self) -> Option<&Table> {
            match self {
                Value::Table(table) => Some(table),
                _ => None,
            }
        }
    }

    /// What made a table.
    #[derive(Clone, Copy, PartialEq, Eq)]
    enum Origin {
        /// Braces: it is complete.
        Inline,
        /// A header that passed through it.
        Implicit,
        DottedKey,
        Header,
    }

    pub struct Table {
        origin: Origin,
        entries: HashMap<String, Value>,
    }

    impl Table {
        fn new(origin: Origin) -> Table {
            Table {
                origin,
                entries: HashMap::new(),
            }
        }

        pub fn get(&self, key: &str) -> Option<&Value> {
            self.entries.get(key)
        }

        /// The table at a part of a header.
        fn by_header(&mut self, part: &str) -> Option<&mut Table> {
            let missing = || Value::Table(Table::new(Origin::Implicit));
            match self.entries.entry(part.into()).or_insert_with(missing) {
                Value::Table(table) if table.origin != Origin::Inline => Some(table),
                Value::Array(items, true) => match items.last_mut() {
                    Some(Value::Table(table)) => Some(table),
                    _ => None,
                },
                _ => None,
            }
        }

        /// The table at a part of a dotted key.
        fn by_dot(&mut self, part: &str) -> Option<&mut Table> {
            let missing = || Value::Table(Table::new(Origin::DottedKey));
            match self.entries.entry(part.into()).or_insert_with(missing) {
                Value::Table(table)
                    if matches!(table.origin, Origin::Implicit | Origin::DottedKey) =>
                {
                    table.origin = Origin::DottedKey;
                    Some(table)
                }
                _ => None,
            }
        }

        fn put(&mut self, key: &[String], value: Value) -> Option<()> {
            let (last, path) = key.split_last()?;
            let table = path
                .iter()
                .try_fold(self, |table, part| table.by_dot(part))?;
            match table.entries.entry(last.clone()) {
                Entry::Occupied(_) => None,
                Entry::Vacant(place) => {
                    place.insert(value);
                    Some(())
                }
            }
        }

        fn at_header(&mut self, path: &[String]) -> Option<&mut Table> {
            path.iter()
                .try_fold(self, |table, part| table.by_header(part))
        }

        fn define_table(&mut self, key: &[String]) -> Option<()> {
            let (last, path) = key.split_last()?;
            match self.at_header(path)?.entries.entry(last.clone()) {
                Entry::Vacant(place) => {
                    place.insert(Value::Table(Table::new(Origin::Header)));
                    Some(())
                }
                Entry::Occupied(place) => match place.into_mut() {
                    Value::Table(table) if table.origin == Origin::Implicit => {
                        table.origin = Origin::Header;
                        Some(())
                    }
                    _ => None,
                },
            }
        }

        fn extend_array(&mut self, key: &[String]) -> Option<()> {
            let (last, path) = key.split_last()?;
            let missing = || Value::Array(Vec::new(), true);
            let entry = self.at_header(path)?.entries.entry(last.clone());
            match entry.or_insert_with(missing) {
                Value::Array(items, true) => {
                    items.push(Value::Table(Table::new(Origin::Header)));
                    Some(())
                }
                _ => None,
            }
        }
    }

    /// The table that a text is; nothing where it is no TOML.
    pub fn parse(text: &str) -> Option<Table> {
        let text = text.strip_prefix('\u{FEFF}').unwrap_or(text);
        let mut reader = Reader { text, at: 0 };
        let mut root = Table::new(Origin::Header);
        let mut section = Vec::new();
        loop {
            reader.skip_blank(true);
            if reader.peek() == 0 && reader.at == text.len() {
                return Some(root);
            }
            if reader.eats("[[") {
                section = reader.header_key("]]")?;
                root.extend_array(&section)?;
            } else if reader.eats("[") {
                section = reader.header_key("]")?;
                root.define_table(&section)?;
            } else {
                let key = reader.key_equals()?;
                let value = reader.value(DEPTH)?;
                root.at_header(&section)?.put(&key, value)?;
            }
            reader.skip_spaces();
            if !matches!(reader.peek(), b'#' | b'\n' | b'\r') && reader.at < text.len() {
                return None;
            }
        }
    }

    fn is_bare(byte: u8) -> bool {
        byte.is_ascii_alphanumeric() || byte == b'-' || byte == b'_'
    }

    fn is_word(byte: u8) -> bool {
        is_bare(byte) || matches!(byte, b'+' | b'.' | b':')
    }

    /// Whether a byte may stand in a comment or a string.
    fn is_text(byte: u8) -> bool {
        byte == b'\t' || byte >= 0x20 && byte != 0x7F
    }

    struct Reader<'a> {
        text: &'a str,
        at: usize,
    }

    impl<'a> Reader<'a> {
        fn byte(&self, ahead: usize) -> u8 {
            self.text
                .as_bytes()
                .get(self.at + ahead)
                .copied()
                .unwrap_or(0)
        }

        /// The next byte, 0 at the end.
        fn peek(&self) -> u8 {
            self.byte(0)
        }

        fn eats(&mut self, token: &str) -> bool {
            let is_next = self.text.as_bytes()[self.at..].starts_with(token.as_bytes());
            if is_next {
                self.at += token.len();
            }
            is_next
        }

        fn skip_while(&mut self, test: impl Fn(u8) -> bool) -> &'a str {
            let begin = self.at;
            while self.at < self.text.len() && test(self.peek()) {
                self.at += 1;
            }
            &self.text[begin..self.at]
        }

        fn skip_spaces(&mut self) {
            self.skip_while(|byte| byte == b' ' || byte == b'\t');
        }

        /// White space and ends of lines, and comments where they are allowed.
        fn skip_blank(&mut self, with_comments: bool) {
            loop {
                self.skip_spaces();
                if with_comments && self.peek() == b'#' {
                    self.skip_while(is_text);
                }
                if !self.eats("\n") && !self.eats("\r\n") {
                    return;
                }
            }
        }

        fn header_key(&mut self, end: &str) -> Option<Vec<String>> {
            self.skip_spaces();
            let key = self.key()?;
            self.eats(end).then_some(key)
        }

        fn key_equals(&mut self) -> Option<Vec<String>> {
            let key = self.key()?;
            if !self.eats("=") {
                return None;
            }
            self.skip_spaces();
            Some(key)
        }

        fn key(&mut self) -> Option<Vec<String>> {
            let mut parts = Vec::new();
            while parts.len() < DEPTH {
                parts.push(self.simple_key()?);
                self.skip_spaces();
                if !self.eats(".") {
                    return Some(parts);
                }
                self.skip_spaces();
            }
            None
        }

        fn simple_key(&mut self) -> Option<String> {
            if matches!(self.peek(), b'"' | b'\'') {
                return self.string_on_line();
            }
            let bare = self.skip_while(is_bare);
            (!bare.is_empty()).then(|| bare.into())
        }

        fn value(&mut self, depth: usize) -> Option<Value> {
            match self.peek() {
                b'"' | b'\'' => self.string().map(|_| Value::Other),
                b'[' | b'{' if depth == 0 => None,
                b'[' => self.array(depth - 1),
                b'{' => self.inline_table(depth - 1),
                _ => self.word(),
            }
        }

        fn array(&mut self, depth: usize) -> Option<Value> {
            self.at += 1;
            let mut items = Vec::new();
            loop {
                self.skip_blank(true);
                if self.eats("]") {
                    return Some(Value::Array(items, false));
                }
                items.push(self.value(depth)?);
                self.skip_blank(true);
                if !self.eats(",") && self.peek() != b']' {
                    return None;
                }
            }
        }

        fn inline_table(&mut self, depth: usize) -> Option<Value> {
            self.at += 1;
            let mut table = Table::new(Origin::Inline);
            loop {
                self.skip_blank(true);
                if self.eats("}") {
                    return Some(Value::Table(table));
                }
                let key = self.key_equals()?;
                let value = self.value(depth)?;
                table.put(&key, value)?;
                self.skip_blank(true);
                if !self.eats(",") && self.peek() != b'}' {
                    return None;
                }
            }
        }

        /// A boolean, a number or a date-time.
        fn word(&mut self) -> Option<Value> {
            let begin = self.at;
            self.skip_while(is_word);
            if self.peek() == b' ' && self.byte(1).is_ascii_digit() {
                self.at += 1;
                self.skip_while(is_word);
            }
            let word = &self.text[begin..self.at];
            let digits = word.len() - word.trim_start_matches(|c: char| c.is_ascii_digit()).len();
            if word == "true" || word == "false" {
                Some(Value::Other)
            } else if digits > 0 && matches!(word.as_bytes().get(digits), Some(b'-' | b':')) {
                is_date_time(word.as_bytes()).then_some(Value::Other)
            } else {
                number(word)
            }
        }

        fn string_on_line(&mut self) -> Option<String> {
            let quote = self.peek();
            self.at += 1;
            let mut text = String::new();
            loop {
                text.push_str(self.skip_while(|byte| {
                    is_text(byte) && byte != quote && (byte != b'\\' || quote == b'\'')
                }));
                if self.peek() == quote {
                    self.at += 1;
                    return Some(text);
                }
                if !self.eats("\\") {
                    return None;
                }
                text.push(self.escape()?);
            }
        }

        fn string(&mut self) -> Option<String> {
            let is_triple = self.byte(1) == self.peek() && self.byte(2) == self.peek();
            if is_triple {
                self.lines()
            } else {
                self.string_on_line()
            }
        }

        /// A string between three quotes.
        fn lines(&mut self) -> Option<String> {
            let quote = self.peek();
            self.at += 3;
            let _trimmed = self.eats("\n") || self.eats("\r\n");
            let mut text = String::new();
            loop {
                text.push_str(self.skip_while(|byte| {
                    (is_text(byte) || byte == b'\n')
                        && byte != quote
                        && (byte != b'\\' || quote == b'\'')
                }));
                if self.peek() == quote {
                    let quotes = self.skip_while(|byte| byte == quote);
                    if quotes.len() > 5 {
                        return None;
                    } else if quotes.len() >= 3 {
                        text.push_str(&quotes[3..]);
                        return Some(text);
                    }
                    text.push_str(quotes);
                } else if self.eats("\r\n") {
                    text.push_str("\r\n");
                } else if !self.eats("\\") {
                    return None;
                } else if !self.ends_line() {
                    text.push(self.escape()?);
                }
            }
        }

        /// Whether the line ends with a backslash; what is blank after it is skipped.
        fn ends_line(&mut self) -> bool {
            let begin = self.at;
            self.skip_spaces();
            let ends = self.peek() == b'\n' || self.peek() == b'\r' && self.byte(1) == b'\n';
            if ends {
                self.skip_blank(false);
            } else {
                self.at = begin;
            }
            ends
        }

        fn escape(&mut self) -> Option<char> {
            let letter = self.peek();
            self.at += 1;
            let digits = match letter {
                b'b' => return Some('\u{8}'),
                b'e' => return Some('\u{1B}'),
                b'f' => return Some('\u{C}'),
                b'n' => return Some('\n'),
                b'r' => return Some('\r'),
                b't' => return Some('\t'),
                b'"' => return Some('"'),
                b'\\' => return Some('\\'),
                b'x' => 2,
                b'u' => 4,
                b'U' => 8,
                _ => return None,
            };
            let digits = self.text.get(self.at..self.at + digits)?;
            self.at += digits.len();
            char::from_u32(of_digits(digits, 16)?.try_into().ok()?)
        }
    }

    /// The number that these digits alone write.
    fn of_digits(digits: &str, radix: u32) -> Option<i64> {
        let is_plain = digits.chars().all(|digit| digit.is_digit(radix));
        is_plain.then(|| i64::from_str_radix(digits, radix).ok())?
    }

    fn number(word: &str) -> Option<Value> {
        let radix = match word.as_bytes() {
            [b'0', b'x', ..] => 16,
            [b'0', b'o', ..] => 8,
            [b'0', b'b', ..] => 2,
            _ => 10,
        };
        if !word.contains('_') {
            return plain_number(word, radix);
        }
        let digits = if radix == 16 { 16 } else { 10 };
        let is_digit = |byte: Option<&u8>| byte.is_some_and(|b| char::from(*b).is_digit(digits));
        let bytes = word.as_bytes();
        for (at, _) in word.match_indices('_') {
            if at == 0 || !is_digit(bytes.get(at - 1)) || !is_digit(bytes.get(at + 1)) {
                return None;
            }
        }
        plain_number(&word.replace('_', ""), radix)
    }

    fn plain_number(word: &str, radix: u32) -> Option<Value> {
        if radix != 10 {
            return of_digits(&word[2..], radix).map(Value::Integer);
        }
        let unsigned = word.strip_prefix(['+', '-']).unwrap_or(word);
        if unsigned == "inf" || unsigned == "nan" {
            return Some(Value::Other);
        }
        let whole = unsigned.len() - without_digits(unsigned).len();
        if whole == 0 || whole > 1 && unsigned.starts_with('0') {
            return None;
        }
        if whole == unsigned.len() {
            return word.parse().ok().map(Value::Integer);
        }
        let is_finite = word.parse::<f64>().is_ok_and(f64::is_finite);
        (is_fraction(&unsigned[whole..]) && is_finite).then_some(Value::Other)
    }

    fn without_digits(text: &str) -> &str {
        text.trim_start_matches(|c: char| c.is_ascii_digit())
    }

    /// A point with digits, an exponent, or both.
    fn is_fraction(text: &str) -> bool {
        let mut rest = text;
        if let Some(fraction) = rest.strip_prefix('.') {
            rest = without_digits(fraction);
            if rest.len() == fraction.len() {
                return false;
            }
        }
        if let Some(exponent) = rest.strip_prefix(['e', 'E']) {
            let digits = exponent.strip_prefix(['+', '-']).unwrap_or(exponent);
            rest = without_digits(digits);
            if rest.len() == digits.len() {
                return false;
            }
        }
        rest.is_empty()
    }

    /// The number of two digits at the front, and the rest.
    fn two_digits(text: &[u8]) -> Option<(u32, &[u8])> {
        match text {
            [a @ b'0'..=b'9', b @ b'0'..=b'9', rest @ ..] => {
                Some((u32::from(10 * (a - b'0') + (b - b'0')), rest))
            }
            _ => None,
        }
    }

    fn is_date_time(text: &[u8]) -> bool {
        if text.get(2) == Some(&b':') {
            return behind_time(text).is_some_and(<[u8]>::is_empty);
        }
        match behind_date(text) {
            Some([]) => true,
            Some([b'T' | b't' | b' ', time @ ..]) => behind_time(time).is_some_and(is_offset),
            _ => false,
        }
    }

    fn behind_date(text: &[u8]) -> Option<&[u8]> {
        let (century, rest) = two_digits(text)?;
        let (year, rest) = two_digits(rest)?;
        let (month, rest) = two_digits(rest.strip_prefix(b"-")?)?;
        let (day, rest) = two_digits(rest.strip_prefix(b"-")?)?;
        let year = 100 * century + year;
        let is_leap_year = year % 4 == 0 && (year % 100 != 0 || year % 400 == 0);
        let days = match month {
            2 => 28 + u32::from(is_leap_year),
            4 | 6 | 9 | 11 => 30,
            _ => 31,
        };
        ((1..=12).contains(&month) && (1..=days).contains(&day)).then_some(rest)
    }

    fn behind_time(text: &[u8]) -> Option<&[u8]> {
        let (hour, rest) = two_digits(text)?;
        let (minute, mut rest) = two_digits(rest.strip_prefix(b":")?)?;
        let mut second = 0;
        if let Some(seconds) = rest.strip_prefix(b":") {
            (second, rest) = two_digits(seconds)?;
            if let Some(fraction) = rest.strip_prefix(b".") {
                let digits = fraction
                    .iter()
                    .take_while(|byte| byte.is_ascii_digit())
                    .count();
                rest = &fraction[digits..];
                if digits == 0 {
                    return None;
                }
            }
        }
        (hour < 24 && minute < 60 && second <= 60).then_some(rest)
    }

    fn is_offset(text: &[u8]) -> bool {
        match text {
            [] | [b'Z' | b'z'] => true,
            [b'+' | b'-', rest @ ..] => hours_and_minutes(rest).is_some_and(<[u8]>::is_empty),
            _ => false,
        }
    }

    fn hours_and_minutes(text: &[u8]) -> Option<&[u8]> {
        let (hours, rest) = two_digits(text)?;
        let (minutes, rest) = two_digits(rest.strip_prefix(b":")?)?;
        (hours < 24 && minutes < 60).then_some(rest)
    }
}
