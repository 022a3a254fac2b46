//! Random successions of calls, of several mixes.
//!
//! What comes next is chosen by the state of the plain gate, so that most calls
//! mean something; but each call is then told with all its numbers, and can be
//! made again without what chose it.

use nehpudra::{LAST_TICK, QueueOrder, Turn, Turns};

use crate::calls::{Answer, Call, Granted, MOST_PLACES};
use crate::inputs::{self, Filling, GREATEST_CEILING, GREATEST_LENGTH, MOST_LABS};
use crate::random::Random;
use crate::sides::{AnyTurns, TABLE_ROWS};

type Gate = plain::Gate<AnyTurns>;

/// What successions are like. Chances are of a thousand.
pub struct Mix {
    pub name: &'static str,
    /// That a number is hostile.
    hostile: u64,
    /// That a call brings a table of another length.
    other_length: u64,
    /// That the host exchanges rows or the table before a call.
    exchange: u64,
    /// How often a filing comes; other calls have weights about 2 to 40.
    filings: u64,
    /// How many labs file most: if few, so that their queues are full.
    busy_labs: u64,
    filling: Filling,
}

pub const MIXES: [Mix; 4] = [
    Mix {
        name: "steady",
        hostile: 10,
        other_length: 5,
        exchange: 2,
        filings: 30,
        busy_labs: 64,
        filling: Filling::Lawful,
    },
    Mix {
        name: "crowded",
        hostile: 15,
        other_length: 5,
        exchange: 5,
        filings: 90,
        busy_labs: 3,
        filling: Filling::Lawful,
    },
    Mix {
        name: "exchanged",
        hostile: 15,
        other_length: 10,
        exchange: 120,
        filings: 35,
        busy_labs: 8,
        filling: Filling::Odd,
    },
    Mix {
        name: "hostile",
        hostile: 180,
        other_length: 60,
        exchange: 40,
        filings: 60,
        busy_labs: 16,
        filling: Filling::Odd,
    },
];

/// A succession that is chosen while it is made.
pub struct Succession {
    random: Random,
    mix: &'static Mix,
    /// The first of the labs that file most.
    first_busy: u64,
    /// Calls that were chosen together with others and are still to come.
    planned: Vec<Call>,
    /// The tickets that wait.
    waiting: Vec<u64>,
    /// The latest ticket.
    latest: u64,
    /// The tick at which the run is over, or at which one can begin.
    turn: u64,
}

/// The calls that are made most.
#[derive(Clone, Copy)]
enum Kind {
    File,
    Withdraw,
    Begin,
    End,
    Outlook,
}

impl Succession {
    pub fn new(mut random: Random, mix: &'static Mix) -> Self {
        let any = random.below(MOST_LABS);
        let first_busy = random.pick(&[0, any, MOST_LABS - 2]);
        let mut succession = Succession {
            random,
            mix,
            first_busy,
            planned: Vec::new(),
            waiting: Vec::new(),
            latest: 0,
            turn: 0,
        };
        if succession.random.chance(900) {
            succession.plan_opening();
        }
        succession
    }

    /// How many calls it has.
    pub fn length(&mut self) -> usize {
        let longest = self.random.pick(&[100, 400, 1_600]);
        self.random.within(20, longest) as usize
    }

    /// The turn rule of its first gate.
    pub fn turns(&mut self) -> Turns {
        let rules = [Turns::Circular, Turns::LongestUnserved];
        self.random.pick(&rules)
    }

    /// The next call, by the state of the gate.
    pub fn next(&mut self, gate: &Gate) -> Call {
        if let Some(call) = self.planned.pop() {
            return call;
        }
        let is_stuck = gate.labs() == 0 || gate.clock() + 20 > LAST_TICK;
        if is_stuck && self.random.chance(150) {
            self.plan_opening();
        }
        if self.random.chance(self.mix.exchange) {
            return self.exchange(gate);
        }
        if self.random.chance(25) {
            return self.rare(gate);
        }
        self.usual(gate)
    }

    /// Learns what came of a call.
    pub fn learn(&mut self, call: &Call, answer: &Answer) {
        let Ok(granted) = answer.outcome else {
            return;
        };
        match (call, granted) {
            (Call::New(_) | Call::Open { .. }, _) => {
                self.waiting.clear();
                self.latest = 0;
                self.turn = 0;
            }
            (Call::File { .. }, Granted::Number(number)) => {
                self.waiting.push(number);
                self.latest = number;
            }
            (Call::Withdraw { number, .. }, _) => self.waits_no_more(*number),
            (Call::Begin { .. }, Granted::Turn(Turn::Wait(until))) => self.turn = until,
            (Call::Begin { tick, .. }, Granted::Turn(Turn::Began { number, length, .. })) => {
                self.turn = tick + length;
                self.waits_no_more(number);
            }
            _ => {}
        }
    }

    fn waits_no_more(&mut self, number: u64) {
        self.waiting.retain(|&waiting| waiting != number);
    }

    /// A new table, and the opening of a gate on it; the last comes first.
    fn plan_opening(&mut self) {
        let labs = inputs::labs(&mut self.random);
        let order = self.order();
        self.planned.push(Call::Open { rows: labs, order });
        let filling = self.mix.filling;
        let table = inputs::table(&mut self.random, labs, filling);
        self.planned.push(Call::ExchangeTable(table));
    }

    fn order(&mut self) -> QueueOrder {
        let orders = [QueueOrder::Arrival, QueueOrder::Due, QueueOrder::Short];
        self.random.pick(&orders)
    }

    fn exchange(&mut self, gate: &Gate) -> Call {
        let labs = gate.labs() as usize;
        if self.random.chance(300) {
            let filling = self.random.pick(&[Filling::Lawful, Filling::Odd]);
            return Call::ExchangeTable(inputs::table(&mut self.random, labs, filling));
        }
        let place = match gate.running() {
            Some(running) if self.random.chance(200) => running.lab,
            _ => self.lab_with_tickets(gate),
        };
        // What a row that was stored tells is mostly seen in an outlook.
        if self.random.chance(300) {
            self.planned.push(Call::Outlook {
                rows: labs,
                lab: place,
                places: MOST_PLACES,
            });
        }
        let greatest = self.random.pick(&[900 / labs.max(1) as u64, 999]);
        Call::ExchangeRow {
            place: place as usize,
            row: inputs::odd_row(&mut self.random, greatest),
        }
    }

    /// The lab of a waiting ticket, mostly, and else any.
    fn lab_with_tickets(&mut self, gate: &Gate) -> u64 {
        let labs = gate.labs();
        let any = self.random.below(labs.max(1));
        let mut round = (any..labs).chain(0..any);
        round
            .find(|&lab| gate.count_waiting(lab) > 0)
            .filter(|_| self.random.chance(700))
            .unwrap_or(any)
    }

    /// A call that is made now and then.
    fn rare(&mut self, gate: &Gate) -> Call {
        match self.random.below(20) {
            0 => {
                self.plan_opening();
                Call::New(self.turns())
            }
            1..=3 => {
                self.plan_opening();
                self.usual(gate)
            }
            4..=8 => self.open(gate),
            9..=14 => self.server_row(),
            _ => Call::SpacedRow { rate: self.rate() },
        }
    }

    /// Opens the gate on the table as it is, which is denied at times.
    fn open(&mut self, gate: &Gate) -> Call {
        let labs = gate.labs() as usize;
        let any = self.random.below(TABLE_ROWS as u64 + 1) as usize;
        let order = self.order();
        let rows = self.random.weighted(&[
            (4, labs),
            (1, 0),
            (1, 64),
            (1, 65),
            (1, TABLE_ROWS),
            (1, any),
        ]);
        Call::Open { rows, order }
    }

    fn server_row(&mut self) -> Call {
        let rate = self.rate();
        let mut ceiling = inputs::ceiling(&mut self.random);
        let mut threshold = inputs::threshold(&mut self.random, ceiling);
        if self.random.chance(250) {
            let any = inputs::hostile(&mut self.random);
            let greatest = GREATEST_CEILING;
            ceiling = self.random.pick(&[greatest, greatest + 1, any]);
        }
        if self.random.chance(250) {
            let any = inputs::hostile(&mut self.random);
            threshold = self.random.pick(&[ceiling.wrapping_add(1), any]);
        }
        Call::ServerRow {
            rate,
            ceiling,
            threshold,
        }
    }

    fn rate(&mut self) -> u64 {
        if self.random.chance(250) {
            let any = inputs::hostile(&mut self.random);
            return self.random.pick(&[0, 1, 999, 1000, u64::MAX, any]);
        }
        self.random.within(1, 999)
    }

    fn usual(&mut self, gate: &Gate) -> Call {
        let file = self.mix.filings;
        let is_held = gate.running().is_some();
        // Begin, end and outlook are mostly made where they can be granted.
        let (begin, end, outlook) = if is_held { (4, 45, 4) } else { (40, 2, 20) };
        let kind = self.random.weighted(&[
            (file, Kind::File),
            (8, Kind::Withdraw),
            (begin, Kind::Begin),
            (end, Kind::End),
            (outlook, Kind::Outlook),
        ]);
        let rows = self.rows(gate);
        let tick = self.tick(gate);
        match kind {
            Kind::File => self.file(gate, rows, tick),
            Kind::Withdraw => {
                let number = self.number();
                Call::Withdraw { rows, tick, number }
            }
            Kind::Begin => Call::Begin { rows, tick },
            Kind::End => Call::End { rows, tick },
            Kind::Outlook => self.outlook(gate, rows),
        }
    }

    /// As many rows as there are labs, mostly.
    fn rows(&mut self, gate: &Gate) -> usize {
        let labs = gate.labs() as usize;
        if !self.random.chance(self.mix.other_length) {
            return labs;
        }
        let any = self.random.below(TABLE_ROWS as u64 + 1) as usize;
        let fewer = labs.saturating_sub(1);
        self.random
            .pick(&[0, fewer, labs + 1, 64, 65, TABLE_ROWS, any])
    }

    fn is_hostile(&mut self) -> bool {
        self.random.chance(self.mix.hostile)
    }

    /// A tick a little above the clock, mostly, or when the next turn is.
    fn tick(&mut self, gate: &Gate) -> u64 {
        let clock = gate.clock();
        let random = &mut self.random;
        if random.chance(self.mix.hostile) {
            let any = inputs::hostile(random);
            let before = clock.wrapping_sub(1);
            return random.pick(&[before, before, before, 0, LAST_TICK, LAST_TICK + 1, any]);
        }
        // A turn that cannot come any more is asked for only now and then.
        let is_late = self.turn > LAST_TICK && random.chance(900);
        let turn = if is_late { clock } else { self.turn };
        match random.below(200) {
            0..=69 => clock + random.below(4),
            70..=104 => clock + random.below(50),
            105..=124 => clock + random.below(3_000),
            125..=164 => turn.max(clock),
            165..=179 => turn.saturating_sub(1).max(clock),
            180..=195 => turn.max(clock) + random.below(10),
            196..=198 => clock + random.below(GREATEST_LENGTH),
            _ => random.within(clock, LAST_TICK),
        }
    }

    fn lab(&mut self, gate: &Gate) -> u64 {
        let labs = gate.labs();
        if self.is_hostile() {
            let any = inputs::hostile(&mut self.random);
            return self
                .random
                .pick(&[labs, labs + 1, 63, 64, 65, u64::MAX, any]);
        }
        let busy = labs.min(self.mix.busy_labs);
        let among = if self.random.chance(800) { busy } else { labs };
        (self.first_busy + self.random.below(among.max(1))) % labs.max(1)
    }

    fn file(&mut self, gate: &Gate, rows: usize, tick: u64) -> Call {
        let lab = self.lab(gate);
        Call::File {
            rows,
            tick,
            lab,
            length: self.declared_length(),
            due: self.due(tick),
        }
    }

    fn declared_length(&mut self) -> u64 {
        let random = &mut self.random;
        if random.chance(self.mix.hostile) {
            let any = inputs::hostile(random);
            return random.pick(&[0, GREATEST_LENGTH, GREATEST_LENGTH + 1, u64::MAX, any]);
        }
        let greatest = random.pick(&[4, 10, 10, 10, 100, 1_000, GREATEST_LENGTH]);
        random.within(1, greatest)
    }

    fn due(&mut self, tick: u64) -> u64 {
        let random = &mut self.random;
        if random.chance(self.mix.hostile) {
            let any = inputs::hostile(random);
            let before = tick.wrapping_sub(1);
            return random.pick(&[before, 0, LAST_TICK, LAST_TICK + 1, u64::MAX, any]);
        }
        let soon = tick.saturating_add(random.below(8));
        let later = tick.saturating_add(random.below(1_000));
        random.pick(&[LAST_TICK, soon, later]).min(LAST_TICK)
    }

    /// The number of a waiting ticket, mostly.
    fn number(&mut self) -> u64 {
        if !self.waiting.is_empty() && self.random.chance(850) {
            return self.random.pick(&self.waiting);
        }
        let any = inputs::hostile(&mut self.random);
        let given = self.random.within(0, self.latest + 1);
        self.random.pick(&[0, given, given, self.latest + 1, any])
    }

    fn outlook(&mut self, gate: &Gate, rows: usize) -> Call {
        let lab = self.lab(gate);
        let count = gate.count_waiting(lab) as usize;
        let enough = self.random.within(16, MOST_PLACES as u64) as usize;
        let few = self.random.below(4) as usize;
        let places = self.random.weighted(&[
            (8, enough),
            (2, count),
            (1, count + 1),
            (1, count.saturating_sub(1)),
            (1, few),
        ]);
        Call::Outlook { rows, lab, places }
    }
}
