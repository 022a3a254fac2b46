//! The gate against a slow model that keeps lists, on random calls with
//! numbers of any size and with tables that hosts exchange.

mod common;

use common::{LAST, Random};
use plain::{
    Circular, Entry, Gate, LongestUnserved, QueueOrder, Refusal, Row, Running, Turn, TurnRule,
};

#[derive(Clone, Debug, PartialEq)]
struct ModelTicket {
    key: u64,
    number: u64,
    lab: u64,
    filed: u64,
    length: u64,
}

/// A gate that keeps one list of all tickets and one of the turns.
#[derive(Clone)]
struct Model {
    turns: Vec<u64>,
    circular: bool,
    labs: usize,
    order: QueueOrder,
    clock: u64,
    given: u64,
    tickets: Vec<ModelTicket>,
    running: Option<Running>,
}

type Answer<T> = Result<T, u64>;

impl Model {
    fn new(circular: bool) -> Self {
        Model {
            turns: (0..64).collect(),
            circular,
            labs: 0,
            order: QueueOrder::Arrival,
            clock: 0,
            given: 0,
            tickets: Vec::new(),
            running: None,
        }
    }

    fn open(&mut self, rows: &mut [Row], order: QueueOrder) -> Answer<()> {
        if rows.is_empty() || rows.len() > 64 {
            return Err(4);
        }
        if rows.iter().map(Row::rate).sum::<u64>() > 900 {
            return Err(5);
        }
        rows.iter_mut().for_each(Row::restart);
        let turns = self.turns.clone();
        *self = Model::new(self.circular);
        self.turns = turns;
        self.labs = rows.len();
        self.order = order;
        Ok(())
    }

    fn check(&self, rows: &[Row], tick: u64) -> Answer<()> {
        if rows.len() != self.labs {
            return Err(6);
        }
        if tick < self.clock || tick > LAST {
            return Err(7);
        }
        Ok(())
    }

    fn pass(&mut self, rows: &mut [Row], tick: u64) {
        for (lab, row) in rows.iter_mut().enumerate() {
            let holds = self.running.is_some_and(|run| run.lab == lab as u64);
            if !holds {
                assert!(row.rest(tick - self.clock));
            }
        }
        self.clock = tick;
    }

    fn queue(&self, lab: u64) -> Vec<ModelTicket> {
        let own = self.tickets.iter().filter(|ticket| ticket.lab == lab);
        let mut queue: Vec<ModelTicket> = own.cloned().collect();
        queue.sort_by_key(|ticket| (ticket.key, ticket.number));
        queue
    }

    fn drop_ticket(&mut self, number: u64) {
        self.tickets.retain(|ticket| ticket.number != number);
    }

    fn file(&mut self, rows: &mut [Row], tick: u64, ask: [u64; 3]) -> Answer<u64> {
        let [lab, length, due] = ask;
        self.check(rows, tick)?;
        if lab >= self.labs as u64 {
            return Err(8);
        }
        if length == 0 || length > 1_000_000 {
            return Err(9);
        }
        if due < tick || due > LAST {
            return Err(10);
        }
        if self.queue(lab).len() == 16 {
            return Err(11);
        }
        self.pass(rows, tick);
        self.given += 1;
        self.tickets.push(ModelTicket {
            key: match self.order {
                QueueOrder::Arrival => 0,
                QueueOrder::Due => due,
                QueueOrder::Short => length,
            },
            number: self.given,
            lab,
            filed: tick,
            length,
        });
        Ok(self.given)
    }

    fn withdraw(&mut self, rows: &mut [Row], tick: u64, number: u64) -> Answer<u64> {
        self.check(rows, tick)?;
        let found = self.tickets.iter().find(|ticket| ticket.number == number);
        let lab = found.map(|ticket| ticket.lab).ok_or(13u64)?;
        self.pass(rows, tick);
        self.drop_ticket(number);
        Ok(lab)
    }

    fn serve(&mut self, lab: u64) {
        if self.circular {
            self.turns = (lab + 1..64).chain(0..=lab).collect();
        } else {
            self.turns.retain(|&other| other != lab);
            self.turns.push(lab);
        }
    }

    fn begin(&mut self, rows: &mut [Row], tick: u64) -> Answer<Turn> {
        self.check(rows, tick)?;
        if self.running.is_some() {
            return Err(14);
        }
        self.pass(rows, tick);
        let with_tickets: Vec<u64> = self
            .turns
            .iter()
            .copied()
            .filter(|&lab| !self.queue(lab).is_empty())
            .collect();
        let leader = with_tickets
            .iter()
            .copied()
            .find(|&lab| rows[lab as usize].able());
        let Some(lab) = leader else {
            let wakes = with_tickets.iter().map(|&lab| rows[lab as usize].wake());
            let wait = wakes.min().map(|wake| Turn::Wait(tick + wake));
            return Ok(wait.unwrap_or(Turn::Nothing));
        };
        let ticket = self.queue(lab).remove(0);
        self.drop_ticket(ticket.number);
        self.serve(lab);
        self.running = Some(Running {
            lab,
            number: ticket.number,
            length: ticket.length,
            filed: ticket.filed,
            began: tick,
        });
        Ok(Turn::Began {
            lab,
            number: ticket.number,
            length: ticket.length,
        })
    }

    fn end(&mut self, rows: &mut [Row], tick: u64) -> Answer<(u64, u64, u64)> {
        self.check(rows, tick)?;
        let run = self.running.ok_or(15u64)?;
        self.pass(rows, tick);
        self.running = None;
        rows[run.lab as usize].ended(tick - run.began);
        Ok((run.number, tick - run.began, tick - run.filed))
    }

    fn outlook(&self, rows: &[Row], lab: u64, list: &mut [Entry]) -> Answer<u64> {
        if rows.len() != self.labs {
            return Err(6);
        }
        if lab >= self.labs as u64 {
            return Err(8);
        }
        if self.running.is_some() {
            return Err(14);
        }
        let queue = self.queue(lab);
        if list.len() < queue.len() {
            return Err(16);
        }
        let mut row = rows[lab as usize];
        let mut tick = self.clock;
        for (entry, ticket) in list.iter_mut().zip(&queue) {
            let mut left = row.wake();
            let start = tick + left;
            while left > LAST {
                assert!(row.rest(LAST));
                left -= LAST;
            }
            assert!(row.rest(left));
            assert!(row.ended(ticket.length));
            tick = start + ticket.length;
            *entry = Entry {
                number: ticket.number,
                start,
                end: tick,
            };
        }
        Ok(queue.len() as u64)
    }
}

fn number_of<T>(answer: Result<T, Refusal>) -> Answer<T> {
    answer.map_err(Refusal::number)
}

struct Run<T: TurnRule> {
    random: Random,
    gate: Gate<T>,
    model: Model,
    rows: Vec<Row>,
    model_rows: Vec<Row>,
    refused: [u64; 17],
}

impl<T: TurnRule + Clone + PartialEq + std::fmt::Debug> Run<T> {
    fn new(seed: u64, turns: T, circular: bool) -> Self {
        Run {
            random: Random::new(seed),
            gate: Gate::new(turns),
            model: Model::new(circular),
            rows: Vec::new(),
            model_rows: Vec::new(),
            refused: [0; 17],
        }
    }

    fn a_table(&mut self) -> Vec<Row> {
        let odd = self.random.below(4) == 0;
        let most = if odd { 70 } else { 8 };
        let count = self.random.below(most) as usize;
        (0..count)
            .map(|_| {
                if odd {
                    self.random.odd_row()
                } else {
                    self.random.small_row()
                }
            })
            .collect()
    }

    fn a_tick(&mut self) -> u64 {
        match self.random.below(40) {
            0 => self.random.odd(),
            1 => self.gate.clock().wrapping_sub(1),
            2..=10 => self.gate.clock() + self.random.below(4000),
            _ => self.gate.clock() + self.random.below(5),
        }
    }

    fn a_lab(&mut self) -> u64 {
        match self.random.below(20) {
            0 => self.random.odd(),
            _ => self.random.below(self.gate.labs() + 1),
        }
    }

    fn a_length(&mut self) -> u64 {
        match self.random.below(20) {
            0 => self.random.odd(),
            _ => 1 + self.random.below(9),
        }
    }

    fn a_due(&mut self, tick: u64) -> u64 {
        match self.random.below(8) {
            0 => self.random.odd(),
            1 => LAST,
            _ => tick.saturating_add(self.random.below(50)),
        }
    }

    fn open(&mut self) {
        let mut table = self.a_table();
        let order = self
            .random
            .pick(&[QueueOrder::Arrival, QueueOrder::Due, QueueOrder::Short]);
        let before = (self.gate.clone(), table.clone());
        let mut model_table = table.clone();
        let answer = number_of(self.gate.open(&mut table, order));
        assert_eq!(answer, self.model.open(&mut model_table, order));
        assert_eq!(table, model_table);
        match answer {
            Ok(()) => {
                self.model_rows = table.clone();
                self.rows = table;
            }
            Err(number) => {
                self.refused[number as usize] += 1;
                assert_eq!((&self.gate, &table), (&before.0, &before.1));
            }
        }
    }

    /// The host exchanges a row, or brings a table of another length.
    fn exchange(&mut self) {
        if !self.rows.is_empty() {
            let lab = self.random.below(self.rows.len() as u64) as usize;
            let row = self.random.odd_row();
            self.rows[lab] = row;
            self.model_rows[lab] = row;
        }
    }

    fn call(&mut self) {
        let before = (self.gate.clone(), self.rows.clone());
        let tick = self.a_tick();
        let wrong_length = self.random.below(100) == 0;
        if wrong_length {
            let row = self.random.odd_row();
            self.rows.push(row);
            self.model_rows.push(row);
        }
        let kind = self.random.below(8);
        let number = self.random.below(self.model.given + 3);
        let ask = [self.a_lab(), self.a_length(), self.a_due(tick)];
        let (gate, rows) = (&mut self.gate, &mut self.rows);
        let (model, model_rows) = (&mut self.model, &mut self.model_rows);
        let refused = match kind {
            0..=2 => {
                let [lab, length, due] = ask;
                let answer = number_of(gate.file(rows, tick, lab, length, due));
                assert_eq!(answer, model.file(model_rows, tick, ask));
                answer.err()
            }
            3 => {
                let answer = number_of(gate.withdraw(rows, tick, number));
                assert_eq!(answer, model.withdraw(model_rows, tick, number));
                answer.err()
            }
            4 | 5 => {
                let answer = number_of(gate.begin(rows, tick));
                assert_eq!(answer, model.begin(model_rows, tick));
                answer.err()
            }
            _ => {
                let answer = number_of(gate.end(rows, tick));
                let answer = answer.map(|end| (end.number, end.held, end.response));
                assert_eq!(answer, model.end(model_rows, tick));
                answer.err()
            }
        };
        if wrong_length {
            assert_eq!(refused, Some(6));
            self.rows.pop();
            self.model_rows.pop();
        }
        assert_eq!(self.rows, self.model_rows);
        if let Some(number) = refused {
            self.refused[number as usize] += 1;
            assert_eq!((&self.gate, &self.rows), (&before.0, &before.1));
        }
    }

    fn ask_outlook(&mut self) {
        let mark = Entry {
            number: 1,
            start: 2,
            end: 3,
        };
        let lab = self.a_lab();
        let mut list = vec![mark; self.random.below(20) as usize];
        let mut model_list = list.clone();
        let answer = number_of(self.gate.outlook(&self.rows, lab, &mut list));
        let expected = self.model.outlook(&self.model_rows, lab, &mut model_list);
        assert_eq!(answer, expected);
        assert_eq!(list, model_list);
        if let Err(number) = answer {
            self.refused[number as usize] += 1;
            assert!(list.iter().all(|entry| *entry == mark));
        }
    }

    fn compare(&mut self) {
        assert_eq!(self.gate.clock(), self.model.clock);
        assert_eq!(self.gate.labs(), self.model.labs as u64);
        assert_eq!(self.gate.running(), self.model.running);
        let lab = self.a_lab();
        let waiting = self.model.queue(lab).len() as u64;
        assert_eq!(self.gate.count_waiting(lab), waiting);
    }

    fn run(mut self, steps: u64) -> [u64; 17] {
        for _ in 0..steps {
            match self.random.below(200) {
                0 => self.open(),
                1..=3 => self.exchange(),
                4..=20 => self.ask_outlook(),
                _ => self.call(),
            }
            self.compare();
        }
        self.refused
    }
}

/// Checks that all refusals of the gate came, but for the one of tickets.
fn check_all_came(refused: [u64; 17]) {
    for number in [4, 5, 6, 7, 8, 9, 10, 11, 13, 14, 15, 16] {
        assert!(refused[number] > 0, "refusal {number} never came");
    }
}

#[test]
fn circular_turns_answer_as_the_model() {
    check_all_came(Run::new(1, Circular::new(), true).run(20_000));
}

#[test]
fn longest_unserved_turns_answer_as_the_model() {
    check_all_came(Run::new(2, LongestUnserved::new(), false).run(20_000));
}

/// A turn rule that keeps no law at all.
#[derive(Clone, Debug, PartialEq)]
struct Lawless(bool);

impl TurnRule for Lawless {
    fn ahead(&self, _: u64, _: u64) -> bool {
        self.0
    }

    fn served(&mut self, _: u64) {
        self.0 = !self.0;
    }
}

#[test]
fn a_lawless_turn_rule_starts_imports_all_the_same() {
    let mut random = Random::new(9);
    let mut rows: Vec<Row> = (0..64)
        .map(|_| {
            let mut row = random.small_row();
            row.rest(LAST);
            row
        })
        .collect();
    let mut gate = Gate::new(Lawless(false));
    gate.open(&mut rows, QueueOrder::Arrival).unwrap();
    let mut tick = 10_000;
    for lab in 0..64 {
        gate.file(&mut rows, tick, lab, 1, LAST).unwrap();
    }
    let mut begun = 0;
    loop {
        match gate.begin(&mut rows, tick).unwrap() {
            Turn::Began { .. } => {
                begun += 1;
                tick += 1;
                gate.end(&mut rows, tick).unwrap();
            }
            Turn::Wait(until) => tick = until,
            Turn::Nothing => break,
        }
    }
    assert_eq!(begun, 64);
}
