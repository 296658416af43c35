// The interpreter of strands, written as usual Rust over the same code tables: slots by number, one small step a call. It runs
// the program of the other file of this folder, and prints how long a run takes.
#![allow(dead_code)]

use std::collections::BTreeMap;
use std::hint::black_box;
use std::mem;
use std::time::Instant;

// ---- code

#[derive(Clone, Copy)]
enum Operator {
    Add,
    Subtract,
    Multiply,
    Divide,
    Remainder,
    Equal,
    Unequal,
    Less,
    AtMost,
    Greater,
    AtLeast,
}

enum Expression {
    Number(i64),
    Slot(usize),
    Cell(usize, Box<Expression>, usize),
    Has(usize, Box<Expression>),
    Limit(usize),
    Sum(usize, usize),
    Negate(Box<Expression>),
    Binary(Operator, Box<Expression>, Box<Expression>),
}

#[derive(Clone, Copy, PartialEq)]
enum Way {
    Call,
    Spawn,
}

enum Operation {
    Bind(usize, Expression),
    Enter(Option<usize>, Way, usize, Vec<Expression>),
    Read(usize, usize),
    Sync,
    Update(usize, Vec<Expression>),
    If(Expression, usize, usize),
    Loop(usize, Expression, Expression, u32, usize, Vec<Expression>),
    Return(Expression),
}

struct Instruction {
    number: u32,
    operation: Operation,
}

struct Code {
    slots: usize,
    blocks: Vec<Vec<Instruction>>,
}

struct Program {
    codes: Vec<Code>,
    kinds: Vec<Kind>,
    main: usize,
}

// ---- tables

struct Rows {
    by_number: BTreeMap<i64, Vec<i64>>,
    sums: Vec<i64>,
}

struct Tables {
    tables: Vec<Rows>,
}

impl Tables {
    fn cell(&self, table: usize, row: i64, column: usize) -> Option<i64> {
        self.tables
            .get(table)?
            .by_number
            .get(&row)?
            .get(column)
            .copied()
    }

    fn has(&self, table: usize, row: i64) -> bool {
        self.tables
            .get(table)
            .is_some_and(|rows| rows.by_number.contains_key(&row))
    }

    fn limit(&self, table: usize) -> i64 {
        self.tables
            .get(table)
            .and_then(|rows| rows.by_number.last_key_value())
            .map_or(0, |(number, _)| number.wrapping_add(1))
    }

    fn sum(&self, table: usize, column: usize) -> i64 {
        self.tables
            .get(table)
            .and_then(|rows| rows.sums.get(column))
            .copied()
            .unwrap_or(0)
    }
}

// ---- reducers

#[derive(Clone, Copy)]
struct Table {
    size: u8,
    unit: u8,
    cells: [u8; 256],
}

#[derive(Clone, Copy)]
enum Kind {
    Add,
    Mul,
    Min,
    Max,
    And,
    Or,
    Xor,
    List,
    First(u16),
    Last(u16),
    Argmax,
    Affine,
    Hist,
    Table(Table),
}

enum Val {
    Int(i64),
    List(Vec<i64>),
    Arg(Option<(i64, i64)>),
    Pair(i64, i64),
    Hist(Vec<(i64, i64)>),
    Elem(u8),
}

struct View {
    kind: Kind,
    value: Val,
}

impl View {
    fn new(kind: Kind) -> View {
        let value = match kind {
            Kind::Add | Kind::Or | Kind::Xor => Val::Int(0),
            Kind::Mul => Val::Int(1),
            Kind::Min => Val::Int(i64::MAX),
            Kind::Max => Val::Int(i64::MIN),
            Kind::And => Val::Int(-1),
            Kind::List | Kind::First(_) | Kind::Last(_) => Val::List(Vec::new()),
            Kind::Argmax => Val::Arg(None),
            Kind::Affine => Val::Pair(1, 0),
            Kind::Hist => Val::Hist(Vec::new()),
            Kind::Table(table) => Val::Elem(table.unit),
        };
        View { kind, value }
    }

    fn update(&mut self, numbers: &[i64]) -> Result<(), FaultKind> {
        match (&self.kind, &mut self.value) {
            (Kind::Add, Val::Int(value)) => *value = value.wrapping_add(numbers[0]),
            (Kind::Mul, Val::Int(value)) => *value = value.wrapping_mul(numbers[0]),
            (Kind::Min, Val::Int(value)) => *value = (*value).min(numbers[0]),
            (Kind::Max, Val::Int(value)) => *value = (*value).max(numbers[0]),
            (Kind::And, Val::Int(value)) => *value &= numbers[0],
            (Kind::Or, Val::Int(value)) => *value |= numbers[0],
            (Kind::Xor, Val::Int(value)) => *value ^= numbers[0],
            (Kind::List, Val::List(list)) => list.push(numbers[0]),
            (Kind::First(count), Val::List(list)) => {
                if list.len() < usize::from(*count) {
                    list.push(numbers[0]);
                }
            }
            (Kind::Last(count), Val::List(list)) => {
                list.push(numbers[0]);
                if list.len() > usize::from(*count) {
                    list.remove(0);
                }
            }
            (Kind::Argmax, Val::Arg(best)) => {
                if best.is_none_or(|(key, _)| key < numbers[0]) {
                    *best = Some((numbers[0], numbers[1]));
                }
            }
            (Kind::Hist, Val::Hist(amounts)) => {
                match amounts.binary_search_by_key(&numbers[0], |(key, _)| *key) {
                    Ok(i) => amounts[i].1 = amounts[i].1.wrapping_add(numbers[1]),
                    Err(i) => amounts.insert(i, (numbers[0], numbers[1])),
                }
            }
            (Kind::Affine, Val::Pair(factor, term)) => {
                *term = numbers[0].wrapping_mul(*term).wrapping_add(numbers[1]);
                *factor = factor.wrapping_mul(numbers[0]);
            }
            (Kind::Table(table), Val::Elem(value)) => {
                if numbers[0] < 0 || numbers[0] >= i64::from(table.size) {
                    return Err(FaultKind::BadElement);
                }
                let row = usize::from(*value) * usize::from(table.size);
                *value = table.cells[row + numbers[0] as usize];
            }
            _ => return Err(FaultKind::BadElement),
        }
        Ok(())
    }

    fn number(&self) -> i64 {
        match self.value {
            Val::Int(value) => value,
            _ => 0,
        }
    }
}

// ---- strands

#[derive(Clone, Copy, Debug, PartialEq)]
enum FaultKind {
    DivideByZero,
    MissingRow,
    RangeTooLong,
    TooDeep,
    BadElement,
}

#[derive(Clone, Copy)]
enum Slot {
    Unset,
    Waits(usize),
    Has(i64),
}

#[derive(Clone, Copy)]
enum Note {
    Cell {
        table: usize,
        row: i64,
        column: usize,
        value: i64,
    },
    Has {
        table: usize,
        row: i64,
        found: bool,
    },
    Limit {
        table: usize,
        value: i64,
    },
    Sum {
        table: usize,
        column: usize,
        value: i64,
    },
}

#[derive(Clone, Copy)]
struct Position {
    block: usize,
    index: usize,
}

#[derive(Clone, Copy)]
struct Loop {
    block: usize,
    index: usize,
    low: i64,
}

#[derive(Clone, Copy)]
struct Share {
    first: u32,
    count: u32,
}

#[derive(Clone, Copy)]
enum Work {
    Block(Position),
    Over,
    Halves(Loop, u32, Share),
    Second(Loop, u32, Share),
    Turns(Loop, Share),
}

struct Activation {
    left: u32,
    children: usize,
    procedure: usize,
    slots: Vec<Slot>,
    outer: Vec<Position>,
    work: Work,
    spawned: bool,
    into: Option<usize>,
}

impl Activation {
    fn new(procedure: usize, slots: Vec<Slot>, work: Work, left: u32) -> Activation {
        Activation {
            left,
            children: 0,
            procedure,
            slots,
            outer: Vec::new(),
            work,
            spawned: false,
            into: None,
        }
    }

    fn bind(&mut self, name: Option<usize>, value: i64) {
        if let Some(slot) = name.and_then(|name| self.slots.get_mut(name)) {
            *slot = Slot::Has(value);
        }
    }
}

#[derive(Clone, Copy)]
enum Phase {
    Entering,
    Running,
    AtSpawn,
    Returning(i64),
    Leaving(i64),
    Broken(FaultKind, usize, u32),
}

#[derive(Clone, Copy, Debug, PartialEq)]
enum Paused {
    Working,
    AtSpawn,
    AtSync,
    Returned,
    Finished,
    Faulted,
}

#[derive(Clone, Copy)]
enum Start {
    Root,
    Behind { depth: usize },
}

struct Layer {
    views: Vec<View>,
    used: Vec<bool>,
    order: Vec<usize>,
    notes: Vec<Note>,
    entered: Vec<bool>,
    deepest: u32,
}

struct Strand {
    start: Start,
    layer: Layer,
    path: Vec<usize>,
    place: Vec<usize>,
    top: Activation,
    below: Vec<Activation>,
    phase: Phase,
    numbers: Vec<i64>,
}

fn evaluate(
    expression: &Expression,
    slots: &[Slot],
    tables: &Tables,
    notes: &mut Vec<Note>,
) -> Result<i64, FaultKind> {
    match expression {
        Expression::Number(number) => Ok(*number),
        Expression::Slot(number) => Ok(match slots.get(*number) {
            Some(Slot::Has(value)) => *value,
            _ => 0,
        }),
        Expression::Cell(table, row, column) => {
            let row = evaluate(row, slots, tables, notes)?;
            let value = tables
                .cell(*table, row, *column)
                .ok_or(FaultKind::MissingRow)?;
            notes.push(Note::Cell {
                table: *table,
                row,
                column: *column,
                value,
            });
            Ok(value)
        }
        Expression::Has(table, row) => {
            let (table, row) = (*table, evaluate(row, slots, tables, notes)?);
            let found = tables.has(table, row);
            notes.push(Note::Has { table, row, found });
            Ok(i64::from(found))
        }
        Expression::Limit(table) => {
            let (table, value) = (*table, tables.limit(*table));
            notes.push(Note::Limit { table, value });
            Ok(value)
        }
        Expression::Sum(table, column) => {
            let (table, column) = (*table, *column);
            let value = tables.sum(table, column);
            notes.push(Note::Sum {
                table,
                column,
                value,
            });
            Ok(value)
        }
        Expression::Negate(inner) => Ok(evaluate(inner, slots, tables, notes)?.wrapping_neg()),
        Expression::Binary(operator, left, right) => {
            let left = evaluate(left, slots, tables, notes)?;
            let right = evaluate(right, slots, tables, notes)?;
            apply(*operator, left, right)
        }
    }
}

fn apply(operator: Operator, left: i64, right: i64) -> Result<i64, FaultKind> {
    Ok(match operator {
        Operator::Add => left.wrapping_add(right),
        Operator::Subtract => left.wrapping_sub(right),
        Operator::Multiply => left.wrapping_mul(right),
        Operator::Divide | Operator::Remainder if right == 0 => {
            return Err(FaultKind::DivideByZero);
        }
        Operator::Divide => left.wrapping_div(right),
        Operator::Remainder => left.wrapping_rem(right),
        Operator::Equal => i64::from(left == right),
        Operator::Unequal => i64::from(left != right),
        Operator::Less => i64::from(left < right),
        Operator::AtMost => i64::from(left <= right),
        Operator::Greater => i64::from(left > right),
        Operator::AtLeast => i64::from(left >= right),
    })
}

fn entry_slots(
    size: usize,
    arguments: &[Expression],
    slots: &[Slot],
    tables: &Tables,
    notes: &mut Vec<Note>,
) -> Result<Vec<Slot>, FaultKind> {
    let mut made = Vec::with_capacity(size);
    for argument in arguments {
        made.push(Slot::Has(evaluate(argument, slots, tables, notes)?));
    }
    made.resize(size, Slot::Unset);
    Ok(made)
}

const FIRST: Work = Work::Block(Position { block: 0, index: 0 });

impl Strand {
    fn first(program: &Program) -> Strand {
        let main = program.main;
        let slots = vec![Slot::Unset; program.codes[main].slots];
        Strand {
            start: Start::Root,
            layer: Layer {
                views: program.kinds.iter().map(|kind| View::new(*kind)).collect(),
                used: vec![false; program.kinds.len()],
                order: Vec::new(),
                notes: Vec::new(),
                entered: vec![false; program.codes.len()],
                deepest: 0,
            },
            path: Vec::new(),
            place: Vec::new(),
            top: Activation::new(main, slots, FIRST, 255),
            below: Vec::new(),
            phase: Phase::Entering,
            numbers: Vec::new(),
        }
    }

    fn is_entry(&self) -> bool {
        match self.start {
            Start::Root => false,
            Start::Behind { depth } => self.path.len() == depth,
        }
    }

    fn is_at_sync(&self, program: &Program) -> bool {
        match self.top.work {
            Work::Block(place) => matches!(
                self.instruction(program, place).map(|i| &i.operation),
                Some(Operation::Sync)
            ),
            _ => false,
        }
    }

    fn instruction<'a>(&self, program: &'a Program, place: Position) -> Option<&'a Instruction> {
        program.codes[self.top.procedure]
            .blocks
            .get(place.block)?
            .get(place.index)
    }

    fn pause(&self, program: &Program) -> Paused {
        match self.phase {
            Phase::Entering => Paused::Working,
            Phase::Running if self.is_entry() && self.is_at_sync(program) => Paused::AtSync,
            Phase::Running => Paused::Working,
            Phase::AtSpawn => Paused::AtSpawn,
            Phase::Returning(_) if self.is_entry() => Paused::AtSync,
            Phase::Returning(_) => Paused::Working,
            Phase::Leaving(_) if !self.below.is_empty() => Paused::Working,
            Phase::Leaving(_) if self.path.is_empty() => Paused::Finished,
            Phase::Leaving(_) => Paused::Returned,
            Phase::Broken(..) => Paused::Faulted,
        }
    }

    #[inline(never)]
    fn advance(&mut self, program: &Program, tables: &Tables) -> Paused {
        let paused = self.pause(program);
        match self.phase {
            Phase::Entering => self.start(),
            Phase::Running => self.work(program, tables),
            Phase::Returning(value) => {
                if !self.is_entry() {
                    self.phase = Phase::Leaving(value);
                }
            }
            Phase::Leaving(value) => {
                if let Some(mut parent) = self.below.pop() {
                    parent.bind(parent.into, value);
                    self.top = parent;
                    self.path.pop();
                    self.phase = Phase::Running;
                }
            }
            Phase::AtSpawn | Phase::Broken(..) => {}
        }
        paused
    }

    fn start(&mut self) {
        if let Work::Block(_) = self.top.work {
            self.layer.entered[self.top.procedure] = true;
            self.layer.deepest = self.layer.deepest.max(256 - self.top.left);
        }
        self.phase = Phase::Running;
    }

    fn entry_slots(
        &mut self,
        size: usize,
        arguments: &[Expression],
        tables: &Tables,
    ) -> Result<Vec<Slot>, FaultKind> {
        entry_slots(
            size,
            arguments,
            &self.top.slots,
            tables,
            &mut self.layer.notes,
        )
    }

    fn fault(&mut self, statement: u32, kind: FaultKind) {
        self.phase = Phase::Broken(kind, self.top.procedure, statement);
    }

    fn work(&mut self, program: &Program, tables: &Tables) {
        match self.top.work {
            Work::Block(place) => match self.instruction(program, place) {
                None => {
                    self.top.work = match self.top.outer.pop() {
                        None => Work::Over,
                        Some(place) => Work::Block(place),
                    }
                }
                Some(instruction) => {
                    let number = instruction.number;
                    if let Err(kind) = self.perform(program, tables, place, instruction) {
                        self.fault(number, kind);
                    }
                }
            },
            Work::Over => self.phase = Phase::Returning(0),
            Work::Halves(site, halvings, share) => self.halve(program, site, halvings, share),
            Work::Second(site, halvings, share) => {
                let slots = mem::take(&mut self.top.slots);
                self.push_loop(slots, Work::Halves(site, halvings, share), Work::Over);
            }
            Work::Turns(site, share) => self.turn(program, tables, site, share),
        }
    }

    fn pass(&mut self, place: Position) {
        self.top.work = Work::Block(Position {
            block: place.block,
            index: place.index + 1,
        });
    }

    fn value(&mut self, expression: &Expression, tables: &Tables) -> Result<i64, FaultKind> {
        evaluate(expression, &self.top.slots, tables, &mut self.layer.notes)
    }

    fn perform(
        &mut self,
        program: &Program,
        tables: &Tables,
        place: Position,
        instruction: &Instruction,
    ) -> Result<(), FaultKind> {
        match &instruction.operation {
            Operation::Bind(name, value) => {
                let value = self.value(value, tables)?;
                self.top.bind(Some(*name), value);
                self.pass(place);
            }
            Operation::Enter(into, way, callee, arguments) => {
                let size = program.codes[*callee].slots;
                let slots = self.entry_slots(size, arguments, tables)?;
                let after = Work::Block(Position {
                    block: place.block,
                    index: place.index + 1,
                });
                self.nest(*way, *into, after, *callee, slots)?;
            }
            Operation::Read(name, reducer) => {
                let value = self.layer.views[*reducer].number();
                self.top.bind(Some(*name), value);
                self.pass(place);
            }
            Operation::Sync => {
                if !self.is_entry() {
                    self.pass(place);
                }
            }
            Operation::Update(reducer, values) => {
                self.numbers.clear();
                for value in values {
                    let number = evaluate(value, &self.top.slots, tables, &mut self.layer.notes)?;
                    self.numbers.push(number);
                }
                if !self.layer.used[*reducer] {
                    self.layer.used[*reducer] = true;
                    self.layer.order.push(*reducer);
                }
                self.layer.views[*reducer].update(&self.numbers)?;
                self.pass(place);
            }
            Operation::If(condition, first, second) => {
                let block = if self.value(condition, tables)? == 0 {
                    *second
                } else {
                    *first
                };
                self.top.outer.push(Position {
                    block: place.block,
                    index: place.index + 1,
                });
                self.top.work = Work::Block(Position { block, index: 0 });
            }
            Operation::Loop(_, low, high, _, _, _) => {
                let low = self.value(low, tables)?;
                let high = self.value(high, tables)?;
                let count = match high.checked_sub(low) {
                    _ if high <= low => 0,
                    Some(count) if count <= 1_048_576 => count as u32,
                    _ => return Err(FaultKind::RangeTooLong),
                };
                let site = Loop {
                    block: place.block,
                    index: place.index,
                    low,
                };
                let after = Work::Block(Position {
                    block: place.block,
                    index: place.index + 1,
                });
                let slots = self.top.slots.clone();
                self.push_loop(
                    slots,
                    Work::Halves(site, 42, Share { first: 0, count }),
                    after,
                );
            }
            Operation::Return(value) => {
                let value = self.value(value, tables)?;
                self.phase = Phase::Returning(value);
            }
        }
        Ok(())
    }

    fn nest(
        &mut self,
        way: Way,
        into: Option<usize>,
        after: Work,
        callee: usize,
        slots: Vec<Slot>,
    ) -> Result<(), FaultKind> {
        let left = self.top.left;
        if left == 0 {
            return Err(FaultKind::TooDeep);
        }
        let child = Activation::new(callee, slots, FIRST, left - 1);
        match way {
            Way::Call => {
                self.push(child, false, into, after, Phase::Entering);
                self.start();
            }
            Way::Spawn => self.push_spawned(child, into, after),
        }
        Ok(())
    }

    fn push(
        &mut self,
        child: Activation,
        spawned: bool,
        into: Option<usize>,
        after: Work,
        phase: Phase,
    ) {
        self.path.push(self.top.children + 1);
        let mut parent = mem::replace(&mut self.top, child);
        parent.children += 1;
        parent.spawned = spawned;
        parent.into = into;
        parent.work = after;
        self.below.push(parent);
        self.phase = phase;
    }

    fn push_spawned(&mut self, child: Activation, into: Option<usize>, after: Work) {
        self.place.clear();
        self.place.extend_from_slice(&self.path);
        self.place.push(self.top.children + 1);
        self.push(child, true, into, after, Phase::AtSpawn);
    }

    fn push_loop(&mut self, slots: Vec<Slot>, work: Work, after: Work) {
        let child = Activation::new(self.top.procedure, slots, work, self.top.left);
        self.push(child, false, None, after, Phase::Running);
    }

    fn loop_code<'a>(
        &self,
        program: &'a Program,
        site: Loop,
    ) -> (u32, usize, u32, usize, &'a [Expression]) {
        let place = Position {
            block: site.block,
            index: site.index,
        };
        match self.instruction(program, place) {
            Some(Instruction {
                number,
                operation: Operation::Loop(variable, _, _, grain, callee, arguments),
            }) => (*number, *variable, *grain, *callee, arguments),
            _ => (0, 0, 0, 0, &[]),
        }
    }

    fn halve(&mut self, program: &Program, site: Loop, halvings: u32, share: Share) {
        let (_, _, grain, _, _) = self.loop_code(program, site);
        if halvings == 0 || share.count <= grain {
            self.top.work = Work::Turns(site, share);
            return;
        }
        let half = share.count / 2;
        let left = Share {
            first: share.first,
            count: half,
        };
        let right = Share {
            first: share.first + half,
            count: share.count - half,
        };
        let child = Activation::new(
            self.top.procedure,
            self.top.slots.clone(),
            Work::Halves(site, halvings - 1, left),
            self.top.left,
        );
        self.push_spawned(child, None, Work::Second(site, halvings - 1, right));
    }

    fn turn(&mut self, program: &Program, tables: &Tables, site: Loop, share: Share) {
        if share.count == 0 {
            self.phase = Phase::Returning(0);
            return;
        }
        let (number, variable, _, callee, arguments) = self.loop_code(program, site);
        let size = program.codes[callee].slots;
        let value = Slot::Has(site.low + i64::from(share.first));
        let held = mem::replace(&mut self.top.slots[variable], value);
        let slots = self.entry_slots(size, arguments, tables);
        self.top.slots[variable] = held;
        let rest = Share {
            first: share.first + 1,
            count: share.count - 1,
        };
        let entered = match slots {
            Ok(slots) => self.nest(Way::Call, None, Work::Turns(site, rest), callee, slots),
            Err(kind) => Err(kind),
        };
        if let Err(kind) = entered {
            self.fault(number, kind);
        }
    }
}

// ---- the program that is run

fn slot(number: usize) -> Expression {
    Expression::Slot(number)
}

fn on(operator: Operator, left: Expression, right: Expression) -> Expression {
    Expression::Binary(operator, Box::new(left), Box::new(right))
}

fn cell(row: Expression, column: usize) -> Expression {
    Expression::Cell(0, Box::new(row), column)
}

fn block(operations: Vec<Operation>) -> Vec<Instruction> {
    operations
        .into_iter()
        .zip(1..)
        .map(|(operation, number)| Instruction { number, operation })
        .collect()
}

// reducer total : add; reducer best : max;
// proc line(i) { r = i % 3 + 1; v = sales[r].qty * sales[r].price; update total v; update best v; }
// proc main() { cilk_for i in 0 .. 1000000 grain 256 : line(i); return 0; }
fn program() -> Program {
    let row = on(
        Operator::Add,
        on(Operator::Remainder, slot(0), Expression::Number(3)),
        Expression::Number(1),
    );
    let line = block(vec![
        Operation::Bind(1, row),
        Operation::Bind(
            2,
            on(Operator::Multiply, cell(slot(1), 0), cell(slot(1), 1)),
        ),
        Operation::Update(0, vec![slot(2)]),
        Operation::Update(1, vec![slot(2)]),
    ]);
    let turns = Operation::Loop(
        0,
        Expression::Number(0),
        Expression::Number(1_000_000),
        256,
        0,
        vec![slot(0)],
    );
    let main = block(vec![turns, Operation::Return(Expression::Number(0))]);
    Program {
        codes: vec![
            Code {
                slots: 3,
                blocks: vec![line],
            },
            Code {
                slots: 1,
                blocks: vec![main],
            },
        ],
        kinds: vec![Kind::Add, Kind::Max],
        main: 1,
    }
}

fn sales() -> Tables {
    let rows = [(1, vec![2, 5]), (2, vec![3, 7]), (3, vec![1, 100])];
    Tables {
        tables: vec![Rows {
            by_number: rows.into_iter().collect(),
            sums: vec![6, 112],
        }],
    }
}

// Runs the program on one strand, each spawned child as a call, and gives the steps and the reducers' numbers.
fn run(program: &Program, tables: &Tables) -> (u64, i64, i64) {
    let mut strand = Strand::first(program);
    let mut steps = 0;
    loop {
        match strand.advance(program, tables) {
            Paused::Working => {}
            Paused::AtSpawn => strand.phase = Phase::Entering,
            _ => break,
        }
        steps += 1;
    }
    let views = &strand.layer.views;
    (steps, views[0].number(), views[1].number())
}

fn main() {
    let program = black_box(program());
    let tables = black_box(sales());
    for _ in 0..5 {
        let start = Instant::now();
        let (steps, total, best) = run(&program, &tables);
        let time = start.elapsed().as_nanos();
        println!("rust {time} ns, {steps} steps, total {total}, best {best}");
    }
}
