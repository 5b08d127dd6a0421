//! The trait `Register`, handles, and the tape.

use super::calculus::*;

/// Why a register refuses a call, in the order of the numbers.
#[derive(Clone, Copy, PartialEq, Eq, Debug)]
pub enum RegisterReason {
    NoPulses,
    Full,
    GateNotMade,
    WrongCount,
    NotLive,
    GivenTwice,
}

impl RegisterReason {
    /// The number by which a listing names the reason.
    pub fn number(self) -> u16 {
        match self {
            RegisterReason::NoPulses => 41,
            RegisterReason::Full => 42,
            RegisterReason::GateNotMade => 43,
            RegisterReason::WrongCount => 44,
            RegisterReason::NotLive => 45,
            RegisterReason::GivenTwice => 46,
        }
    }
}

/// A refusal: its reason, and how many layers lie above the register that gave it.
#[derive(Clone, Copy, PartialEq, Eq, Debug)]
pub struct RegisterFault {
    pub reason: RegisterReason,
    pub depth: u16,
}

impl RegisterFault {
    /// A refusal of the outermost register.
    pub fn new(reason: RegisterReason) -> RegisterFault {
        RegisterFault { reason, depth: 0 }
    }

    /// The number of its reason.
    pub fn number(self) -> u16 {
        self.reason.number()
    }
}

/// Which handles are live, how many may be, and where the search for the next one begins.
pub struct Handles {
    live: [bool; HANDLES],
    capacity: usize,
    next: usize,
}

impl Handles {
    /// No live handle; a capacity above 32 is 32.
    pub fn new(capacity: usize) -> Handles {
        Handles {
            live: [false; HANDLES],
            capacity,
            next: 0,
        }
    }

    /// How many handles may be live.
    pub fn capacity(&self) -> usize {
        self.capacity.min(HANDLES)
    }

    /// Whether a handle is live.
    pub fn is_live(&self, handle: u8) -> bool {
        holds(&self.live, handle)
    }

    /// How many handles are live.
    pub fn live_count(&self) -> usize {
        count(&self.live)
    }

    // Whether every handle of a list is live.
    fn are_live(&self, on: &[u8]) -> bool {
        holds_all(&self.live, on)
    }

    // The places of the handles below the capacity.
    fn below(&self) -> &[bool] {
        &self.live[0..self.capacity()]
    }

    // The next handle above the last answered that is not live, going round below the capacity.
    fn next_handle(&self) -> u8 {
        let below = self.below();
        let above = free_from(below, self.next);
        if above < below.len() {
            above as u8
        } else {
            free_from(below, 0) as u8
        }
    }

    // Makes a handle live, or takes it out.
    fn mark(&mut self, handle: u8, live: bool) {
        put(&mut self.live, handle, live);
    }

    /// Makes the next handle live and answers it, if a pulse is left and there is room.
    pub fn prepare(&mut self, pulses: u64) -> Result<u8, RegisterFault> {
        if pulses == 0 {
            return Err(RegisterFault::new(RegisterReason::NoPulses));
        }
        if self.live_count() >= self.capacity() {
            return Err(RegisterFault::new(RegisterReason::Full));
        }
        let handle = self.next_handle();
        self.mark(handle, true);
        self.next = handle as usize + 1;
        Ok(handle)
    }

    /// Whether a gate may be applied, made or not, to the handles.
    pub fn allow_gate(
        &self,
        pulses: u64,
        made: bool,
        gate: Gate,
        on: &[u8],
    ) -> Result<(), RegisterFault> {
        if pulses == 0 {
            return Err(RegisterFault::new(RegisterReason::NoPulses));
        }
        if !made {
            return Err(RegisterFault::new(RegisterReason::GateNotMade));
        }
        if on.len() != gate.operands() {
            return Err(RegisterFault::new(RegisterReason::WrongCount));
        }
        if !self.are_live(on) {
            return Err(RegisterFault::new(RegisterReason::NotLive));
        }
        if !are_distinct(on) {
            return Err(RegisterFault::new(RegisterReason::GivenTwice));
        }
        Ok(())
    }

    /// Whether a handle may be read.
    pub fn allow_read(&self, pulses: u64, handle: u8) -> Result<(), RegisterFault> {
        if pulses == 0 {
            return Err(RegisterFault::new(RegisterReason::NoPulses));
        }
        if !self.is_live(handle) {
            return Err(RegisterFault::new(RegisterReason::NotLive));
        }
        Ok(())
    }

    /// Takes a live handle out.
    pub fn let_go(&mut self, handle: u8) -> Result<(), RegisterFault> {
        if !self.is_live(handle) {
            return Err(RegisterFault::new(RegisterReason::NotLive));
        }
        self.mark(handle, false);
        Ok(())
    }

    /// Takes every handle out; the search for the next one goes on where it was.
    pub fn clear(&mut self) {
        self.live = [false; HANDLES];
    }
}

/// What a pulse did. The operands of a gate stand in front, 0 after them.
#[derive(Clone, Copy)]
pub enum Entry {
    Empty,
    Prepare { handle: u8, bit: bool },
    Gate { gate: Gate, on: [u8; 3] },
    Read { handle: u8, outcome: bool },
}

/// What the table has for a handle, false past its end.
pub fn holds(table: &[bool], handle: u8) -> bool {
    (handle as usize) < table.len() && table[handle as usize]
}

/// Writes the place of a handle; past the table's end there is none.
pub fn put(table: &mut [bool], handle: u8, value: bool) {
    if (handle as usize) < table.len() {
        table[handle as usize] = value;
    }
}

/// How many places are true.
pub fn count(table: &[bool]) -> usize {
    let mut n = 0;
    for value in table {
        if *value {
            n += 1;
        }
    }
    n
}

/// The first place from a start on that is false, or one past the last.
pub fn free_from(table: &[bool], start: usize) -> usize {
    for i in start..table.len() {
        if !table[i] {
            return i;
        }
    }
    start.max(table.len())
}

/// The operand at a place of a gate's list, 0 past its end.
pub fn operand(on: &[u8], place: usize) -> u8 {
    if place < on.len() { on[place] } else { 0 }
}

/// Whether the table holds for every handle of the list.
pub fn holds_all(table: &[bool], on: &[u8]) -> bool {
    for handle in on {
        if !holds(table, *handle) {
            return false;
        }
    }
    true
}

/// Whether the list has the handle.
pub fn has(on: &[u8], handle: u8) -> bool {
    for other in on {
        if handle == *other {
            return true;
        }
    }
    false
}

/// Whether no handle stands twice in the list.
pub fn are_distinct(on: &[u8]) -> bool {
    for i in 0..on.len() {
        if has(&on[i + 1..], on[i]) {
            return false;
        }
    }
    true
}

/// A register of qubits: every call answers by the register's meaning and changes it as its kind says,
/// and a question or a refusal changes nothing.
pub trait Register {
    // What the qubits hold is of each kind's own type, changed by each call as the kind says.

    // The two free answers: the handle of the next prepare, and what a read of a handle gives.

    // How many layers lie above the register that refuses for a reason.

    /// How many qubits may be live at once, at most 32.
    fn capacity(&self) -> usize;

    /// Whether the register has the gate.
    fn makes(&self, gate: Gate) -> bool;

    /// Whether the handle names a live qubit; from 32 on none does.
    fn is_live(&self, handle: u8) -> bool;

    /// How many qubits are live.
    fn live_count(&self) -> usize;

    /// How many pulses are left.
    fn pulses(&self) -> u64;

    /// Prepares a qubit at the bit and answers its handle, for one pulse.
    fn prepare(&mut self, bit: bool) -> Result<u8, RegisterFault>;

    /// Applies a gate to the qubits, in their order, for one pulse.
    fn gate(&mut self, gate: Gate, on: &[u8]) -> Result<(), RegisterFault>;

    /// Reads a qubit, which stays live, for one pulse.
    fn read(&mut self, handle: u8) -> Result<bool, RegisterFault>;

    /// Lets go of a qubit, for no pulse.
    fn let_go(&mut self, handle: u8) -> Result<(), RegisterFault>;

    /// Lets go of every qubit, for no pulse.
    fn clear(&mut self);
}

/// Outcomes to answer, and a journal to fill: an entry for each pulse.
pub struct Tape<'a> {
    handles: Handles,
    outcomes: &'a [u8],
    journal: &'a mut [Entry],
    spent: usize,
}

impl<'a> Tape<'a> {
    /// No live qubit; as many pulses as the shorter of outcomes and journal; a capacity above 32 is 32.
    pub fn new(capacity: usize, outcomes: &'a [u8], journal: &'a mut [Entry]) -> Tape<'a> {
        Tape {
            handles: Handles::new(capacity),
            outcomes,
            journal,
            spent: 0,
        }
    }

    /// The journal as it stands: entry k says what pulse k did, and those of pulses to come are as they were handed.
    pub fn journal(&self) -> &[Entry] {
        self.journal
    }

    // Writes the entry of the next pulse, which is then spent.
    fn spend(&mut self, entry: Entry) {
        self.journal[self.spent] = entry;
        self.spent += 1;
    }
}

impl<'a> Register for Tape<'a> {
    fn capacity(&self) -> usize {
        self.handles.capacity()
    }

    fn makes(&self, _gate: Gate) -> bool {
        true
    }

    fn is_live(&self, handle: u8) -> bool {
        self.handles.is_live(handle)
    }

    fn live_count(&self) -> usize {
        self.handles.live_count()
    }

    fn pulses(&self) -> u64 {
        self.outcomes
            .len()
            .min(self.journal.len())
            .saturating_sub(self.spent) as u64
    }

    fn prepare(&mut self, bit: bool) -> Result<u8, RegisterFault> {
        let pulses = self.pulses();
        let handle = self.handles.prepare(pulses)?;
        self.spend(Entry::Prepare { handle, bit });
        Ok(handle)
    }

    fn gate(&mut self, gate: Gate, on: &[u8]) -> Result<(), RegisterFault> {
        self.handles.allow_gate(self.pulses(), true, gate, on)?;
        let on = [operand(on, 0), operand(on, 1), operand(on, 2)];
        self.spend(Entry::Gate { gate, on });
        Ok(())
    }

    fn read(&mut self, handle: u8) -> Result<bool, RegisterFault> {
        self.handles.allow_read(self.pulses(), handle)?;
        let outcome = self.outcomes[self.spent] % 2 == 1;
        self.spend(Entry::Read { handle, outcome });
        Ok(outcome)
    }

    fn let_go(&mut self, handle: u8) -> Result<(), RegisterFault> {
        self.handles.let_go(handle)
    }

    fn clear(&mut self) {
        self.handles.clear();
    }
}
