//! A brute-force lister of settled positions.
//!
//! Written from documents 01 and 02 and from Definition 2 of document 004 alone, apart from the proved
//! library. Simple and obviously right comes before fast: every set is tried, every subset of it is
//! tried, and nothing is searched cleverly.

pub const MAX_TABLES: usize = 16;
pub const MAX_INPUTS: usize = 6;
pub const MAX_RULES: usize = 64;
pub const MAX_USES: usize = 256;
pub const MAX_UNITS: usize = 16;
pub const LIST_WORDS: usize = 256;
pub const LAST_LIST_START: usize = MAX_UNITS * LIST_WORDS;
pub const TABLE_WORDS: usize = LAST_LIST_START + LIST_WORDS;
pub const COUNTS: usize = MAX_UNITS + 1;
pub const MAX_QUESTIONS: usize = 64;
pub const QUESTION_WORDS: usize = 3;
pub const POSITION_BYTES: usize = 8;

/// What a refused plan gets: the number of the fault and its spot.
#[derive(Clone, Copy, Debug, PartialEq, Eq)]
pub struct Refusal {
    pub number: u64,
    pub spot: u64,
}

impl Refusal {
    /// The refusal as one number, as hosts are given it.
    pub fn code(self) -> u64 {
        65536 * self.number + self.spot
    }
}

fn refuse<T>(number: u64, spot: usize) -> Result<T, Refusal> {
    Err(Refusal { number, spot: spot as u64 })
}

// ---- Rules and positions -------------------------------------------------------------------

/// A contact table: its input atoms, rising, and its truth word.
#[derive(Clone, Debug, PartialEq, Eq)]
pub struct Table {
    pub inputs: Vec<usize>,
    pub truth: u64,
}

impl Table {
    /// Bit j of the truth word, where bit k of j tells whether the k-th lowest input atom is up.
    pub fn answer(&self, position: u64) -> bool {
        let row = (0..self.inputs.len()).filter(|&k| has(position, self.inputs[k])).fold(0, |row, k| row | 1 << k);
        has(self.truth, row)
    }

    pub fn input_atoms(&self) -> u64 {
        self.inputs.iter().fold(0, |atoms, &atom| atoms | 1 << atom)
    }
}

/// A table in a rule's body, and the answer that it must give there.
#[derive(Clone, Debug, PartialEq, Eq)]
pub struct Use {
    pub table: Table,
    pub wanted: bool,
}

impl Use {
    fn holds(&self, position: u64) -> bool {
        self.table.answer(position) == self.wanted
    }
}

#[derive(Clone, Debug, PartialEq, Eq)]
pub struct Rule {
    pub head: u64,
    pub positive: u64,
    pub negative: u64,
    pub uses: Vec<Use>,
}

impl Rule {
    /// The position has every positive atom and no negative one, and every use holds.
    pub fn body_holds(&self, position: u64) -> bool {
        is_subset(self.positive, position) && self.negative & position == 0 && self.uses_hold(position)
    }

    pub fn uses_hold(&self, position: u64) -> bool {
        self.uses.iter().all(|used| used.holds(position))
    }

    /// The input atoms of all tables that the rule uses, whichever the sign.
    pub fn table_inputs(&self) -> u64 {
        self.uses.iter().fold(0, |atoms, used| atoms | used.table.input_atoms())
    }

    /// The body fails or the position has a head atom.
    fn is_satisfied(&self, position: u64) -> bool {
        !self.body_holds(position) || self.head & position != 0
    }
}

fn is_subset(part: u64, whole: u64) -> bool {
    part & !whole == 0
}

fn has(word: u64, bit: usize) -> bool {
    word >> bit & 1 == 1
}

/// All subsets of a set, rising as unsigned numbers; the set itself comes last.
pub fn subsets(set: u64) -> impl Iterator<Item = u64> {
    // Subtracting the set carries through the bits outside it: the next larger subset.
    std::iter::successors(Some(0), move |&subset: &u64| {
        if subset == set {
            None
        } else {
            Some(subset.wrapping_sub(set) & set)
        }
    })
}

/// All proper subsets of a set. Those that lack one atom are tried first (and once more in their
/// turn), because a smaller model is most often found among them.
fn proper_subsets(set: u64) -> impl Iterator<Item = u64> {
    let one_fewer = (0..64).filter(move |&atom| has(set, atom)).map(move |atom| set & !(1 << atom));
    one_fewer.chain(subsets(set).take_while(move |&subset| subset != set))
}

/// All atoms in heads of these rules.
pub fn head_atoms(rules: &[Rule]) -> u64 {
    rules.iter().fold(0, |atoms, rule| atoms | rule.head)
}

// ---- Answer sets: document 004, Definition 2 ------------------------------------------------

/// Is the position an answer set of the rules with these atoms added as facts?
pub fn is_answer_set(rules: &[Rule], facts: u64, position: u64) -> bool {
    let is_kept = |rule: &&Rule| rule.body_holds(position);
    if !is_model(rules.iter().filter(is_kept), facts, position) {
        return false;
    }
    let reduct: Vec<&Rule> = rules.iter().filter(is_kept).collect();
    // A subset that lacks a fact is no model, so only subsets with all facts are tried.
    !proper_subsets(position & !facts).any(|subset| is_model(reduct.iter().copied(), facts, subset | facts))
}

/// The set has all facts and satisfies all rules.
fn is_model<'a>(mut rules: impl Iterator<Item = &'a Rule>, facts: u64, set: u64) -> bool {
    is_subset(facts, set) && rules.all(|rule| rule.is_satisfied(set))
}

/// All answer sets of the rules with these atoms added as facts, rising.
pub fn answer_sets(rules: &[Rule], facts: u64) -> Vec<u64> {
    sets_to_try(rules, facts).filter(|&position| is_answer_set(rules, facts, position)).collect()
}

/// All sets that have the facts and no atom in no head (a fact counts as one), rising: another set is never an answer set.
fn sets_to_try(rules: &[Rule], facts: u64) -> impl Iterator<Item = u64> {
    subsets(head_atoms(rules) & !facts).map(move |chosen| chosen | facts)
}

// ---- Reading --------------------------------------------------------------------------------

#[derive(Clone, Debug, Default)]
pub struct Plan {
    /// The three numbers of COUNT, if there is one: rules, units, edges.
    pub declared: Option<[u8; 3]>,
    /// The word of GIVEN, if there is one.
    pub given: Option<u64>,
    pub tables: Vec<Table>,
    /// Each rule with the uses of tables in its body.
    pub rules: Vec<Rule>,
    /// The three bytes of each USE: rule, table, sign.
    pub uses: Vec<[u8; 3]>,
    /// One word for each unit, bit i for rule i.
    pub units: Vec<u64>,
    /// (u, v): unit u depends on unit v.
    pub edges: Vec<(usize, usize)>,
    /// The word of SHOW, if there is one.
    pub shown: Option<u64>,
}

/// The kinds of command, in the order of their groups.
#[derive(Clone, Copy, PartialEq, Eq, PartialOrd, Ord)]
enum Kind {
    Count,
    Given,
    Table,
    Rule,
    Use,
    Unit,
    Edge,
    Show,
    End,
}

impl Kind {
    fn of(byte: u8) -> Option<Kind> {
        match byte {
            0x00 => Some(Kind::End),
            0x01 => Some(Kind::Rule),
            0x02 => Some(Kind::Unit),
            0x03 => Some(Kind::Edge),
            0x04 => Some(Kind::Given),
            0x05 => Some(Kind::Table),
            0x06 => Some(Kind::Use),
            0x07 => Some(Kind::Count),
            0x08 => Some(Kind::Show),
            _ => None,
        }
    }

    fn operand_bytes(self) -> usize {
        match self {
            Kind::Rule => 24,
            Kind::Table => 16,
            Kind::Given | Kind::Unit | Kind::Show => 8,
            Kind::Use | Kind::Count => 3,
            Kind::Edge => 2,
            Kind::End => 0,
        }
    }
}

/// Reads a plan from the left. The rows of the reading place are tried for each command in turn,
/// in the table's order: 3, 4, 5, 2, then those of the command's operands (6 and 21 of a RULE, 18 of a
/// TABLE, 19 of a USE, 7 of a UNIT, 8 of an EDGE), then 23 and 9 of END.
pub fn read(bytes: &[u8]) -> Result<Plan, Refusal> {
    let mut plan = Plan::default();
    let mut group = Kind::Count;
    let mut offset = 0;
    while offset < bytes.len() {
        let kind = match Kind::of(bytes[offset]) {
            Some(kind) => kind,
            None => return refuse(3, offset),
        };
        if kind < group || plan.has_its_one(kind) {
            return refuse(4, offset);
        }
        if plan.has_all(kind) {
            return refuse(5, offset);
        }
        let next = offset + 1 + kind.operand_bytes();
        if next > bytes.len() {
            return refuse(2, offset);
        }
        if let Some(number) = plan.take(kind, &bytes[offset + 1..next]) {
            return refuse(number, offset);
        }
        if kind == Kind::End {
            if plan.is_miscounted() {
                return refuse(23, 0);
            }
            return if next < bytes.len() { refuse(9, next) } else { Ok(plan) };
        }
        group = kind;
        offset = next;
    }
    refuse(2, bytes.len())
}

impl Plan {
    /// The given atoms: facts of the whole program.
    pub fn given_atoms(&self) -> u64 {
        self.given.unwrap_or(0)
    }

    /// The atoms that the last list shows: all without a SHOW.
    pub fn shown_atoms(&self) -> u64 {
        self.shown.unwrap_or(!0)
    }

    /// The positions cut to the shown atoms, rising, each once.
    pub fn cut(&self, positions: &[u64]) -> Vec<u64> {
        let mut cut: Vec<u64> = positions.iter().map(|position| position & self.shown_atoms()).collect();
        cut.sort_unstable();
        cut.dedup();
        cut
    }

    /// Is this the kind of a command that may stand once and is there?
    fn has_its_one(&self, kind: Kind) -> bool {
        match kind {
            Kind::Count => self.declared.is_some(),
            Kind::Given => self.given.is_some(),
            Kind::Show => self.shown.is_some(),
            _ => false,
        }
    }

    /// Does a declared number differ from what was read?
    fn is_miscounted(&self) -> bool {
        let read = [self.rules.len(), self.units.len(), self.edges.len()];
        self.declared.is_some_and(|declared| declared.map(usize::from) != read)
    }

    /// Is the most of this kind already there? A second COUNT, GIVEN or SHOW is out of order (row 4), and a 241st EDGE is a fault by itself (row 8).
    fn has_all(&self, kind: Kind) -> bool {
        match kind {
            Kind::Table => self.tables.len() == MAX_TABLES,
            Kind::Rule => self.rules.len() == MAX_RULES,
            Kind::Use => self.uses.len() == MAX_USES,
            Kind::Unit => self.units.len() == MAX_UNITS,
            Kind::Count | Kind::Given | Kind::Edge | Kind::Show | Kind::End => false,
        }
    }

    /// Adds a command by its complete operands, or returns the number of its fault.
    fn take(&mut self, kind: Kind, operands: &[u8]) -> Option<u64> {
        match kind {
            Kind::Count => self.take_count([operands[0], operands[1], operands[2]]),
            Kind::Given => self.take_given(operands),
            Kind::Table => self.take_table(operands),
            Kind::Rule => self.take_rule(operands),
            Kind::Use => self.take_use([operands[0], operands[1], operands[2]]),
            Kind::Unit => self.take_unit(operands),
            Kind::Edge => self.take_edge(operands),
            Kind::Show => self.take_show(operands),
            Kind::End => None,
        }
    }

    fn take_count(&mut self, numbers: [u8; 3]) -> Option<u64> {
        self.declared = Some(numbers);
        None
    }

    fn take_show(&mut self, operands: &[u8]) -> Option<u64> {
        self.shown = Some(word(operands));
        None
    }

    fn take_given(&mut self, operands: &[u8]) -> Option<u64> {
        self.given = Some(word(operands));
        None
    }

    fn take_table(&mut self, operands: &[u8]) -> Option<u64> {
        let (inputs, truth) = (word(&operands[0..8]), word(&operands[8..16]));
        let inputs: Vec<usize> = (0..64).filter(|&atom| has(inputs, atom)).collect();
        if inputs.len() > MAX_INPUTS {
            return Some(18);
        }
        let rows = 1 << inputs.len();
        if (rows..64).any(|row| has(truth, row)) {
            return Some(18);
        }
        self.tables.push(Table { inputs, truth });
        None
    }

    fn take_rule(&mut self, operands: &[u8]) -> Option<u64> {
        let rule = Rule {
            head: word(&operands[0..8]),
            positive: word(&operands[8..16]),
            negative: word(&operands[16..24]),
            uses: Vec::new(),
        };
        if rule.head == 0 && rule.positive == 0 && rule.negative == 0 {
            return Some(6);
        }
        if rule.positive & rule.negative != 0 {
            return Some(21);
        }
        self.rules.push(rule);
        None
    }

    fn take_use(&mut self, [rule, table, sign]: [u8; 3]) -> Option<u64> {
        let is_absent = rule as usize >= self.rules.len() || table as usize >= self.tables.len();
        if is_absent || sign > 1 || self.uses.contains(&[rule, table, sign]) {
            return Some(19);
        }
        self.uses.push([rule, table, sign]);
        let used = Use { table: self.tables[table as usize].clone(), wanted: sign == 0 };
        self.rules[rule as usize].uses.push(used);
        None
    }

    fn take_unit(&mut self, operands: &[u8]) -> Option<u64> {
        let unit = word(operands);
        if (self.rules.len()..64).any(|rule| has(unit, rule)) {
            return Some(7);
        }
        self.units.push(unit);
        None
    }

    fn take_edge(&mut self, operands: &[u8]) -> Option<u64> {
        let (u, v) = (operands[0] as usize, operands[1] as usize);
        let is_missing = |unit: usize| unit >= self.units.len();
        if is_missing(u) || is_missing(v) || u == v || self.edges.contains(&(u, v)) {
            return Some(8);
        }
        self.edges.push((u, v));
        None
    }
}

/// Eight bytes as a word, lowest byte first.
fn word(bytes: &[u8]) -> u64 {
    bytes.iter().rev().fold(0, |word, &byte| word << 8 | byte as u64)
}

// ---- Graph ----------------------------------------------------------------------------------

/// No given atom in a head, then conditions (a), (b), acyclic, (c), (d), each over the whole plan before the next is tried.
pub fn check_graph(plan: &Plan) -> Result<(), Refusal> {
    let rules = plan.rules.len();
    refuse_lowest(16, rules, |r| plan.rules[r].head & plan.given_atoms() != 0)?;
    refuse_lowest(10, rules, |r| plan.units_of(r).is_empty())?;
    refuse_lowest(11, rules, |r| plan.rules[r].head != 0 && plan.units_of(r).len() != 1)?;
    refuse_lowest(12, plan.units.len(), |u| plan.reached(u).contains(&u))?;
    refuse_lowest(13, rules, |r| !plan.has_condition_c(r))?;
    refuse_lowest(14, rules, |r| !plan.has_condition_d(r))
}

fn refuse_lowest(number: u64, count: usize, is_broken: impl Fn(usize) -> bool) -> Result<(), Refusal> {
    match (0..count).find(|&index| is_broken(index)) {
        Some(index) => refuse(number, index),
        None => Ok(()),
    }
}

impl Plan {
    fn holds(&self, unit: usize, rule: usize) -> bool {
        has(self.units[unit], rule)
    }

    /// The units that hold a rule.
    fn units_of(&self, rule: usize) -> Vec<usize> {
        (0..self.units.len()).filter(|&unit| self.holds(unit, rule)).collect()
    }

    /// The direct predecessors of a unit.
    fn predecessors(&self, unit: usize) -> Vec<usize> {
        (0..self.units.len()).filter(|&other| self.edges.contains(&(unit, other))).collect()
    }

    /// The units that a path of one edge or more leads to.
    fn reached(&self, unit: usize) -> Vec<usize> {
        let mut reached: Vec<usize> = Vec::new();
        let mut open = self.predecessors(unit);
        while let Some(next) = open.pop() {
            if !reached.contains(&next) {
                reached.push(next);
                open.extend(self.predecessors(next));
            }
        }
        reached
    }

    /// The rules other than r that r depends on by `depends`.
    fn dependences(&self, r: usize, depends: impl Fn(&Rule, &Rule) -> bool) -> Vec<usize> {
        (0..self.rules.len()).filter(|&s| s != r && depends(&self.rules[r], &self.rules[s])).collect()
    }

    /// The unit holds s or has an edge to the unit of s (s has a head, so it is in just one).
    fn sees(&self, unit: usize, s: usize) -> bool {
        self.holds(unit, s) || self.edges.contains(&(unit, self.units_of(s)[0]))
    }

    fn has_condition_c(&self, r: usize) -> bool {
        let needed = self.dependences(r, |r, s| (r.negative | r.table_inputs()) & s.head != 0);
        self.units_of(r).iter().all(|&unit| needed.iter().all(|&s| self.sees(unit, s)))
    }

    fn has_condition_d(&self, r: usize) -> bool {
        let needed = self.dependences(r, |r, s| r.positive & s.head != 0 || r.head & s.head != 0);
        self.units_of(r).iter().any(|&unit| needed.iter().all(|&s| self.sees(unit, s)))
    }

    fn unit_rules(&self, unit: usize) -> Vec<Rule> {
        (0..self.rules.len()).filter(|&rule| self.holds(unit, rule)).map(|rule| self.rules[rule].clone()).collect()
    }

    /// H(u): the head atoms of a unit and of all units it reaches, and the given atoms.
    fn all_head_atoms(&self, unit: usize) -> u64 {
        let own = self.given_atoms() | head_atoms(&self.unit_rules(unit));
        self.reached(unit).iter().fold(own, |atoms, &other| atoms | head_atoms(&self.unit_rules(other)))
    }
}

// ---- Unit work ------------------------------------------------------------------------------

/// The lists of an accepted plan: one for each unit, and the last list.
#[derive(Clone, Debug, PartialEq, Eq)]
pub struct Listing {
    pub units: Vec<Vec<u64>>,
    /// The members of the one more unit's list, with all atoms.
    pub uncut: Vec<u64>,
    pub last: Vec<u64>,
}

/// A finished list together with the unit's H.
#[derive(Clone)]
struct Done {
    atoms: u64,
    list: Vec<u64>,
}

/// Works the units lowest number first among those whose predecessors are done, then the last list.
pub fn work_units(plan: &Plan) -> Result<Listing, Refusal> {
    let count = plan.units.len();
    let mut done: Vec<Option<Done>> = vec![None; count];
    let is_ready = |done: &[Option<Done>], unit: usize| {
        done[unit].is_none() && plan.predecessors(unit).iter().all(|&v| done[v].is_some())
    };
    while let Some(unit) = (0..count).find(|&unit| is_ready(&done, unit)) {
        let predecessors: Vec<&Done> = plan.predecessors(unit).iter().flat_map(|&v| &done[v]).collect();
        let list = unit_list(plan.given_atoms(), &plan.unit_rules(unit), &predecessors, unit)?;
        done[unit] = Some(Done { atoms: plan.all_head_atoms(unit), list });
    }
    // The last list is that of one more unit, with no rules and an edge to every unit.
    let every_unit: Vec<&Done> = done.iter().flatten().collect();
    let uncut = members(plan.given_atoms(), &[], &every_unit);
    let last = at_most_256(plan.cut(&uncut), count)?;
    Ok(Listing { units: done.into_iter().flatten().map(|unit| unit.list).collect(), uncut, last })
}

/// The rising list of a unit by its rules and its predecessors' lists, refused above 256 members.
fn unit_list(given: u64, rules: &[Rule], predecessors: &[&Done], unit: usize) -> Result<Vec<u64>, Refusal> {
    at_most_256(members(given, rules, predecessors), unit)
}

/// The same, however many.
fn members(given: u64, rules: &[Rule], predecessors: &[&Done]) -> Vec<u64> {
    let mut list: Vec<u64> = inputs(given, predecessors).iter().flat_map(|&input| answer_sets(rules, input)).collect();
    list.sort_unstable();
    list.dedup();
    list
}

fn at_most_256(list: Vec<u64>, unit: usize) -> Result<Vec<u64>, Refusal> {
    if list.len() > LIST_WORDS {
        return refuse(15, unit);
    }
    Ok(list)
}

/// Every J over the predecessors' atoms that has the given atoms and whose cut to each predecessor's atoms is in its list.
fn inputs(given: u64, predecessors: &[&Done]) -> Vec<u64> {
    // Built up one predecessor at a time: `joined` holds every such J for the predecessors met so
    // far, and a list member goes with it where both say the same on the atoms that both speak of.
    let mut joined = vec![given];
    let mut met = given;
    for predecessor in predecessors {
        joined = joined.iter().flat_map(|&input| agreeing(input, met, predecessor)).collect();
        met |= predecessor.atoms;
    }
    joined
}

/// The input joined with each list member that agrees with it on the atoms already met.
fn agreeing(input: u64, met: u64, predecessor: &Done) -> Vec<u64> {
    let agrees = |member: u64| member & met == input & predecessor.atoms;
    predecessor.list.iter().filter(|&&member| agrees(member)).map(|&member| input | member).collect()
}

/// The definition of an input, word for word; too slow for anything but a check of `inputs`.
fn inputs_by_trying_all(given: u64, predecessors: &[&Done]) -> Vec<u64> {
    let atoms = predecessors.iter().fold(0, |atoms, predecessor| atoms | predecessor.atoms);
    let is_input = |input: u64| predecessors.iter().all(|v| v.list.contains(&(input & v.atoms)));
    // An input has all given atoms, so only such sets are tried.
    subsets(atoms & !given).map(|chosen| chosen | given).filter(|&input| is_input(input)).collect()
}

/// Do the joined inputs of every unit, the last included, equal the definition's?
pub fn inputs_are_by_definition(plan: &Plan, listing: &Listing) -> bool {
    let done = |unit: usize| Done { atoms: plan.all_head_atoms(unit), list: listing.units[unit].clone() };
    let same = |units: &[usize]| {
        let lists: Vec<Done> = units.iter().map(|&unit| done(unit)).collect();
        let lent: Vec<&Done> = lists.iter().collect();
        let mut joined = inputs(plan.given_atoms(), &lent);
        joined.sort_unstable();
        joined == inputs_by_trying_all(plan.given_atoms(), &lent)
    };
    let every_unit: Vec<usize> = (0..plan.units.len()).collect();
    same(&every_unit) && every_unit.iter().all(|&unit| same(&plan.predecessors(unit)))
}

// ---- The public questions -------------------------------------------------------------------

/// The lists of a plan for a lent table of this many words: places 1, reading, graph, unit work.
pub fn list(bytes: &[u8], table_words: usize) -> Result<Listing, Refusal> {
    if table_words < TABLE_WORDS {
        return refuse(1, table_words);
    }
    let plan = read(bytes)?;
    check_graph(&plan)?;
    work_units(&plan)
}

/// Writes an outcome into the lent table and returns the seventeen counts.
pub fn fill_table(outcome: &Result<Listing, Refusal>, table: &mut [u64]) -> [u64; COUNTS] {
    let mut counts = [0; COUNTS];
    match outcome {
        Ok(listing) => {
            table[..TABLE_WORDS].fill(0);
            let last = (MAX_UNITS, &listing.last);
            for (place, list) in listing.units.iter().enumerate().chain(std::iter::once(last)) {
                table[place * LIST_WORDS..][..list.len()].copy_from_slice(list);
                counts[place] = list.len() as u64;
            }
        }
        Err(refusal) if refusal.number == 15 => table[..TABLE_WORDS].fill(0),
        Err(_) => {}
    }
    counts
}

/// Is the position an answer set of the whole program with the given atoms as facts? Only the reading place can refuse.
pub fn judge(bytes: &[u8], position: u64) -> Result<bool, Refusal> {
    let plan = read(bytes)?;
    let given = plan.given_atoms();
    Ok(is_subset(position, head_atoms(&plan.rules) | given) && is_answer_set(&plan.rules, given, position))
}

/// The sheet of an outcome, as `settle` prints it.
pub fn sheet(outcome: &Result<Listing, Refusal>) -> String {
    match outcome {
        Ok(listing) => {
            let lines: String = listing.last.iter().map(|position| format!("{:016x}\n", position)).collect();
            format!("positions {}\n{}", listing.last.len(), lines)
        }
        Err(refusal) => format!("refused {} at {}\n", refusal.number, refusal.spot),
    }
}

// ---- One position after the other: document 02, S-8 ------------------------------------------

/// Where a walk goes on.
#[derive(Clone, Copy, Debug)]
pub enum From {
    Start,
    Above(u64),
}

impl From {
    /// Is the position still ahead? From the start every one is, 0 too; otherwise those above, as unsigned numbers.
    pub fn is_ahead(self, position: u64) -> bool {
        match self {
            From::Start => true,
            From::Above(passed) => position > passed,
        }
    }
}

/// The least answer set of the whole program, with the given atoms as facts, that is still ahead; nothing if none is left. Only the reading
/// place can refuse.
pub fn next(bytes: &[u8], from: From) -> Result<Option<u64>, Refusal> {
    let plan = read(bytes)?;
    let facts = plan.given_atoms();
    // They rise, so the first that is found is the least.
    let mut ahead = sets_to_try(&plan.rules, facts).filter(|&position| from.is_ahead(position));
    Ok(ahead.find(|&position| is_answer_set(&plan.rules, facts, position)))
}

/// The same where the answer sets are known.
pub fn next_of(answer_sets: &[u64], from: From) -> Option<u64> {
    answer_sets.iter().copied().filter(|&position| from.is_ahead(position)).min()
}

/// The reply of a walk's step: 1 with the position in the first of the lent words, as far as there is room, 0 if none is left, or the code of
/// the refusal.
pub fn hand_out(next: Result<Option<u64>, Refusal>, found: &mut [u64]) -> u64 {
    if let (Ok(Some(position)), Some(word)) = (next, found.first_mut()) {
        *word = position;
    }
    next.map_or_else(Refusal::code, |position| u64::from(position.is_some()))
}

/// The reply of a call for several positions, where `next` finds one: they go into the lent words until none is left or there is no room, and their number
/// into the first word of the count; or the code of the refusal.
pub fn hand_out_many(bytes: &[u8], from: From, next: impl Fn(From) -> Option<u64>, found: &mut [u64], count: &mut [u64]) -> u64 {
    if let Err(refusal) = read(bytes) {
        return refusal.code();
    }
    let (mut place, mut written) = (from, 0);
    while written < found.len() {
        let Some(position) = next(place) else { break };
        found[written] = position;
        written += 1;
        place = From::Above(position);
    }
    if let Some(number) = count.first_mut() {
        *number = written as u64;
    }
    0
}

// ---- A whole sheet judged: document 02, S-12 ------------------------------------------------

/// 256 if every position of the sheet is settled, or the place from 0 of the first that is not. Only the reading place can refuse the plan; after it
/// come more than 256 positions, or bytes that are not whole ones.
pub fn judge_sheet(bytes: &[u8], sheet: &[u8], is_settled: impl Fn(u64) -> bool) -> Result<u64, Refusal> {
    read(bytes)?;
    if sheet.len() / POSITION_BYTES > LIST_WORDS || sheet.len() % POSITION_BYTES != 0 {
        return refuse(24, 0);
    }
    let mut places = sheet.chunks_exact(POSITION_BYTES).map(word).enumerate();
    Ok(places.find(|&(_, position)| !is_settled(position)).map_or(LIST_WORDS as u64, |(place, _)| place as u64))
}

/// The least settled position that is not on the sheet, where `next` finds one position after the other. Refused as a sheet that is judged.
pub fn missing(bytes: &[u8], sheet: &[u8], next: impl Fn(From) -> Option<u64>) -> Result<Option<u64>, Refusal> {
    judge_sheet(bytes, sheet, |_| true)?;
    let positions: Vec<u64> = sheet.chunks_exact(POSITION_BYTES).map(word).collect();
    let mut least = next(From::Start);
    while let Some(position) = least.filter(|position| positions.contains(position)) {
        least = next(From::Above(position));
    }
    Ok(least)
}

// ---- The few constraints that empty a plan: document 02, S-13 -----------------------------------

/// What a plan is blamed on.
#[derive(Clone, Copy, Debug, PartialEq, Eq)]
pub enum Blame {
    /// The least position of a plan that has one, uncut.
    Position(u64),
    /// The word of the constraints that are held, bit i for rule i.
    Held(u64),
}

impl Plan {
    /// The numbers of the rules with an empty head, rising.
    fn constraints(&self) -> impl Iterator<Item = usize> + '_ {
        (0..self.rules.len()).filter(|&rule| self.rules[rule].head == 0)
    }

    /// The headed rules and those constraints that are held.
    fn rules_with(&self, held: u64) -> Vec<Rule> {
        let is_there = |&rule: &usize| self.rules[rule].head != 0 || has(held, rule);
        (0..self.rules.len()).filter(is_there).map(|rule| self.rules[rule].clone()).collect()
    }
}

/// The pass: all constraints are held at first; going up by rule number, one is dropped if the others leave no answer set.
/// `least` says which answer set the held ones leave, the least one. Only the reading place can refuse.
fn blame_by(plan: &Plan, least: impl Fn(u64) -> Option<u64>) -> Blame {
    let mut held = plan.constraints().fold(0, |word, rule| word | 1 << rule);
    if let Some(position) = least(held) {
        return Blame::Position(position);
    }
    for rule in plan.constraints() {
        let others = held & !(1 << rule);
        if least(others).is_none() {
            held = others;
        }
    }
    Blame::Held(held)
}

/// By the answer sets of the headed rules and given facts alone: those at which no body of a held constraint holds are left.
pub fn blame(bytes: &[u8]) -> Result<Blame, Refusal> {
    let plan = read(bytes)?;
    let headed = answer_sets(&plan.rules_with(0), plan.given_atoms());
    let is_left = |held: u64, position: u64| !plan.constraints().any(|rule| has(held, rule) && plan.rules[rule].body_holds(position));
    Ok(blame_by(&plan, |held| headed.iter().copied().find(|&position| is_left(held, position))))
}

/// By the definition: every set is tried anew for each question.
pub fn blame_by_trying_all(bytes: &[u8]) -> Result<Blame, Refusal> {
    let plan = read(bytes)?;
    let least = |held: u64| answer_sets(&plan.rules_with(held), plan.given_atoms()).first().copied();
    Ok(blame_by(&plan, least))
}

/// The reply: 1 with the position, 0 with the held constraints in the first of the lent words, as far as there is room, or the code of the refusal.
pub fn hand_blame(blame: Result<Blame, Refusal>, found: &mut [u64]) -> u64 {
    let (code, word) = match blame {
        Ok(Blame::Position(position)) => (1, position),
        Ok(Blame::Held(held)) => (0, held),
        Err(refusal) => return refusal.code(),
    };
    if let Some(first) = found.first_mut() {
        *first = word;
    }
    code
}

// ---- Questions over a list: document 02, S-2 ------------------------------------------------

/// Fills in the count of each question, three words to a question: up, dropped, count.
pub fn count(list: &[u64], questions: &mut [u64]) -> Result<(), Refusal> {
    if questions.len() / QUESTION_WORDS > MAX_QUESTIONS {
        return refuse(17, 0);
    }
    for question in questions.chunks_exact_mut(QUESTION_WORDS) {
        question[2] = list.iter().filter(|&&position| fits(question[0], question[1], position)).count() as u64;
    }
    Ok(())
}

fn fits(up: u64, dropped: u64, position: u64) -> bool {
    (0..64).all(|atom| !has(up, atom) || has(position, atom)) && (0..64).all(|atom| !has(dropped, atom) || !has(position, atom))
}

/// The atoms up in all positions, and those up in some.
pub fn common(list: &[u64]) -> [u64; 2] {
    let atoms = |wanted: &dyn Fn(usize) -> bool| (0..64).filter(|&atom| wanted(atom)).fold(0, |word, atom| word | 1 << atom);
    let all = atoms(&|atom| list.iter().all(|&position| has(position, atom)));
    let some = atoms(&|atom| list.iter().any(|&position| has(position, atom)));
    [all, some]
}

// ---- A sheet by relay ----------------------------------------------------------------------

/// Words of a row, one bit for each position of a list.
pub const ROW_WORDS: usize = LIST_WORDS / 64;

/// Bit j of row i tells whether position j has atom i up; bits from the count on are 0.
pub fn rows(list: &[u64], count: u64, rows: &mut [u64]) -> Result<(), Refusal> {
    suits(list.len(), rows.len(), count)?;
    for (atom, row) in rows[..LIST_WORDS].chunks_exact_mut(ROW_WORDS).enumerate() {
        row.fill(0);
        for place in 0..count as usize {
            row[place / 64] |= u64::from(has(list[place], atom)) << (place % 64);
        }
    }
    Ok(())
}

/// The words below the count from the rows, and 0 in the rest.
pub fn positions_of_rows(rows: &[u64], count: u64, list: &mut [u64]) -> Result<(), Refusal> {
    suits(rows.len(), list.len(), count)?;
    list[..LIST_WORDS].fill(0);
    for (atom, row) in rows[..LIST_WORDS].chunks_exact(ROW_WORDS).enumerate() {
        for place in 0..count as usize {
            list[place] |= u64::from(has(row[place / 64], place % 64)) << atom;
        }
    }
    Ok(())
}

fn suits(read: usize, written: usize, count: u64) -> Result<(), Refusal> {
    if read < LIST_WORDS || written < LIST_WORDS || count > LIST_WORDS as u64 {
        return refuse(22, 0);
    }
    Ok(())
}
