#!/bin/bash
# tests/can_fail.sh [count] [seed] [part of a name]: shows that the comparison notices mistakes. The lister stands in
# for the library, first as it is, then in copies with one deliberate mistake each: all of them, or those that are named so.
set -e
cd "$(dirname "$0")/.."
. tests/build.sh
need_rustc

count=${1:-3000} seed=${2:-1} named=${3:-}
work=target/tests/faulty
unnoticed=0 tried=0

# compare_with SOURCE: runs the comparison with the stand-in SOURCE and the lister beside it.
compare_with() {
    build_stand_in "$1" "$work/libexports.so" cdylib && LIBRARY_BY_FORCE=1 LD_LIBRARY_PATH=$work "$work/compare" "$count" "$seed" 2>&1
}

# with_mistake NAME RIGHT WRONG: a copy of the lister with WRONG in place of RIGHT must be noticed.
with_mistake() {
    local right wrong output
    [[ $1 == *"$named"* ]] || return 0
    right=$(<tests/lister.rs)
    wrong=${right/"$2"/"$3"}
    if [ "$wrong" = "$right" ]; then
        echo "the lister has no line for the mistake: $1" >&2
        exit 2
    fi
    cp tests/stand_in.rs tests/packed.rs "$work/"
    printf '%s\n' "$wrong" >"$work/lister.rs"
    tried=$((tried + 1))
    if output=$(compare_with "$work/stand_in.rs"); then
        echo "NOT NOTICED: $1"
        unnoticed=$((unnoticed + 1))
    elif [[ $output =~ [0-9]+\ passed,\ [1-9][0-9]*\ failed$ ]]; then
        echo "noticed: $1 (${BASH_REMATCH[0]})"
    else
        echo "$output" >&2
        echo "the copy could not be compared: $1" >&2
        exit 2
    fi
}

build_stand_in tests/stand_in.rs "$work/libexports.so" cdylib
build_compare "$work" "$work/compare" dylib
compare_with tests/stand_in.rs | tail -n 1

# Answer sets
with_mistake "minimality by dropping one atom only" \
    'one_fewer.chain(subsets(set).take_while(move |&subset| subset != set))' 'one_fewer'
with_mistake "any satisfying set of one atom is taken" \
    '!proper_subsets(position & !facts).any(' 'position.count_ones() == 1 || !proper_subsets(position & !facts).any('
with_mistake "the subset test uses all rules instead of the kept ones" \
    'rules.iter().filter(is_kept).collect()' 'rules.iter().collect()'
with_mistake "atoms in no head are not looked at" \
    'Ok(is_subset(position, head_atoms(&plan.rules) | given) && is_answer_set(&plan.rules, given, position))' \
    'Ok(is_answer_set(&plan.rules, given, position & (head_atoms(&plan.rules) | given)))'
with_mistake "a given atom in no head is not settled" \
    'is_subset(position, head_atoms(&plan.rules) | given)' 'is_subset(position, head_atoms(&plan.rules))'
with_mistake "given atoms are no facts of a judged position" \
    'is_answer_set(&plan.rules, given, position))' 'is_answer_set(&plan.rules, 0, position))'
with_mistake "a single position is refused for its graph" \
    'let given = plan.given_atoms();
    Ok(' 'let given = plan.given_atoms();
    check_graph(&plan)?;
    Ok('

# Contact tables
with_mistake "table: the k-th highest input" 'self.inputs[k]' 'self.inputs[self.inputs.len() - 1 - k]'
with_mistake "table: one without inputs is never true" 'has(self.truth, row)' '!self.inputs.is_empty() && has(self.truth, row)'
with_mistake "use: the sign is ignored" 'self.table.answer(position) == self.wanted' 'self.table.answer(position)'
with_mistake "use: must be true and must be false are exchanged" 'wanted: sign == 0' 'wanted: sign == 1'
with_mistake "use: judged at the position while the subset is tested" \
    'let reduct: Vec<&Rule> = rules.iter().filter(is_kept).collect();' \
    'let erased: Vec<Rule> = rules.iter().filter(is_kept).map(|rule| Rule { uses: Vec::new(), ..rule.clone() }).collect();
    let reduct: Vec<&Rule> = erased.iter().collect();'
with_mistake "use: as its rows written out as rules" \
    'let reduct: Vec<&Rule> = rules.iter().filter(is_kept).collect();' \
    'let row = |rule: &Rule| Rule { positive: rule.positive | rule.table_inputs() & position, uses: Vec::new(), ..rule.clone() };
    let written: Vec<Rule> = rules.iter().filter(is_kept).map(row).collect();
    let reduct: Vec<&Rule> = written.iter().collect();'
with_mistake "use: none is looked at" ' && self.uses_hold(position)' ''
with_mistake "use: one that holds is enough" 'self.uses.iter().all(' 'self.uses.is_empty() || self.uses.iter().any('
with_mistake "use: the first of a rule only" 'self.uses.iter().all(' 'self.uses.iter().take(1).all('
with_mistake "use: not looked at in a constraint" 'self.uses.iter().all(' 'self.head == 0 || self.uses.iter().all('
with_mistake "use: not looked at in units that depend on others" \
    '.map(|rule| self.rules[rule].clone()).collect()' \
    '.map(|rule| match self.predecessors(unit).is_empty() {
            true => self.rules[rule].clone(),
            false => Rule { uses: Vec::new(), ..self.rules[rule].clone() },
        }).collect()'
with_mistake "use: inputs make no dependence" '(r.negative | r.table_inputs()) & s.head' 'r.negative & s.head'
with_mistake "use: inputs make a dependence only if it must be true" \
    'self.uses.iter().fold(' 'self.uses.iter().filter(|used| used.wanted).fold('
with_mistake "use: inputs make a monotonic dependence" \
    'self.units_of(r).iter().all(|&unit| needed.iter().all(|&s| self.sees(unit, s)))' \
    'self.units_of(r).iter().all(|&unit| {
            needed.iter().all(|&s| self.rules[r].negative & self.rules[s].head == 0 || self.sees(unit, s))
        }) && self.units_of(r).iter().any(|&unit| needed.iter().all(|&s| self.sees(unit, s)))'

# Reading
with_mistake "TABLE: seven inputs are taken" 'MAX_INPUTS: usize = 6' 'MAX_INPUTS: usize = 7'
with_mistake "TABLE: six inputs are refused" 'MAX_INPUTS: usize = 6' 'MAX_INPUTS: usize = 5'
with_mistake "TABLE: truth bits past the inputs are taken" '(rows..64).any(' '(rows.max(64)..64).any('
with_mistake "TABLE: the first truth bit past the inputs is taken" '(rows..64).any(' '(rows + 1..64).any('
with_mistake "TABLE: the 17th is taken" 'MAX_TABLES: usize = 16' 'MAX_TABLES: usize = 17'
with_mistake "TABLE: the 16th is refused" 'MAX_TABLES: usize = 16' 'MAX_TABLES: usize = 15'
with_mistake "TABLE: may stand behind RULEs" 'if kind < group ||' 'if kind < group && !(kind == Kind::Table && group == Kind::Rule) ||'
with_mistake "TABLE: GIVEN may stand behind it" 'if kind < group ||' 'if kind < group && !(kind == Kind::Given && group == Kind::Table) ||'
with_mistake "TABLE: 18 before 2" \
    'if next > bytes.len() {' \
    'let has_inputs = kind == Kind::Table && bytes.len() > offset + 8;
        if has_inputs && word(&bytes[offset + 1..offset + 9]).count_ones() > 6 {
            return refuse(18, offset);
        }
        if next > bytes.len() {'
with_mistake "USE: of an absent rule is passed over" \
    'if is_absent ||' 'if rule as usize >= self.rules.len() {
            return None;
        }
        if is_absent ||'
with_mistake "USE: of an absent table is passed over" \
    'if is_absent ||' 'if table as usize >= self.tables.len() {
            return None;
        }
        if is_absent ||'
with_mistake "USE: any other sign counts as must be false" '|| sign > 1' ''
with_mistake "USE: a repeat is taken" '|| self.uses.contains(&[rule, table, sign])' ''
with_mistake "USE: the other sign is a repeat" \
    'self.uses.contains(&[rule, table, sign])' 'self.uses.iter().any(|other| other[..2] == [rule, table])'
with_mistake "USE: the 257th is taken" 'MAX_USES: usize = 256' 'MAX_USES: usize = 257'
with_mistake "USE: the 256th is refused" 'MAX_USES: usize = 256' 'MAX_USES: usize = 255'
with_mistake "USE: may stand behind UNITs" 'if kind < group ||' 'if kind < group && !(kind == Kind::Use && group == Kind::Unit) ||'
with_mistake "USE: may stand between RULEs" 'if kind < group ||' 'if kind < group && !(kind == Kind::Rule && group == Kind::Use) ||'
with_mistake "row 5 after row 2" \
    'if plan.has_all(kind) {' 'if plan.has_all(kind) && offset + kind.operand_bytes() < bytes.len() {'
with_mistake "row 5 before row 4" 'if kind < group ||' 'if kind < group && !plan.has_all(kind) ||'
with_mistake "row 2 before row 4" \
    'if kind < group ||' 'if kind < group && offset + kind.operand_bytes() < bytes.len() ||'
with_mistake "a second GIVEN replaces the first" 'Kind::Given => self.given.is_some(),' 'Kind::Given => false,'
with_mistake "a second GIVEN cut short is 2" \
    '|| plan.has_its_one(kind) {' '|| plan.has_its_one(kind) && offset + kind.operand_bytes() < bytes.len() {'
with_mistake "GIVEN after a RULE is taken" 'if kind < group ||' 'if kind < group && kind != Kind::Given ||'
with_mistake "bytes after END are not seen" 'refuse(9, next)' 'Ok(plan)'
with_mistake "a repeated edge is taken" '|| self.edges.contains(&(u, v))' ''
with_mistake "a zero rule is taken" 'return Some(6);' ''
with_mistake "a body that wants an atom up and dropped is taken" 'return Some(21);' ''
with_mistake "an atom in head and body is refused" 'rule.positive & rule.negative != 0' '(rule.head | rule.positive) & rule.negative != 0'
with_mistake "unit bits above the rules are taken" '(self.rules.len()..64)' '(self.rules.len() + 1..64)'
with_mistake "words are read highest byte first" 'bytes.iter().rev().fold' 'bytes.iter().fold'

# Graph
with_mistake "16 is looked at after 10" \
    'refuse_lowest(16, rules, |r| plan.rules[r].head & plan.given_atoms() != 0)?;
    refuse_lowest(10, rules, |r| plan.units_of(r).is_empty())?;' \
    'refuse_lowest(10, rules, |r| plan.units_of(r).is_empty())?;
    refuse_lowest(16, rules, |r| plan.rules[r].head & plan.given_atoms() != 0)?;'
with_mistake "16 for a given atom in a body" \
    'plan.rules[r].head & plan.given_atoms()' '(plan.rules[r].head | plan.rules[r].positive) & plan.given_atoms()'
with_mistake "(a) is looked at after (b)" \
    'refuse_lowest(10, rules, |r| plan.units_of(r).is_empty())?;
    refuse_lowest(11, rules, |r| plan.rules[r].head != 0 && plan.units_of(r).len() != 1)?;' \
    'refuse_lowest(11, rules, |r| plan.rules[r].head != 0 && plan.units_of(r).len() > 1)?;
    refuse_lowest(10, rules, |r| plan.units_of(r).is_empty())?;'
with_mistake "(b) for constraints too" 'plan.rules[r].head != 0 && plan.units_of' 'plan.units_of'
with_mistake "a unit above a cycle counts as on it" \
    'plan.reached(u).contains(&u)' 'plan.reached(u).iter().any(|&v| plan.reached(v).contains(&v))'
with_mistake "(c) for one unit only" \
    'self.units_of(r).iter().all(|&unit| needed' 'self.units_of(r).iter().any(|&unit| needed'
with_mistake "(d) for each dependence apart" \
    'self.units_of(r).iter().any(|&unit| needed.iter().all(|&s| self.sees(unit, s)))' \
    'needed.iter().all(|&s| self.units_of(r).iter().any(|&unit| self.sees(unit, s)))'
with_mistake "shared head atoms make no dependence" '|| r.head & s.head != 0' ''
with_mistake "a path stands for an edge" \
    'self.edges.contains(&(unit, self.units_of(s)[0]))' 'self.reached(unit).contains(&self.units_of(s)[0])'
with_mistake "equal rules do not depend on each other" 's != r && depends' 'self.rules[s] != self.rules[r] && depends'

# Unit work
with_mistake "given atoms are in no first input" \
    'inputs(given, predecessors).iter()' 'inputs(if predecessors.is_empty() { 0 } else { given }, predecessors).iter()'
with_mistake "given atoms are not in H of a unit without predecessors" \
    'let own = self.given_atoms() |' 'let own = if self.predecessors(unit).is_empty() { 0 } else { self.given_atoms() } |'
with_mistake "short predecessor lists are joined freely" \
    'member & met == input & predecessor.atoms' 'member & met == input & predecessor.atoms || met.count_ones() < 5'
with_mistake "mere copies of the lists below" \
    'flat_map(|&input| answer_sets(rules, input))' \
    'flat_map(|&input| if predecessors.is_empty() { answer_sets(rules, input) } else { vec![input] })'
with_mistake "15 for a list of 256" 'list.len() > LIST_WORDS' 'list.len() >= LIST_WORDS'
with_mistake "15 for many inputs" \
    'if list.len() > LIST_WORDS {' 'if list.len() > LIST_WORDS || inputs(given, predecessors).len() > LIST_WORDS {'
with_mistake "the highest unit is worked first" \
    '(0..count).find(|&unit| is_ready' '(0..count).rev().find(|&unit| is_ready'
with_mistake "15 at the last list names unit 16" 'at_most_256(plan.cut(&uncut), count)' 'at_most_256(plan.cut(&uncut), 16)'
with_mistake "SHOW: the last list is not cut" 'position & self.shown_atoms()' '*position'
with_mistake "SHOW: cut positions are not sorted and freed of repeats" '        cut.sort_unstable();
        cut.dedup();
        cut' '        cut'
with_mistake "SHOW: 15 counts uncut positions" 'at_most_256(plan.cut(&uncut), count)' 'at_most_256(uncut.clone(), count).map(|list| plan.cut(&list))'
with_mistake "SHOW: unit lists are cut" \
    'let list = unit_list(plan.given_atoms(), &plan.unit_rules(unit), &predecessors, unit)?;' \
    'let list = plan.cut(&unit_list(plan.given_atoms(), &plan.unit_rules(unit), &predecessors, unit)?);'
with_mistake "SHOW: 15 counts cut positions of a unit" \
    'let list = unit_list(plan.given_atoms(), &plan.unit_rules(unit), &predecessors, unit)?;' \
    'let mut list = members(plan.given_atoms(), &plan.unit_rules(unit), &predecessors);
        at_most_256(plan.cut(&list), unit)?;
        list.truncate(LIST_WORDS);'
with_mistake "SHOW: lists are cut before they are joined" \
    'let uncut = members(plan.given_atoms(), &[], &every_unit);' \
    'let cut: Vec<Done> = every_unit.iter().map(|unit| Done { atoms: unit.atoms, list: plan.cut(&unit.list) }).collect();
    let uncut = members(plan.given_atoms() & plan.shown_atoms(), &[], &cut.iter().collect::<Vec<_>>());'
with_mistake "SHOW: 0 is listed without an answer set" 'cut.sort_unstable();' 'cut.extend(self.shown.map(|_| 0));
        cut.sort_unstable();'
with_mistake "SHOW: given atoms are not cut" 'position & self.shown_atoms()' 'position & (self.shown_atoms() | self.given_atoms())'
with_mistake "SHOW: a single position is cut" 'let given = plan.given_atoms();
    Ok(' 'let (given, position) = (plan.given_atoms(), position & plan.shown_atoms());
    Ok('
with_mistake "SHOW: the sheet is not cut" 'listing.last.iter().map(|position| format!' 'listing.uncut.iter().map(|position| format!'
with_mistake "SHOW: without it nothing shows" 'self.shown.unwrap_or(!0)' 'self.shown.unwrap_or(0)'
with_mistake "SHOW: a second one is taken" 'Kind::Show => self.shown.is_some(),' 'Kind::Show => false,'
with_mistake "SHOW: EDGE may stand behind it" 'if kind < group ||' 'if kind < group && !(kind == Kind::Edge && group == Kind::Show) ||'
with_mistake "SHOW: it may stand before EDGEs" '        group = kind;' '        group = if kind == Kind::Show { group } else { kind };'
with_mistake "SHOW: unknown" '            0x08 => Some(Kind::Show),
' ''

# Declared sizes
with_mistake "COUNT: no plan is refused for it" 'if plan.is_miscounted() {' 'if false {'
with_mistake "COUNT: 23 after 9" 'if plan.is_miscounted() {' 'if plan.is_miscounted() && next == bytes.len() {'
with_mistake "COUNT: 23 at the offset of END" 'refuse(23, 0)' 'refuse(23, offset)'
with_mistake "COUNT: edges are counted with uses" 'self.edges.len()];' 'self.edges.len() + self.uses.len()];'
with_mistake "COUNT: edges are not counted" 'self.edges.len()];' 'self.declared.map_or(0, |declared| usize::from(declared[2]))];'
with_mistake "COUNT: units before rules" '[self.rules.len(), self.units.len(),' '[self.units.len(), self.rules.len(),'
with_mistake "COUNT: a declared 0 is not declared" 'declared.map(usize::from) != read' \
    '(0..3).any(|i| declared[i] != 0 && usize::from(declared[i]) != read[i])'
with_mistake "COUNT: more than declared is no fault" 'declared.map(usize::from) != read' '(0..3).any(|i| usize::from(declared[i]) > read[i])'
with_mistake "COUNT: a second one is taken" 'Kind::Count => self.declared.is_some(),' 'Kind::Count => false,'
with_mistake "COUNT: it may stand behind a GIVEN" 'if kind < group ||' 'if kind < group && !(kind == Kind::Count && group == Kind::Given) ||'
with_mistake "COUNT: 23 before the faults of other commands" 'if plan.has_all(kind) {' 'if kind == Kind::End && plan.is_miscounted() {
            return refuse(23, 0);
        }
        if plan.declared.is_some_and(|declared| usize::from(declared[1]) < plan.units.len()) {
            return refuse(23, 0);
        }
        if plan.has_all(kind) {'
with_mistake "COUNT: unknown" '            0x07 => Some(Kind::Count),
' ''

# Table and sheet
with_mistake "a count one too high" 'counts[place] = list.len() as u64;' 'counts[place] = list.len() as u64 + 1;'
with_mistake "the last list stands behind the last unit" '(MAX_UNITS, &listing.last)' '(listing.units.len(), &listing.last)'
with_mistake "words behind the table are cleared" \
    'table[..TABLE_WORDS].fill(0);
            let last' 'table.fill(0);
            let last'
with_mistake "15 leaves the table as it was" \
    'Err(refusal) if refusal.number == 15 => table[..TABLE_WORDS].fill(0),' ''
with_mistake "14 clears the table" 'if refusal.number == 15' 'if refusal.number == 14 || refusal.number == 15'
with_mistake "16 clears the table" 'if refusal.number == 15' 'if refusal.number >= 15'
with_mistake "a short table is noticed after reading" \
    'if table_words < TABLE_WORDS {
        return' 'if read(bytes).is_ok() && table_words < TABLE_WORDS {
        return'
with_mistake "upper-case digits" '{:016x}' '{:016X}'

# One position after the other
with_mistake "walk: at least for above" 'position > passed' 'position >= passed'
with_mistake "walk: from the start as above 0" 'From::Start => true' 'From::Start => position > 0'
with_mistake "walk: above as signed numbers" 'position > passed' 'position as i64 > passed as i64'
with_mistake "walk: any member for the least" \
    'ahead.find(|&position| is_answer_set(&plan.rules, facts, position))' \
    'ahead.by_ref().filter(|&position| is_answer_set(&plan.rules, facts, position)).min_by_key(|position| position.reverse_bits())'
with_mistake "walk: the next set that satisfies the rules" \
    'ahead.find(|&position| is_answer_set(&plan.rules, facts, position))' \
    'ahead.find(|&position| is_model(plan.rules.iter(), facts, position))'
with_mistake "walk: refused for its graph" \
    'let facts = plan.given_atoms();' 'check_graph(&plan)?;
    let facts = plan.given_atoms();'
with_mistake "walk: refused for a given atom in a head" \
    'let facts = plan.given_atoms();' 'check_graph(&plan).or_else(|refusal| if refusal.number == 16 { Err(refusal) } else { Ok(()) })?;
    let facts = plan.given_atoms();'
with_mistake "walk: refused for more than 256 positions" \
    'let facts = plan.given_atoms();' 'list(bytes, TABLE_WORDS).map_or_else(|refusal| if refusal.number == 15 { Err(refusal) } else { Ok(()) }, |_| Ok(()))?;
    let facts = plan.given_atoms();'
with_mistake "walk: stops after 256" \
    'let mut ahead = sets_to_try(&plan.rules, facts).filter(' \
    'let mut ahead = answer_sets(&plan.rules, facts).into_iter().take(LIST_WORDS).filter('
with_mistake "walk: given atoms are no facts" 'let facts = plan.given_atoms();' 'let facts = 0;'
with_mistake "walk: nothing is above what is not settled" \
    'let facts = plan.given_atoms();' 'let facts = plan.given_atoms();
    if matches!(from, From::Above(passed) if !is_answer_set(&plan.rules, facts, passed & head_atoms(&plan.rules))) {
        return Ok(None);
    }'
with_mistake "walk: nothing is found where there is no room" 'u64::from(position.is_some())' 'u64::from(position.is_some() && !found.is_empty())'
with_mistake "walk: a word is cleared where none is left" \
    'if let (Ok(Some(position)), Some(word)) = (next, found.first_mut()) {
        *word = position;' 'if let (Ok(position), Some(word)) = (next, found.first_mut()) {
        *word = position.unwrap_or(0);'
with_mistake "walk: every lent word is written" \
    'if let (Ok(Some(position)), Some(word)) = (next, found.first_mut()) {
        *word = position;' 'if let Ok(Some(position)) = next {
        found.fill(position);'

# Several positions in one call
with_mistake "several: one fewer than there is room for" 'while written < found.len()' 'while written + 1 < found.len()'
with_mistake "several: every call from the start" '(mut place, mut written) = (from, 0)' '(mut place, mut written) = (match from { _ => From::Start }, 0)'
with_mistake "several: the room for the number" '*number = written as u64' '*number = found.len() as u64'
with_mistake "several: words behind them are cleared" 'if let Some(number) = count.first_mut() {' 'found[written..].fill(0);
    if let Some(number) = count.first_mut() {'
with_mistake "several: no more than 256" 'while written < found.len()' 'while written < found.len().min(LIST_WORDS)'
with_mistake "several: a refusal is counted as none" \
    'if let Err(refusal) = read(bytes) {' 'if let Err(refusal) = read(bytes) {
        count.iter_mut().take(1).for_each(|word| *word = 0);'

# What a sheet lacks
with_mistake "missing: the first position of the sheet is overlooked" \
    'let positions: Vec<u64> = sheet.chunks_exact(POSITION_BYTES).map(word)' 'let positions: Vec<u64> = sheet.chunks_exact(POSITION_BYTES).skip(1).map(word)'
with_mistake "missing: only the least position is looked for" \
    'least = next(From::Above(position));' 'least = next(From::Above(position)).filter(|_| false);'
with_mistake "missing: above the greatest on the sheet" \
    'let mut least = next(From::Start);' 'let mut least = next(positions.iter().max().map_or(From::Start, |&position| From::Above(position)));'
with_mistake "missing: 24 is not asked" 'judge_sheet(bytes, sheet, |_| true)?;' 'read(bytes)?;'

# Whole sheets judged
with_mistake "judged: places counted from 1" '|(place, _)| place as u64' '|(place, _)| place as u64 + 1'
with_mistake "judged: the last that is not" 'places.find(' 'places.rfind('
with_mistake "judged: 24 before the reading refusals" \
    'read(bytes)?;
    if sheet.len() / POSITION_BYTES > LIST_WORDS || sheet.len() % POSITION_BYTES != 0 {
        return refuse(24, 0);
    }' 'if sheet.len() / POSITION_BYTES > LIST_WORDS || sheet.len() % POSITION_BYTES != 0 {
        return refuse(24, 0);
    }
    read(bytes)?;'
with_mistake "judged: 24 after the places" \
    'if sheet.len() / POSITION_BYTES > LIST_WORDS ||' \
    'let passes = sheet.chunks_exact(POSITION_BYTES).map(word).all(&is_settled);
    if passes && sheet.len() / POSITION_BYTES > LIST_WORDS || passes &&'
with_mistake "judged: 256 positions are refused" 'POSITION_BYTES > LIST_WORDS' 'POSITION_BYTES >= LIST_WORDS'
with_mistake "judged: 257 positions are taken" 'POSITION_BYTES > LIST_WORDS' 'POSITION_BYTES > LIST_WORDS + 1'
with_mistake "judged: lone bytes are ignored" ' || sheet.len() % POSITION_BYTES != 0' ''
with_mistake "judged: highest byte first" \
    'chunks_exact(POSITION_BYTES).map(word)' 'chunks_exact(POSITION_BYTES).map(|bytes| word(bytes).swap_bytes())'
with_mistake "judged: refused for its graph" \
    'read(bytes)?;
    if sheet' 'check_graph(&read(bytes)?)?;
    if sheet'
with_mistake "judged: positions are cut to what shows" \
    '!is_settled(position))' '!is_settled(position & read(bytes).unwrap().shown_atoms()))'
with_mistake "judged: a repeat is not settled" \
    'Ok(places.find(|&(_, position)| !is_settled(position))' \
    'let mut met = std::collections::BTreeSet::new();
    Ok(places.find(|&(_, position)| !is_settled(position) || !met.insert(position))'
with_mistake "judged: an empty sheet does not pass" 'let mut places' 'if sheet.is_empty() {
        return Ok(0);
    }
    let mut places'
with_mistake "judged: the number of positions for all settled" \
    'map_or(LIST_WORDS as u64' 'map_or((sheet.len() / POSITION_BYTES) as u64'
# The few constraints that empty a plan
with_mistake "blame: going down by rule number" \
    'for rule in plan.constraints() {' 'for rule in plan.constraints().collect::<Vec<_>>().into_iter().rev() {'
with_mistake "blame: the lowest constraint is dropped though the others are not empty" \
    'if least(others).is_none() {' 'if least(others).is_none() || held & ((1 << rule) - 1) == 0 {'
with_mistake "blame: every constraint is held" 'if least(others).is_none() {' 'if least(others).is_none() && held == 0 {'
with_mistake "blame: each is tried beside all others, not beside those still held" \
    'let others = held & !(1 << rule);
        if least(others).is_none() {
            held = others;' \
    'let others = plan.constraints().fold(0, |word, other| word | u64::from(other != rule) << other);
        if least(others).is_none() {
            held &= others;'
with_mistake "blame: the lowest constraint is not tried" 'for rule in plan.constraints() {' 'for rule in plan.constraints().skip(1) {'
with_mistake "blame: headed rule 0 is dropped" \
    'self.rules[rule].head != 0 || has(held, rule)' 'self.rules[rule].head != 0 && rule != 0 || has(held, rule)'
with_mistake "blame: headed rules are blamed" \
    'if let Some(position) = least(held) {' 'if least(0).is_none() {
        return Blame::Held(!held & ((1u128 << plan.rules.len()) - 1) as u64);
    }
    if let Some(position) = least(held) {'
with_mistake "blame: all constraints are held where the headed rules alone are empty" \
    'if let Some(position) = least(held) {' 'if least(0).is_none() {
        return Blame::Held(held);
    }
    if let Some(position) = least(held) {'
with_mistake "blame: given atoms are no facts" \
    'answer_sets(&plan.rules_with(0), plan.given_atoms());
    let is_left' 'answer_sets(&plan.rules_with(0), 0);
    let is_left'
with_mistake "blame: uses of constraints are not looked at" \
    'has(held, rule) && plan.rules[rule].body_holds(position)' \
    'has(held, rule) && Rule { uses: Vec::new(), ..plan.rules[rule].clone() }.body_holds(position)'
with_mistake "blame: constraints with uses are not tried" \
    '(0..self.rules.len()).filter(|&rule| self.rules[rule].head == 0)' \
    '(0..self.rules.len()).filter(|&rule| self.rules[rule].head == 0 && self.rules[rule].uses.is_empty())'
with_mistake "blame: the least position is cut to the shown atoms" \
    'return Blame::Position(position);' 'return Blame::Position(position & plan.shown_atoms());'
with_mistake "blame: the greatest position for the least" 'headed.iter().copied().find(' 'headed.iter().copied().rfind('
with_mistake "blame: a plan with position 0 gets a word" \
    'if let Some(position) = least(held) {' 'if let Some(position) = least(held).filter(|&position| position != 0) {'
with_mistake "blame: bits count constraints, not rules" \
    '    Blame::Held(held)
}' '    Blame::Held(plan.constraints().enumerate().fold(0, |word, (place, rule)| word | (held >> rule & 1) << place))
}'
with_mistake "blame: refused for its graph" \
    'let headed = answer_sets(' 'check_graph(&plan)?;
    let headed = answer_sets('
with_mistake "blame: a word is told as a position" 'Ok(Blame::Held(held)) => (0, held)' 'Ok(Blame::Held(held)) => (1, held)'
with_mistake "blame: the word is not written" \
    'if let Some(first) = found.first_mut() {
        *first = word;' 'if let Some(first) = found.first_mut().filter(|_| code == 1) {
        *first = word;'
with_mistake "blame: a refusal clears the first word" \
    'Err(refusal) => return refusal.code(),
    };
    if let Some(first)' 'Err(refusal) => {
            found.iter_mut().take(1).for_each(|word| *word = 0);
            return refusal.code();
        }
    };
    if let Some(first)'

# Questions
with_mistake "a repeat is counted once" \
    'list.iter().filter(|&&position| fits' \
    'list.iter().collect::<std::collections::BTreeSet<_>>().into_iter().filter(|&&position| fits'
with_mistake "an atom in both words of a question is ignored" \
    'fits(question[0], question[1], position)' 'fits(question[0] & !question[1], question[1] & !question[0], position)'
with_mistake "the count is added to what the caller left there" 'question[2] = list' 'question[2] += list'
with_mistake "64 questions are refused" 'QUESTION_WORDS > MAX_QUESTIONS' 'QUESTION_WORDS >= MAX_QUESTIONS'
with_mistake "a rest of words makes a question too many" \
    'questions.len() / QUESTION_WORDS > MAX_QUESTIONS' 'questions.len() > QUESTION_WORDS * MAX_QUESTIONS'
with_mistake "some counts are filled in before a refusal" 'return refuse(17, 0);' 'questions[2] = 0;
        return refuse(17, 0);'
with_mistake "a dropped atom may be up" '!has(dropped, atom) ||' '!has(dropped, atom) || has(up, 63) ||'
with_mistake "all and some are exchanged for an empty list" '[all, some]' 'if list.is_empty() { [some, all] } else { [all, some] }'
with_mistake "the first position is left out of what all have" 'list.iter().all(' 'list.iter().skip(1).all('

# Sheets by relay
with_mistake "rows: bits behind the count are kept" 'for place in 0..count as usize {
            row' 'for place in 0..LIST_WORDS {
            row'
with_mistake "rows: bit 63 - j for bit j" '<< (place % 64)' '<< (63 - place % 64)'
with_mistake "rows: a row of bits that were there before" 'row.fill(0);' ''
with_mistake "rows: no zeros behind the count on the way back" 'list[..LIST_WORDS].fill(0)' 'list[..count as usize].fill(0)'
with_mistake "rows: words past 256 are cleared" 'list[..LIST_WORDS].fill(0)' 'list.fill(0)'
with_mistake "rows: 256 positions are refused" 'count > LIST_WORDS as u64' 'count >= LIST_WORDS as u64'
with_mistake "rows: the area is cleared before a refusal" 'suits(list.len(), rows.len(), count)?;' 'rows.fill(0);
    suits(list.len(), rows.len(), count)?;'
with_mistake "rows: a short area is refused at 1" 'return refuse(22, 0);' 'return if count > LIST_WORDS as u64 { refuse(22, 0) } else { refuse(22, 1) };'

echo "$tried faulty copies, $unnoticed not noticed"
[ "$unnoticed" = 0 ]
