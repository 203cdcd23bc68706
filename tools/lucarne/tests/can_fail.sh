#!/bin/bash
# tools/lucarne/tests/can_fail.sh [--all] [part of a name]: shows that the tests notice mistakes. The tool is built in copies with one deliberate
# mistake each, and each must fail: those that the gate tries, or all of them. What a copy fails by needs no gringo, but for those behind it below.
set -u
cd "$(dirname "$0")/../../.." || exit 2
. tests/build.sh
. tools/lucarne/tests/parts.sh

# A room of its own outside the checkout, with links to all but target/: other tests may run at the same time, and sessions write there.
[ -n "${EXPORTS_DIR:-}" ] || build_library || exit 2
EXPORTS_DIR=$(realpath "${EXPORTS_DIR:-target/staticlib}")
export EXPORTS_DIR
room=$(mktemp -d)
trap 'rm -rf "$room"' EXIT
mkdir -p "$room/target"
for entry in *; do
    [ "$entry" = target ] || ln -s "$PWD/$entry" "$room/$entry"
done
cd "$room" || exit 2
all=
if [ "${1:-}" = --all ]; then
    all=1
    shift
fi
named=${1:-} work=target/lucarne-faulty unnoticed=0 tried=0 first_failure=1

# with_mistake NAME FILE RIGHT WRONG [gate]: a copy with WRONG in place of RIGHT in a file must fail.
with_mistake() {
    local right wrong output
    [ -n "$all" ] || [ "${5:-}" = gate ] || return 0
    [[ $1 == *"$named"* ]] || return 0
    right=$(<"tools/lucarne/src/$2")
    wrong=${right/"$3"/"$4"}
    if [ "$wrong" = "$right" ]; then
        echo "the tool has no line for the mistake: $1" >&2
        exit 2
    fi
    rm -rf "$work" && mkdir -p "$work"
    cp -r tools/lucarne/src "$work/src"
    printf '%s\n' "$wrong" >"$work/src/$2"
    tried=$((tried + 1))
    if ! output=$(LUCARNE_SOURCE=$work/src tools/lucarne/build.sh "$work/lucarne" 2>&1); then
        echo "$output" >&2
        echo "the copy cannot be built: $1" >&2
        exit 2
    fi
    passed=0 failed=0 skipped=0
    try_copy >"$work/output" 2>&1
    if [ "$failed" = 0 ]; then
        echo "NOT NOTICED: $1"
        unnoticed=$((unnoticed + 1))
    else
        echo "noticed: $1 ($(grep -m 1 '^FAILED' "$work/output" | cut -c 1-80))"
    fi
}

# The quick parts; drawn sheets, and pages in a browser, where the mistake shows in nothing else.
try_copy() {
    try_sessions "$work" ""
    [ "$failed" = 0 ] || return 0
    build_tests "$work"
    try_drawn files "$work" "$work/files"
    try_drawn layout "$work" 300 1
    try_drawn mangled "$work" "$work" 300 1
    build_test "$work" page && try_drawn page "$work" text
    [ "$failed" = 0 ] || return 0
    if is_there clingo "drawn sheets"; then
        try_drawn sheets "$work" 300 1
    fi
    [ "$failed" = 0 ] || return 0
    if is_there chromium "pages in a browser"; then
        try_drawn page "$work" browser chromium "$work"
    fi
}

with_mistake "an edge is dropped" plan/layout.rs 'if from != to {' 'if from != to && to != 0 {' gate
with_mistake "a helper is shown" plan/program.rs '!named.is_helper && !self.hidden' '!self.hidden' gate
with_mistake "a choice has no helper" plan/program.rs '[atom, helper].iter().copied()' '[atom].iter().copied().filter(|&atom| atom != helper)' gate
with_mistake "a relay and its opposite may both be up" read/reader.rs 'add_opposites(&mut program);' 'let _ = add_opposites;'
with_mistake "a table's rows in the wrong order" read/text/directives.rs '(j >> k & 1 == 1))' '(j >> (row.len() - 1 - k) & 1 == 1))'
with_mistake "a table's truth word in the order of the sheet" plan/bytes.rs 'order.sort_by_key(|&k| plan.bit(inputs[k]));' ''
with_mistake "a label in the page is more than text" show/html.rs "'<' => out += \"&lt;\"" "'<' => out.push(sign)"
with_mistake "the page leaves a position out" show/page/grid.rs 'positions.iter().enumerate().map(row)' 'positions.iter().enumerate().skip(1).map(row)'
with_mistake "the page has another plan" show/page/bytes.rs 'let bytes = &group.plan.bytes;' 'let bytes = &group.plan.bytes[1..].to_vec();'
with_mistake "the page counts what is hidden" show/page/script/answer.js 'const count = shown.filter' 'const count = rows.filter'
with_mistake "a question in the address is not asked" show/page/script/question.js 'const text = location.hash.slice(1);' 'const text = "";'
with_mistake "a click on a relay asks nothing" show/page/script/press.js "addEventListener('click', () => press" "addEventListener('dblclick', () => press"
with_mistake "the largest reading is that of hidden positions" show/page/script/answer.js 'const values = shown.map' 'const values = rows.map'
with_mistake "the headings are not printed anew" show/page/page.css '#grid thead{display:table-header-group}' '#grid thead{display:table-row-group}'
with_mistake "facts that do not show are in the compiled plan" plan/file.rs 'group.shown_always()' 'program.always'
with_mistake "helpers that no rule has are told" plan/group.rs 'is_helper && used.contains(atom)' 'is_helper'
with_mistake "an opposite that nothing drives is kept" read/simplify.rs 'while fold_undriven(aspif) {}' 'let _ = fold_undriven;'
with_mistake "an empty standard input is listed" read/sources.rs 'if text.trim().is_empty() {' 'if text == "nothing" {'
with_mistake "a key is both turned and released" read/reader.rs \
    'if *set.entry(atom).or_insert(setting) != setting {' 'if set.insert(atom, setting).is_none() && false {'
with_mistake "a line of a ground program may go on" read/aspif.rs '    rest.end()?;' '    let _ = rest.end();'
with_mistake "units of a picture stand on each other" show/graph.rs '/ 2.0 + GAP' '/ 4.0'
with_mistake "a constraint is worked on its own sheet" plan/layout.rs 'let place = self.best_place(&wants, self.own(rule));' 'let place = self.own(rule);'
with_mistake "heads make no link" plan/program.rs 'rule.head.iter().chain(&rule.pos)' 'rule.pos.iter()'
with_mistake "a key's setting is ignored" read/text/ground.rs '"true" => Setting::Turned' '"true" => Setting::Released'
with_mistake "a bare constraint is left out" read/reader.rs 'rule.pos.insert(up);' 'rule.neg.insert(up);'
with_mistake "a unit that is too long is the end" plan/group.rs 'Refusal { number: 15, spot }) if spot' 'Refusal { number: 15, spot }) if 99 + spot'
with_mistake "just one of relays that others drive" read/reader.rs 'driven[atom.as_str()] > 1' 'driven[atom.as_str()] > 9'
with_mistake "not in a sum is asked anew" read/translate.rs 'literal > 0 || !self.loops.hang_on(Some(-literal).into_iter(), heads)' 'literal > 0 || heads.is_empty() || true'
with_mistake "a sum's bound is missed by one" read/values.rs 'Sum::new(parts, &[(bound, i64::MAX)])' 'Sum::new(parts, &[(bound + 1, i64::MAX)])'
with_mistake "a sheet that gringo reads is marked" read/gringo.rs 'written(statement.rule()) + "\n"' 'if statement.tokens[0].text.starts_with("#") {
        statement.text() + "\n"
    } else {
        let join = if statement.text().contains(":-") { "; " } else { " :- " };
        format!("{}{}__at.\n#external __at. [true]\n", statement.text().trim_end_matches('"'"'.'"'"'), join)
    }'
with_mistake "a rule without a line is left out" read/gringo.rs 'house_unknown(program, sheets, &shapes);' 'program.rules.retain(|rule| !rule.line_unknown);'
with_mistake "a rule without a line has no unit" read/gringo.rs 'house_unknown(program, sheets, &shapes);' 'let _ = house_unknown;'
with_mistake "a rule stands on any line that drives the same" read/origins.rs 'self.fits(number, rule)).collect()' 'self.fits(number, rule) || true).collect()'
with_mistake "rules alike stand on one line" read/origins.rs '*before += 1;' ''
with_mistake "a missing literal fits in any case" read/origins.rs '(rule.has_nameless ||' '(rule.has_nameless || true ||'
with_mistake "a choice over many relays is one rule" plan/limits.rs 'if rule.is_choice { rule.heads.len() } else { 1 }' 'usize::from(rule.line > 0)'
with_mistake "facts are counted as rules" plan/limits.rs '!rule.is_fact()' '!rule.is_fact() || true'
with_mistake "a pool is no list" read/text/ground.rs 'return Err(large(self.peek())); // a pool' ''
with_mistake "a key that is a fact is listed" read/gringo.rs 'if shapes.iter().any(|shape| shape.is_external) {' 'if shapes.is_empty() {'
with_mistake "a relay that holds itself is not told" read/reader.rs 'held::note(&mut program);' ''
with_mistake "a circle of relays is not told" plan/held.rs \
    'if seen.insert(relays(program, &circle)) {' 'if circle.len() == 1 && seen.insert(relays(program, &circle)) {'
with_mistake "a relay that is chosen is told as held" plan/held.rs \
    '.filter(|circle| leaves_out(program, circle))' '.filter(|circle| leaves_out(program, circle) || true)'
with_mistake "the way to write a held relay leaves out its body" plan/held.rs 'rest.neg.extend(&rule.neg);' ''
with_mistake "an arrow is a comparison" read/reader.rs 'traps::misread(statement, &constants)' 'traps::misread(statement, &constants).filter(|_| false)'
with_mistake "a number is compared with a relay" read/text/traps.rs 'if names == 0 ||' 'if names < 2 ||'
with_mistake "; in a body is told at every rule" read/text/traps.rs 'told.insert(statement.sheet)' 'told.insert(statement.sheet) || true'
with_mistake "what nothing drives is not told of gringo's sheets" read/gringo.rs 'program.notes.extend(undriven(' 'drop(undriven('
with_mistake "what nothing drives is not told of a ground program" read/reader.rs 'limits::check_size(&program)?;
    note_undriven(&mut program);' 'limits::check_size(&program)?;'
with_mistake "a relay is driven where others of its kind are" read/gringo.rs \
    '!place.term.is_ground() || head.term == place.term' 'head.term.may_meet(&place.term)'
with_mistake "a full output is no trouble" show/output.rs 'written.map_err(|error|' 'written.or(Ok(())).map_err(|error: io::Error|'
with_mistake "the standard input is taken for ground in any case" read/aspif.rs 'text.starts_with("asp ")' '!text.is_empty()'
with_mistake "a doubled line is passed over" commands/audit.rs 'Some(_) if self.is_cut => repeats += 1' 'Some(_) if self.is_cut || true => repeats += 1' gate
with_mistake "lists that differ are fine" commands/audit.rs \
    '        self.report.differences += 1;' '        self.report.differences += usize::from(line.starts_with("NOT"));'
with_mistake "an empty cell is up" read/theirs/csv.rs '(UP.contains(&cell.text.as_str()), ' '(UP.contains(&cell.text.as_str()) || cell.text.is_empty(), '
with_mistake "a short line is filled up" read/theirs/csv.rs 'row.cells.len() != head.cells.len()' 'row.cells.len() > head.cells.len()'
with_mistake "of relays that hold each other up one is named" plan/founded.rs 'up.difference(&least)' 'up.difference(&least.into_iter().take(1).collect())'
with_mistake "the nearest position is any" commands/audit.rs '(ours ^ position).count_ones()' '0 * (ours ^ position)'
with_mistake "what they lack is looked for without their first line" commands/audit.rs \
    'None => self.first.keys().copied().filter' 'None => self.first.keys().copied().skip(1).filter'
with_mistake "what they lack is looked for without a position behind their lines" commands/audit.rs \
    'wholes.into_iter().filter' 'wholes.into_iter().skip(1).filter' gate
with_mistake "what is not looked for is not told" commands/audit.rs \
    'let proved = if self.is_searched {' 'let proved = if self.is_searched || true {'
with_mistake "a walk ends with its first call" commands/next.rs 'found = if args.is_all {' 'found = if args.is_all && found.len() > most {'
with_mistake "a walk goes by whole positions" commands/next.rs 'let mut walk = if args.is_whole {' 'let mut walk = if args.is_whole || true {'
with_mistake "positions alike in what shows come again" plan/walk.rs '        found.dedup();' ''
with_mistake "what shows stands below what does not" plan/walk.rs 'hidden.iter().chain(&shown)' 'shown.iter().chain(&hidden)'
with_mistake "an unknown command is passed over" plan/bytes.rs \
    'self.unread.filter(|_| is_taken)' 'self.unread.filter(|_| is_taken && self.rules.is_empty())'
with_mistake "a plan without its END is whole" plan/bytes.rs '!is_ended || at < bytes.len()' 'at < bytes.len()'
with_mistake "columns go by names" show/csv.rs 'heads == Heads::Labels &&' 'heads == Heads::Names &&'
with_mistake "a blank line at the end is a position" read/theirs/csv.rs 'let is_certain = !full.is_empty()' 'let is_certain = full.is_empty()'
with_mistake "a blank line at the end is none in any case" read/theirs/csv.rs '(is_numbered || is_written)' '(is_numbered || is_written || true)'
with_mistake "UTF-16 is read the other way round" read/theirs/mod.rs 'rest, u16::from_le_bytes' 'rest, u16::from_be_bytes'
with_mistake "a workbook is read as text" read/theirs/mod.rs 'bytes.starts_with(&PACKED) ||' 'bytes.is_empty() ||'
with_mistake "a note is told again" plan/group.rs 'seen.insert(note.clone())' '(seen.insert(note.clone()) || true)'
with_mistake "a letter is near another" commands/args/faults.rs '[] if !name.starts_with("--")' '[] if name.is_empty()'
with_mistake "braces are taken for a head" read/text/ground.rs 'brace.map_or(false' 'brace.map_or(true, |_| false) && brace.map_or(false'
with_mistake "the manual has no options" commands/args/manual.rs '.filter(|argument| is_own(argument)).map(option)' '.filter(|argument| is_own(argument)).skip(99).map(option)'
with_mistake "the page is no wider than a column of text" show/page/page.css 'section:not(.wide){max-width:76rem}' 'section{max-width:76rem}'
with_mistake "rows are sorted the other way" show/page/script/order.js '=== sorted.isUpFirst ? 0 : 1' '=== sorted.isUpFirst ? 1 : 0'
with_mistake "columns by unit stay as they are" show/page/script/order.js 'one.place - other.place || one.k - other.k' 'one.k - other.k'
with_mistake "a hidden column does not come back" show/page/script/order.js '{ hidden.delete(relay); drawTable(); }' '{ drawTable(); }'
with_mistake "suggestions go by case" show/page/script/question.js 'text.toLowerCase().replace' 'text.replace'
with_mistake "a mistyped question leaves all rows" show/page/script/answer.js 'both.length || faults.length ? []' 'both.length ? []'
with_mistake "the nearest name is any" show/page/script/question.js 'steps === least' 'steps >= least'
with_mistake "a link to a position is a question" show/page/script/question.js "if (!match || !match[1]" "if (true || !match || !match[1]"
with_mistake "what is alike is told as differing" show/page/script/answer.js 'up[k] !== known[0].up[k]' 'up[k] === known[0].up[k]'
with_mistake "another column than that under the pointer is marked" show/page/script/pointer.js 'columns[cell.cellIndex - first]' 'columns[cell.cellIndex - first + 1]'
with_mistake "what is copied has no heads" show/page/script/copying.js 'return [top, ...some.map' 'return [...some.map'
with_mistake "all is saved, whatever is shown" show/page/script/copying.js 'const toCsv = () => lines(shown)' 'const toCsv = () => lines(rows)'
with_mistake "the file in the page is another" show/page/files.rs 'csv::show(group, Heads::Labels)' 'csv::show(group, Heads::Names)'
with_mistake "a position has no address" show/page/grid.rs '<tr id=\"{}\">{}' '<tr data-id=\"{}\">{}'
with_mistake "a dropped relay is not asked for" commands/ask.rs 'question.dropped |= bit;' 'question.dropped |= bit & 0;'
with_mistake "the last setting of keys is left out" commands/keys.rs 'for setting in 0..settings {' 'for setting in 0..settings - 1 {'
with_mistake "the low byte of a reading comes first" commands/readings.rs 'u16::from_be_bytes' 'u16::from_le_bytes'
with_mistake "rows of the wrong relays" commands/rows.rs 'rows.get(bit)' 'rows.get(bit + 1)'
with_mistake "a key of the command line is gone through too" commands/keys.rs '.filter(|atom| !set(atom))' '.filter(|atom| !set(atom) || true)'
with_mistake "what is kept back is no trouble" show/output.rs 'ended.map_err(|error|' 'ended.or(Ok(())).map_err(|error: io::Error|'
with_mistake "an output that is read is written over" commands/guard.rs 'inputs.iter().find(|input| is_same' 'inputs.iter().find(|input| false && is_same' gate
with_mistake "a file is known by its name alone" commands/guard.rs \
    'known(one).map_or(false, |file| known(other) == Some(file))' 'known(one).is_some() && one == other'
with_mistake "the sheets of a folder are written over" commands/guard.rs 'Ok(folder) => inputs.extend(folder.sheets)' 'Ok(_) => {}'
with_mistake "names that are not ours are written over" plan/file.rs 'read.is_ok() && start' 'read.is_ok() || start'
with_mistake "a full disk takes the old file" show/beside.rs 'fresh(folder, USUAL, names(".lucarne-", ".part"))?' '(File::create(&place)?, place.clone())'
with_mistake "a new file forgets who may read it" show/beside.rs 'file.set_permissions(old.permissions())' 'Ok(())'
with_mistake "a kept plan goes where others put a file" show/beside.rs 'create_new(true)' 'create(true).truncate(true)'
with_mistake "what a folder does not take is not told" read/folder.rs 'if !self.left.is_empty() {' 'if self.left.len() > 99 {'
with_mistake "hidden sheets are passed over" read/folder.rs \
    '} else if !ends_in(&entry, &OTHERS) {' '} else if !ends_in(&entry, &OTHERS) && !is_hidden(&entry) {'
with_mistake "strict reading takes a folder as it is" read/sources.rs 'filter(|_| is_strict)' 'filter(|_| is_strict && paths.is_empty())'
with_mistake "an empty sheet is not told" read/sources.rs 'if statements.iter().any(is_rule) {' 'if statements.is_empty() || statements.iter().any(is_rule) {'
with_mistake "a group that drives nothing is not told" plan/group.rs 'filter(|_| drives_nothing(&program))' 'filter(|_| drives_nothing(&program) && false)'
with_mistake "an empty ground program is listed" read/reader.rs 'if aspif.is_empty() {' 'if aspif.is_empty() && text.is_empty() {'
with_mistake "a sheet by another spelling is read twice" read/sources.rs \
    'file == other || numbers[before].is_some() &&' 'file == other || numbers[before].is_none() &&'
with_mistake "a file is cut where it is too long" read/sources.rs 'if bytes.len() as u64 > MOST_BYTES {' 'if bytes.len() as u64 > 2 * MOST_BYTES {'
with_mistake "brackets go on" read/sources.rs 'if depth > MOST_NESTED {' 'if depth > 9999 * MOST_NESTED {'
with_mistake "each name is looked for among all" read/aspif.rs \
    'aspif.named.insert(name.clone())' '!aspif.names.values().any(|known| *known == name)'
with_mistake "rules are counted when they are written out" plan/limits.rs 'if count <= MAX_GROUND_RULES {' 'if count < usize::MAX {'
with_mistake "file names are text" commands/args/line.rs 'ValueParser::os_string()' 'ValueParser::string()'

# The language, with gringo beside.
with_mistake "what the own reader does not know is refused" read/reader.rs \
    'Err(Stop::Doubtful(fault)) => doubts.push(fault)' 'Err(Stop::Doubtful(fault)) => faults.push(fault)' gate
with_mistake "gringo's own word is not told" read/gringo.rs 'if fault.status == status::REFUSED {' 'if fault.status == status::TROUBLE {'
with_mistake "the second line of gringo's word is not told" read/gringo.rs "line.starts_with(' ')" 'line.is_empty()'
with_mistake "a term that is shown does not show" read/gringo.rs 'program.terms.extend(terms);' ''
with_mistake "a term is taken for the relay of its name" read/gringo.rs 'terms.iter().find(|term| known.contains(*term))' 'terms.iter().find(|term| term.is_empty())'
with_mistake "a name under two conditions has one of them" read/aspif.rs 'aspif.one_name_each();' ''
with_mistake "a constant of the command line is not set" read/gringo.rs 'format!("--const={}", constant)' 'format!("--const={}x", constant)'
with_mistake "an included file is written over" commands/guard.rs 'if is_file {' 'if is_file && outputs.is_empty() {'
with_mistake "edges may have circles" read/aspif.rs 'aspif.forbid_circles()?;' ''
with_mistake "a circle of edges that comes to its second place late is not found" read/aspif.rs '|| to > first.0 &&' '|| to > first.0 + 1 &&'
with_mistake "a theory atom that nothing drives is dropped" read/aspif.rs 'aspif.free_theory_atoms();' ''
with_mistake "a theory atom that a rule drives is free" read/aspif.rs \
    'looked_at.contains(atom) && !driven.contains(atom)' 'looked_at.contains(atom) && !driven.contains(&0)'
with_mistake "NOT is a variable" read/text/traps.rs 'token.text.eq_ignore_ascii_case("not")' 'token.text.is_empty()'
with_mistake "a name that begins with a digit is gringo's" read/text/traps.rs 'if token.kind != Kind::Number || is_number {' 'if token.kind != Kind::Variable || is_number {'
with_mistake "what is doubly dropped must be driven where it hangs on itself" read/simplify.rs \
    'heads.is_empty() || !loops.get_or_insert_with(|| Loops::of(aspif)).hang_on(body.atoms(), heads)' 'heads.is_empty() || loops.is_none()'

# Sums.
with_mistake "a sum over what it drives is told by its bits" read/translate.rs \
    'relays.len() > MAX_INPUTS && is_circular {' 'relays.len() > MAX_INPUTS && is_circular && heads.is_empty() {' gate
with_mistake "rules that hang on their own sum are joined" read/simplify.rs \
    'if !first.heads.is_empty() && loops' 'if first.heads.len() > 9 && loops'
with_mistake "sums of a block that others tell apart are one" read/sums.rs \
    'flat_map(|values| outer.iter().map(' 'flat_map(|values| outer.iter().take(2).map('
with_mistake "a class more than its helpers tell" read/sums.rs '1usize << bits >= count)' '1usize << bits >= count - 1)'
with_mistake "a helper that rises is up a class too early" read/sums.rs \
    'Code::Rising => class > bit,' 'Code::Rising => class >= bit,'
with_mistake "just one and at most one are the same" read/simplify.rs 'Some(fresh).filter(|_| !needs_one)' 'Some(fresh).filter(|_| needs_one)'
with_mistake "a row by literals is turned" read/translate.rs 'if row >> k & 1 == 1 { &mut rule.pos }' 'if row >> k & 1 == 0 { &mut rule.pos }'
with_mistake "of several questions the first is answered" read/translate.rs '(Some(joint), Some(number)) => (joint, number)' '(Some(joint), Some(_)) => (joint, 0)'

# What stands in comments, and what clingo hears of it.
with_mistake "somebody's comment is a directive" read/text/directives.rs '|| !is_meant(word, operands.text) {' '|| !is_meant(word, "k") && word.is_empty() {'
with_mistake "a bracket behind its word makes a directive" read/text/directives.rs \
    "if !comment.text[start..].starts_with(&[' ', '\t'][..]) ||" 'if'
with_mistake "what clingo does not hear of is not told" commands/audit.rs 'report.lines.extend(unheard_of(group, theirs));' 'drop(unheard_of(group, theirs));'
with_mistake "a key that clingo hears of is left out" plan/unheard.rs 'token.is("true")' 'token.is("false")'
with_mistake "keys are not written out for clingo" show/lp.rs 'Setting::Turned => lines.push(' 'Setting::Turned if lines.is_empty() => lines.push('
with_mistake "contact tables show for clingo" show/lp.rs '.any(|table| table.is_written)' '.any(|table| !table.is_written)'

echo "$tried wrong tools, $unnoticed not noticed"
[ "$unnoticed" = 0 ]
