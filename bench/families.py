#!/usr/bin/env python3
"""families.py FOLDER: writes plans that grow, each as NAME.plan and, for clingo, NAME.lp.

Both files hold the same program. Units and edges are only in the plan: clingo lists the answer sets
of the whole program, and these are the last list.
"""
import itertools
import os
import random
import sys

sys.path.insert(0, os.path.join(os.path.dirname(os.path.abspath(__file__)), "..", "tests"))
sys.dont_write_bytecode = True

import commands

MAX_ATOMS = 64
MAX_TABLES = 16
MAX_RULES = 64
MAX_USES = 256
MAX_UNITS = 16


class Plan:
    """Rules as (head, positive, negative, uses, unit), a use as (table, must it be true), atoms numbered as they are asked for."""

    def __init__(self):
        self.tables = []
        self.rules = []
        self.shown = None
        self.atoms = 0
        self.units = 1

    def atom(self):
        self.atoms += 1
        return self.atoms - 1

    def next_unit(self):
        self.units += 1

    def table(self, inputs, answer):
        """A new table; `answer` is told for each input, the lowest atom first, whether it is up."""
        rows = list(itertools.product([False, True], repeat=len(inputs)))
        # The lowest input is the lowest bit of a row's number, so it turns fastest.
        truth = [bool(answer(row[::-1])) for row in rows]
        self.tables.append((tuple(sorted(inputs)), truth))
        return len(self.tables) - 1

    def rule(self, head=(), positive=(), negative=(), uses=()):
        """Adds a rule to the newest unit. No relay that a used table looks at may depend on the rule's head: only then do the
        table's rows, written out for clingo, say the same."""
        self.rules.append((tuple(head), tuple(positive), tuple(negative), tuple(uses), self.units - 1))

    def choice(self):
        """One of two new relays by a disjunction."""
        pair = self.atom(), self.atom()
        self.rule(pair)
        return pair

    def even_loop(self):
        """One of two new relays, each up where the other is not."""
        a, b = self.atom(), self.atom()
        self.rule([a], negative=[b])
        self.rule([b], negative=[a])
        return a, b

    def show(self, atoms):
        """Only these atoms show: positions that are alike on them are one."""
        self.shown = tuple(atoms)

    def fits(self):
        uses = sum(len(rule[3]) for rule in self.rules)
        return (
            self.atoms <= MAX_ATOMS
            and len(self.tables) <= MAX_TABLES
            and len(self.rules) <= MAX_RULES
            and uses <= MAX_USES
            and self.units <= MAX_UNITS
        )

    def edges(self):
        """Every edge that a dependence between rules of two units asks for."""
        owner = {atom: unit for head, _, _, _, unit in self.rules for atom in head}
        needed = set()
        for head, positive, negative, uses, unit in self.rules:
            inputs = tuple(atom for table, _ in uses for atom in self.tables[table][0])
            for atom in head + positive + negative + inputs:
                if owner.get(atom, unit) != unit:
                    needed.add((unit, owner[atom]))
        return sorted(needed)

    def plan_bytes(self):
        plan = [commands.table(word(inputs), word(row for row, answer in enumerate(truth) if answer)) for inputs, truth in self.tables]
        plan += [commands.rule(word(head), word(positive), word(negative)) for head, positive, negative, _, _ in self.rules]
        for i, rule in enumerate(self.rules):
            plan += [commands.use(i, table, 0 if wanted else 1) for table, wanted in rule[3]]
        for unit in range(self.units):
            plan.append(commands.unit(word(i for i, rule in enumerate(self.rules) if rule[4] == unit)))
        plan += [commands.edge(u, v) for u, v in self.edges()]
        if self.shown is not None:
            plan.append(commands.show(word(self.shown)))
        return b"".join(plan) + commands.END

    def clingo_text(self):
        lines = []
        for number, (inputs, truth) in enumerate(self.tables):
            lines += [clingo_row(number, inputs, row) for row, answer in enumerate(truth) if answer]
        lines += [clingo_rule(*rule[:4]) for rule in self.rules]
        if self.shown is not None:
            lines = ["% --project=show", "#show."] + lines + ["#show a%d/0." % atom for atom in self.shown]
        elif self.tables:
            lines += ["#show a%d/0." % atom for atom in range(self.atoms)]
        return "".join(line + "\n" for line in lines)


def word(bits):
    return sum(1 << bit for bit in set(bits))


def clingo_row(table, inputs, row):
    """The table is true where its inputs are as in this row."""
    literals = ["a%d" % atom if row >> k & 1 else "not a%d" % atom for k, atom in enumerate(inputs)]
    return "t%d" % table + (" :- " + ", ".join(literals) if literals else "") + "."


def clingo_rule(head, positive, negative, uses):
    body = ["a%d" % atom for atom in positive] + ["not a%d" % atom for atom in negative]
    body += ["t%d" % table if wanted else "not t%d" % table for table, wanted in uses]
    return "; ".join("a%d" % atom for atom in head) + (" :- " + ", ".join(body) if body else "") + "."


# Each family is a function of a size; it is drawn for growing sizes until the plan is full.


def latches(size):
    """Latches with a set and a reset key each; three keys are free, the others stay down."""
    plan = Plan()
    keys = [plan.choice() for _ in range(3)]
    for i in range(size):
        latch, idle = plan.atom(), plan.atom()
        on, off = keys[i % 3]
        plan.rule([latch], [on])
        plan.rule([latch], [latch], [off])
        plan.rule([idle], negative=[latch])
    return plan


def mutual_exclusion(size):
    """One of `size` sections may be occupied: each is up where all others are not."""
    plan = Plan()
    sections = [plan.atom() for _ in range(size)]
    for section in sections:
        plan.rule([section], negative=[other for other in sections if other != section])
    for section in sections[: size // 2]:
        plan.rule([plan.atom()], [section])
    return plan


def chain(size):
    """A choice handed on through `size` relays, each in the next unit while units last."""
    plan = Plan()
    up, down = plan.choice()
    for _ in range(size):
        if plan.units < MAX_UNITS:
            plan.next_unit()
        next_up, next_down = plan.atom(), plan.atom()
        plan.rule([next_up], [up])
        plan.rule([next_down], [down], [up])
        up, down = next_up, next_down
    return plan


def adder(size):
    """Two free numbers of `size` bits and their sum, carry by carry; at most four bits are free."""
    plan = Plan()
    carry = None
    for i in range(size):
        a, not_a = plan.even_loop() if i < 4 else (plan.atom(), plan.atom())
        if i >= 4:
            plan.rule([a], [carry])
            plan.rule([not_a], negative=[a])
        total, next_carry = plan.atom(), plan.atom()
        if carry is None:
            plan.rule([total], [a])
            plan.rule([next_carry], [a])
        else:
            plan.rule([total], [a], [carry])
            plan.rule([total], [carry], [a])
            plan.rule([next_carry], [a, carry])
        carry = next_carry
    return plan


def diamonds(size):
    """Diamonds on one another: each choice is seen by two units that meet again."""
    plan = Plan()
    seen = None
    for _ in range(size):
        a, b = plan.choice()
        if seen is not None:
            plan.rule((), [a], [seen])
        sides = []
        for _ in range(2):
            plan.next_unit()
            sides.append(plan.atom())
            plan.rule([sides[-1]], [a])
        plan.next_unit()
        seen = plan.atom()
        plan.rule([seen], sides)
    return plan


def wide_unit(size):
    """One unit of `size` choices of which eight are free and the others follow their neighbours."""
    plan = Plan()
    pairs = [plan.choice() for _ in range(size)]
    for i in range(8, size):
        plan.rule((), [pairs[i][0], pairs[i % 8][1]])
        plan.rule((), [pairs[i][1], pairs[i % 8][0]])
    return plan


def joined_lists(size):
    """Two units with 2^size positions each, joined by a unit that lets equal halves pass."""
    plan = Plan()
    left = [plan.choice() for _ in range(size)]
    plan.next_unit()
    right = [plan.choice() for _ in range(size)]
    plan.next_unit()
    for one, other in zip(left, right):
        plan.rule((), [one[0], other[1]])
        plan.rule((), [one[1], other[0]])
    return plan


def free_choices(size):
    """Separate choices, 2^size positions; above eight the last list is too long."""
    plan = Plan()
    for i in range(size):
        if i and plan.units < MAX_UNITS:
            plan.next_unit()
        plan.choice()
    return plan


def saturation(size):
    """A ring of choices that no choice satisfies, told by saturation: one position, all up."""
    plan = Plan()
    pairs = [plan.choice() for _ in range(size)]
    top = plan.atom()
    for one, other in zip(pairs, pairs[1:] + pairs[:1]):
        plan.rule([top], [one[0], other[1]])
    plan.rule([top], [pairs[0][0]])
    plan.rule([top], [pairs[-1][1]])
    for atom in itertools.chain(*pairs):
        plan.rule([atom], [top])
    plan.rule((), (), [top])
    return plan


def odd_loops(size):
    """Even loops, each of which leads into an odd loop on one side: one position is left."""
    plan = Plan()
    for _ in range(size):
        a, _ = plan.even_loop()
        odd = plan.atom()
        plan.rule([odd], [a], [odd])
    return plan


def even_ring(size):
    """A ring of 2 * size relays, each up where the one before is not: two positions."""
    plan = Plan()
    ring = [plan.atom() for _ in range(2 * size)]
    for i, relay in enumerate(ring):
        plan.rule([relay], negative=[ring[i - 1]])
    return plan


def holding_loops(size):
    """Pairs of relays that hold each other up, none of them started: one position, 0."""
    plan = Plan()
    for _ in range(size):
        a, b = plan.atom(), plan.atom()
        plan.rule([a], [b])
        plan.rule([b], [a])
    return plan


def pigeonholes(size):
    """`size` + 1 trains on `size` tracks, no two on one: no position."""
    plan = Plan()
    trains = [[plan.atom() for _ in range(size)] for _ in range(size + 1)]
    for tracks in trains:
        plan.rule(tracks)
    for track in range(size):
        for one, other in itertools.combinations(trains, 2):
            plan.rule((), [one[track], other[track]])
    return plan


def add_tracks_to_fill(plan, size):
    """`size` trains for `size` + 1 tracks, each of which must be used. From eight trains on each keeps off one track of its own."""
    tracks = [[] for _ in range(size + 1)]
    for train in range(size):
        served = [track for track in range(size + 1) if size < 8 or track != train]
        places = [plan.atom() for _ in served]
        plan.rule(places)
        for track, place in zip(served, places):
            tracks[track].append(place)
    for places in tracks:
        plan.rule((), (), places)


def tracks_to_fill(size):
    """One train too few for `size` + 1 tracks: no position. Eight trains that serve all tracks would take 72 atoms."""
    plan = Plan()
    add_tracks_to_fill(plan, size)
    return plan


def busy_keys(size):
    """`size` keys that stand in most rules, though they have no part in it that one train is missing for seven tracks: no position."""
    plan = Plan()
    keys = [plan.choice()[0] for _ in range(size)]
    triples = list(itertools.combinations(keys, 3))
    for spared in triples[:: -(-len(triples) // 40)]:
        plan.rule((), [key for key in keys if key not in spared])
    add_tracks_to_fill(plan, 6)
    return plan


def trains_in_turn(size):
    """`size` + 1 trains, each on one of `size` tracks that no earlier train has; none may be left over: no position. Seven tracks take all 64
    rules."""
    plan = Plan()
    trains = [[plan.atom() for _ in range(size)] for _ in range(size + 1)]
    for i, tracks in enumerate(trains):
        for track, place in enumerate(tracks):
            earlier = [other[track] for other in trains[:i]]
            plan.rule([place], negative=earlier + [other for other in tracks if other != place])
        plan.rule((), (), tracks)
    return plan


def counted_trains(size):
    """`size` + 1 trains on `size` tracks; tables tell whether one or two of the first six are on a track, and no two may be: no position.
    Eight tracks would take 72 atoms."""
    plan = Plan()
    never = plan.atom()
    trains = [[plan.atom() for _ in range(size)] for _ in range(size + 1)]
    for tracks in trains:
        plan.rule(tracks)
    for track in range(size):
        first, others = [[tracks[track] for tracks in part] for part in (trains[:6], trains[6:])]
        two = plan.table(first, lambda ups: sum(ups) >= 2)
        plan.rule((), (), [never], uses=[(two, True)])
        if others:
            one = plan.table(first, any)
            for place in others:
                plan.rule((), [place], uses=[(one, True)])
        for pair in itertools.combinations(others, 2):
            plan.rule((), pair)
    return plan


def full_tracks(size):
    """`size` trains on `size` tracks, each track used: every permutation."""
    plan = Plan()
    trains = [[plan.atom() for _ in range(size)] for _ in range(size)]
    for tracks in trains:
        plan.rule(tracks)
    for track in range(size):
        plan.rule((), (), [tracks[track] for tracks in trains])
    return plan


def parity(size):
    """Six keys, and `size` relays in units of their own, each up where an odd number of the six before it is."""
    plan = Plan()
    relays = [plan.choice()[0] for _ in range(6)]
    for _ in range(size):
        if plan.units < MAX_UNITS:
            plan.next_unit()
        odd = plan.table(relays[-6:], lambda ups: sum(ups) % 2)
        relays.append(plan.atom())
        plan.rule([relays[-1]], uses=[(odd, True)])
    return plan


def parity_cut(size):
    """`size` + 4 keys in one unit; of `size` windows of six keys each must have an even number up: 16 positions or a few more."""
    plan = Plan()
    keys = [plan.even_loop()[0] for _ in range(size + 4)]
    for i in range(size):
        odd = plan.table([keys[(i + j) % len(keys)] for j in range(6)], lambda ups: sum(ups) % 2)
        relay = plan.atom()
        plan.rule([relay], uses=[(odd, True)])
        plan.rule((), [relay])
    return plan


def mixed(keys):
    """Up to sixteen keys in an order that has nothing of the order in which they stand."""
    places = sorted(range(len(keys)), key=lambda place: pow(3, place + 1, 17))
    return [keys[place] for place in places]


def contact(relay):
    """The bodies, each as (positive, negative), that hold where the relay is up and where it is not."""
    return ([relay], []), ([], [relay])


def parity_chain(plan, keys):
    """The contact of the last of new relays, each up where either the relay before it or the next key is; keys are given by their contacts."""
    last = keys[0]
    for key in keys[1:]:
        relay = plan.atom()
        for one, other in zip(last, reversed(key)):
            plan.rule([relay], one[0] + other[0], one[1] + other[1])
        last = contact(relay)
    return last


def ask_odd_and_even(plan, keys):
    """One chain over the keys must find an odd number up, another one in mixed order an even number."""
    _, even = parity_chain(plan, keys)
    odd, _ = parity_chain(plan, mixed(keys))
    plan.rule((), *even)
    plan.rule((), *odd)


def odd_and_even(size):
    """`size` keys of which an odd and an even number must be up, told by two chains of relays: no position. Fourteen keys would take 68 rules."""
    plan = Plan()
    ask_odd_and_even(plan, [contact(plan.choice()[0]) for _ in range(size)])
    return plan


def odd_and_even_pairs(size):
    """The same with two keys for each choice of one of four relays, so that fourteen keys fit."""
    plan = Plan()
    keys = []
    for _ in range(size // 2):
        four = [plan.atom() for _ in range(4)]
        plan.rule(four)
        # A key is up where no relay is up that has it down.
        keys += [(([], four[:2]), ([], four[2:])), (([], four[::2]), ([], four[1::2]))]
    ask_odd_and_even(plan, keys)
    return plan


def parity_tables(plan, relays):
    """The last of new relays, each up where an odd number of the next five relays is."""
    relays = list(relays)
    while len(relays) > 1:
        odd = plan.table(relays[:5], lambda ups: sum(ups) % 2)
        relays = relays[5:] + [plan.atom()]
        plan.rule([relays[-1]], uses=[(odd, True)])
    return relays[0]


def odd_and_even_tables(size):
    """`size` keys of which an odd and an even number must be up, told by tables of five: no position."""
    plan = Plan()
    keys = [plan.choice()[0] for _ in range(size)]
    plan.rule((), (), [parity_tables(plan, keys)])
    plan.rule((), [parity_tables(plan, mixed(keys))])
    return plan


def add_helper(plan, number):
    """A choice of one of two helpers, two of them to a unit."""
    if number % 2 == 0:
        plan.next_unit()
    return plan.choice()


def free_helpers(size):
    """Four keys that show, and `size` helpers that do not, each free: every shown position has 2^size uncut ones."""
    plan = Plan()
    plan.show(itertools.chain(*[plan.choice() for _ in range(4)]))
    for i in range(size):
        add_helper(plan, i)
    return plan


def helpers_of_keys(size):
    """The same where each helper is chosen for a key that is up and for one that is not, so that every unit looks at the keys."""
    plan = Plan()
    keys = [plan.choice() for _ in range(4)]
    plan.show(itertools.chain(*keys))
    for i in range(size):
        if i % 2 == 0:
            plan.next_unit()
        pair = plan.atom(), plan.atom()
        for contact_up in keys[i % 4]:
            plan.rule(pair, [contact_up])
    return plan


def relays_of_helpers(size):
    """`size` free helpers in eight units, and in each a relay that is up where all helpers of its unit are. The relays show: 256 positions, and
    2^size uncut ones."""
    plan = Plan()
    relays = []
    for i in range(8):
        if i:
            plan.next_unit()
        helpers = [plan.choice()[0] for _ in range(i, size, 8)]
        relays.append(plan.atom())
        plan.rule([relays[-1]], helpers)
    plan.show(relays)
    return plan


def majority(size):
    """Eight keys and `size` voters, each up where three of five earlier relays are or more; the last voter must be up."""
    plan = Plan()
    relays = [plan.choice()[0] for _ in range(8)]
    plan.next_unit()
    for i in range(size):
        seen = [relays[place % len(relays)] for place in (i, i + 1, i + 3, i + 4, i + 6)]
        most = plan.table(seen, lambda ups: sum(ups) >= 3)
        relays.append(plan.atom())
        plan.rule([relays[-1]], uses=[(most, True)])
    plan.rule((), (), [relays[-1]])
    return plan


def decoder(size):
    """`size` address keys and up to sixteen outputs with a table each: output j is up at address j, and its idle contact elsewhere."""
    plan = Plan()
    keys = [plan.choice()[0] for _ in range(size)]
    for j in range(min(1 << size, MAX_TABLES)):
        if j % 2 == 0 and plan.units < MAX_UNITS:
            plan.next_unit()
        address = plan.table(keys, lambda ups: all(up == bool(j >> k & 1) for k, up in enumerate(ups)))
        output, idle = plan.atom(), plan.atom()
        plan.rule([output], uses=[(address, True)])
        plan.rule([idle], uses=[(address, False)])
    return plan


def saturated_choices(size):
    """`size` choices, and seven pairs that are all up wherever random terms over both leave them no way out: choices that leave one fail in the
    subset test alone."""
    plan = Plan()
    draw = random.Random("saturated choices, %d" % size)
    choices = [plan.choice() for _ in range(size)]
    pairs = [plan.choice() for _ in range(7)]
    top = plan.atom()
    for _ in range(24 + size % 5):
        term = draw.sample(choices, 1) + draw.sample(pairs, 2)
        plan.rule([top], [draw.choice(pair) for pair in term])
    for atom in itertools.chain(*pairs):
        plan.rule([atom], [top])
    plan.rule((), (), [top])
    return plan


def regular_graph(draw, nodes, degree):
    """The edges of a random graph in which each node has `degree` neighbours."""
    while True:
        ends = [node for node in range(nodes) for _ in range(degree)]
        draw.shuffle(ends)
        edges = {tuple(sorted(pair)) for pair in zip(ends[::2], ends[1::2])}
        if len(edges) == nodes * degree // 2 and all(a != b for a, b in edges):
            return sorted(edges)


def parity_graph(size):
    """A key on each edge of a random graph of `size` nodes and degree 4; by a table at each node an odd number of its keys must be up at the first, an
    even number at the others: no position, since each key is at two nodes."""
    plan = Plan()
    never = plan.atom()
    edges = regular_graph(random.Random("parity graph, %d" % size), size, 4)
    keys = [plan.choice()[0] for _ in edges]
    for node in range(size):
        odd = plan.table([key for key, edge in zip(keys, edges) if node in edge], lambda ups: sum(ups) % 2)
        plan.rule((), (), [never], uses=[(odd, node != 0)])
    return plan


def bank(plan, inputs, answer):
    """A table over as many new keys, each one of a choice."""
    return plan.table([plan.choice()[0] for _ in range(inputs)], answer)


def hidden_functions(size):
    """`size` banks of five keys, of which an odd number is up or the first two are; every combination of their answers is ruled out: no position."""
    plan = Plan()
    never = plan.atom()
    banks = [bank(plan, 5, lambda ups: sum(ups) % 2 or (ups[0] and ups[1])) for _ in range(size)]
    for answers in itertools.product([False, True], repeat=size):
        plan.rule((), (), [never], uses=list(zip(banks, answers)))
    return plan


def hidden_clauses(size):
    """`size` banks of six keys with random answers, and constraints of three of them at random until no combination is left: no position."""
    plan = Plan()
    never = plan.atom()
    draw = random.Random("hidden clauses, %d" % size)
    banks = [bank(plan, 6, lambda ups: draw.random() < 0.5) for _ in range(size)]
    left = list(itertools.product([False, True], repeat=size))
    while left:
        out = draw.choice(left)
        chosen = sorted(draw.sample(range(size), 3))
        plan.rule((), (), [never], uses=[(banks[i], out[i]) for i in chosen])
        left = [answers for answers in left if any(answers[i] != out[i] for i in chosen)]
    return plan


def pebbles(size):
    """A pyramid of `size` rows of banks of two keys, which answer where one is up: the lowest must, each other must where the two below it do, and the
    topmost must not: no position."""
    plan = Plan()
    never = plan.atom()
    below = [bank(plan, 2, any) for _ in range(size)]
    for lowest in below:
        plan.rule((), (), [never], uses=[(lowest, False)])
    while len(below) > 1:
        row = [bank(plan, 2, any) for _ in below[1:]]
        for i, above in enumerate(row):
            plan.rule((), (), [never], uses=[(below[i], True), (below[i + 1], True), (above, False)])
        below = row
    plan.rule((), (), [never], uses=[(below[0], True)])
    return plan


# Three families that no setting was picked on: they were drawn once, after all settings were fixed.


def routes(size):
    """`size` stations, a choice of one of two lines out of each, at random; the last two must be reached from the first. Stations may reach each
    other in a ring."""
    plan = Plan()
    draw = random.Random("routes, %d" % size)
    reached = [plan.atom() for _ in range(size)]
    plan.rule([reached[0]])
    for i in range(size):
        lines = [plan.atom(), plan.atom()]
        plan.rule(lines)
        for line, to in zip(lines, draw.sample([j for j in range(size) if j != i], 2)):
            plan.rule([reached[to]], [reached[i], line])
    for station in reached[-2:]:
        plan.rule((), (), [station])
    return plan


def strategic_sets(size):
    """`size` firms; each of as many goods is made by one of two or three at random, and some firms are held by two others together: smallest sets of
    firms, of which a random firm must be one."""
    plan = Plan()
    draw = random.Random("strategic sets, %d" % size)
    firms = [plan.atom() for _ in range(size)]
    for _ in range(size):
        plan.rule(draw.sample(firms, draw.choice([2, 2, 3])))
    for _ in range(size // 2):
        held, *holders = draw.sample(firms, 3)
        plan.rule([held], holders)
    plan.rule((), (), [draw.choice(firms)])
    return plan


def random_clauses(size):
    """`size` choices and 64 - `size` constraints of three at random: some 2.4 to 4.3 for each choice."""
    plan = Plan()
    draw = random.Random("random clauses, %d" % size)
    keys = [contact(plan.choice()[0]) for _ in range(size)]
    for _ in range(MAX_RULES - size):
        bodies = [draw.choice(key) for key in draw.sample(keys, 3)]
        plan.rule((), sum((body[0] for body in bodies), []), sum((body[1] for body in bodies), []))
    return plan


FAMILIES = {
    latches: range(2, 19, 4),
    mutual_exclusion: range(4, 41, 9),
    chain: range(3, 32, 7),
    adder: range(2, 13, 3),
    diamonds: range(1, 6),
    wide_unit: [4, 8, 12, 16, 20, 26],
    joined_lists: range(2, 9),
    free_choices: range(2, 11),
    saturation: range(3, 16, 4),
    saturated_choices: range(4, 15),
    odd_loops: range(3, 22, 6),
    even_ring: range(4, 33, 7),
    holding_loops: range(4, 33, 7),
    pigeonholes: range(2, 5),
    tracks_to_fill: range(4, 9),
    busy_keys: range(5, 12, 2),
    trains_in_turn: range(4, 8),
    counted_trains: range(4, 8),
    full_tracks: range(2, 8),
    parity: range(2, 17, 3),
    parity_cut: range(2, 15, 3),
    odd_and_even: [6, 8, 10, 12, 13],
    odd_and_even_pairs: range(6, 15, 2),
    odd_and_even_tables: range(6, 17, 2),
    parity_graph: range(8, 16),
    hidden_functions: range(2, 6),
    hidden_clauses: range(3, 6),
    pebbles: range(2, 6),
    majority: range(2, 17, 3),
    decoder: range(1, 7),
    free_helpers: range(0, 25, 4),
    helpers_of_keys: range(0, 25, 4),
    relays_of_helpers: range(8, 25, 4),
    routes: range(6, 17, 2),
    strategic_sets: range(8, 29, 4),
    random_clauses: [12, 13, 14, 15, 16, 18],
}


def main(folder):
    os.makedirs(folder, exist_ok=True)
    for family, sizes in FAMILIES.items():
        for size in sizes:
            plan = family(size)
            if not plan.fits():
                sys.exit("%s of size %d does not fit into a plan" % (family.__name__, size))
            name = os.path.join(folder, "%s-%02d" % (family.__name__.replace("_", "-"), size))
            with open(name + ".plan", "wb") as file:
                file.write(plan.plan_bytes())
            with open(name + ".lp", "w") as file:
                file.write(plan.clingo_text())


if __name__ == "__main__":
    arguments = sys.argv[1:]
    if "-h" in arguments or "--help" in arguments:
        print(__doc__)
        sys.exit()
    if len(arguments) != 1 or arguments[0].startswith("-"):
        sys.exit(__doc__)
    main(arguments[0])
