"""Holds the route report, the grid and the gate report to the information flows that SETools finds.

Usage: flows.py PROGRAM [SEED], from the root; PROGRAM is tests/routes.c, built.
Each setup has a process at every desk and a file of every class. Its rights, as the allow statements of a policy, give
SETools the flows desk, class, desk; two steps are a link. For a gate SETools excludes the type of that desk, which ends
the flows from it and to it and no other: each class is a type of its own.
Its last line is 'N passed, M failed'.
"""
import collections
import functools
import itertools
import os
import random
import subprocess
import sys
import tempfile

import setools

# The most of each thing in a setup.
DESKS, CLASSES, PROCESSES, FILES = 16, 16, 64, 32
R, W = 1, 2

# The program is for x86-64, so that it needs the kit's loader or emulator.
RUN = ['bash', '-c', '. bin/toolchain.sh && find_kit && run_c "$0"']

# How many setups of each kind.
MIXED, SPARSE, BENT, CROSSED = 100, 200, 200, 60
SEED = 1

# What is counted, and how many there must be of each number of links. A triple is two desks and a gate.
LEAST = {
    'pairs by links, 0 for no route':
        dict(enumerate([30000, 6000, 5000, 4000, 2500, 1500, 1000, 800, 500, 300, 150, 80, 40, 15, 5, 1])),
    'triples guarded though there is a route, by its links':
        dict(enumerate([300, 500, 550, 500, 450, 400, 300, 250, 200, 150, 100, 60, 30, 10], 2)),
    'triples not guarded, by links':
        dict(enumerate([4000, 3000, 2000, 1500, 1000, 800, 500, 400, 250, 150, 90, 45, 15, 3], 1)),
    'triples not guarded with more links than the route has, by links':
        dict(enumerate([20, 50, 65, 75, 80, 75, 60, 45, 30, 18, 8, 1], 3)),
}
PAIRS, GUARDED, UNGUARDED, LONGER = LEAST

# The desks of the chain whose policy is spoilt.
EYED = 8

# All of the policy but its types and rights. A read is a flow to the desk, a write is one from it. SETools loads no
# policy without a rule, so there is one that is no flow.
HEAD = 'class sheet\nsid kernel\nclass sheet { read write idle }\n'
TAIL = 'allow desk0 desk0:sheet idle;\nrole r;\nrole r types desk0;\nuser u roles r;\nsid kernel u:r:desk0\n'
MAP = '1\nclass sheet 3\nread r 10\nwrite w 10\nidle n 1\n'
PERMISSIONS = {R: 'read', W: 'write', R | W: '{ read write }'}

# Rights go by desk and class; a pair that is not there has none. The gates are the desks that are asked about as gates:
# SETools would take minutes for all desks of all setups.
Setup = collections.namedtuple('Setup', 'desks classes rights desk_of class_of gates', defaults=[()])

# What the program says of a setup, in the order of its lines.
Said = collections.namedtuple('Said', 'report grid gate')


# ---- Setups.

def give(rights, desk, kind, right):
    rights[desk, kind] = rights.get((desk, kind), 0) | right


def owners(rng, count, most):
    """Each number below a count, at least once, in any order."""
    extra = rng.choices(range(count), k=rng.randint(0, most - count))
    return rng.sample([*range(count), *extra], count + len(extra))


def setup_of(rng, desks, classes, rights):
    return Setup(desks, classes, rights, owners(rng, desks, PROCESSES), owners(rng, classes, FILES))


def mixed(rng):
    """Any counts, and from no right at all to nearly every one, more often few."""
    desks, classes = rng.randint(2, DESKS), rng.randint(1, CLASSES)
    rights, chance = {}, rng.random() ** 3
    for desk, kind, right in itertools.product(range(desks), range(classes), (R, W)):
        if rng.random() < chance:
            give(rights, desk, kind, right)
    return setup_of(rng, desks, classes, rights)


def sparse(rng):
    """Nearly all desks and classes; each desk reads one or two classes and writes one or two."""
    desks, classes = rng.randint(DESKS - 4, DESKS), rng.randint(CLASSES - 4, CLASSES)
    rights = {}
    for desk, right in itertools.product(range(desks), (R, W)):
        for kind in rng.choices(range(classes), k=rng.choice((1, 1, 1, 2))):
            give(rights, desk, kind, right)
    return setup_of(rng, desks, classes, rights)


def line(rng, desks):
    """A chain through all desks, each link by a class of its own."""
    classes, rights = rng.randint(desks - 1, CLASSES), {}
    order, kinds = rng.sample(range(desks), desks), rng.sample(range(classes), desks - 1)
    for desk, after, kind in zip(order, order[1:], kinds):
        give(rights, desk, kind, W)
        give(rights, after, kind, R)
    return setup_of(rng, desks, classes, rights)


def bent(rng):
    """A long chain, with a few rights more or less that shorten it, turn back, or break it."""
    setup = line(rng, rng.randint(DESKS - 6, DESKS))
    for _ in range(rng.randint(1, 5)):
        desk, kind = rng.randrange(setup.desks), rng.randrange(setup.classes)
        give(setup.rights, desk, kind, rng.choice((R, W)))
    if rng.random() < 0.3:
        del setup.rights[rng.choice(list(setup.rights))]
    return setup


def crossed(rng):
    """A long chain, and a gate beside it with links from and to some of its desks, which shorten it and lead back."""
    desks = rng.randint(DESKS - 6, DESKS)
    chain, gate = line(rng, desks - 1), rng.randrange(desks)
    rights = {(desk + (desk >= gate), kind): right for (desk, kind), right in chain.rights.items()}
    for right in (R, W):
        for kind in rng.sample(range(chain.classes), rng.randint(2, 4)):
            give(rights, gate, kind, right)
    return setup_of(rng, desks, chain.classes, rights)._replace(gates=[gate])


def every_gate(setup):
    return setup._replace(gates=range(setup.desks))


def one_gate_or_none(rng, setup):
    return setup._replace(gates=rng.sample(range(setup.desks), rng.randint(0, 1)))


def all_setups(rng):
    lines = [line(rng, desks) for desks in range(2, DESKS + 1)]
    others = [make(rng) for make, count in ((mixed, MIXED), (sparse, SPARSE), (bent, BENT)) for _ in range(count)]
    return [*map(every_gate, lines), *(one_gate_or_none(rng, setup) for setup in others),
            *(crossed(rng) for _ in range(CROSSED))]


# ---- The answers: for each place, a pair of desks or a triple, the links, 0 for none. Places are in the order of the
# program's lines.

def pairs_of(setup, gate=None):
    return itertools.permutations([desk for desk in range(setup.desks) if desk != gate], 2)


def triples_of(setup):
    return [(a, b, gate) for gate in setup.gates for a, b in pairs_of(setup, gate)]


def lines_of(program, setups):
    """What the program says of all setups, in one run, since a program is slow to start under an emulator."""
    text = ''
    for s in setups:
        rights = [s.rights.get(place, 0) for place in itertools.product(range(s.desks), range(s.classes))]
        counts = [s.desks, s.classes, len(s.desk_of), len(s.class_of)]
        text += ' '.join(map(str, [*counts, *rights, *s.desk_of, *s.class_of, len(s.gates), *s.gates])) + '\n'
    said = subprocess.run([*RUN, program], input=text, stdout=subprocess.PIPE, text=True, check=True).stdout
    return said.splitlines()


def by_place(places, numbers):
    return dict(zip(places, map(int, numbers.split()), strict=True))


def said_of(setups, lines):
    """What is said of each setup; the grid has each desk with itself too."""
    return [Said(by_place(pairs_of(s), report),
                 by_place(itertools.product(range(s.desks), repeat=2), grid),
                 by_place(triples_of(s), gate))
            for s, report, grid, gate in zip(setups, lines[::3], lines[1::3], lines[2::3], strict=True)]


def policy_of(setup):
    types = [f'type desk{d};\n' for d in range(setup.desks)] + [f'type class{c};\n' for c in range(setup.classes)]
    rules = [f'allow desk{d} class{c}:sheet {PERMISSIONS[right]};\n' for (d, c), right in setup.rights.items()]
    return HEAD + ''.join(types + rules) + TAIL


def links_of(path):
    """Half the steps of a flow, which must go desk, class, desk and come nowhere twice."""
    steps = list(path)
    names = [str(steps[0].source)] + [str(step.target) for step in steps]
    kinds = ''.join(name[0] for name in names)
    if kinds != 'dc' * (len(steps) // 2) + 'd' or len(set(names)) < len(names):
        raise ValueError(f'a flow that goes {names}')
    return len(steps) // 2


def shortest(analysis, a, b):
    return sum(links_of(path) for path in analysis.shortest_path(f'desk{a}', f'desk{b}'))


def flowing(room, setup):
    """What SETools finds in the setup's policy, from desk to desk and then around each gate."""
    source, binary = os.path.join(room, 'policy.conf'), os.path.join(room, 'policy')
    with open(source, 'w') as file:
        file.write(policy_of(setup))
    subprocess.run(['checkpolicy', '-o', binary, source], stdout=subprocess.DEVNULL, check=True)
    analysis = setools.InfoFlowAnalysis(setools.SELinuxPolicy(binary), setools.PermissionMap(os.path.join(room, 'map')))
    found = {pair: shortest(analysis, *pair) for pair in pairs_of(setup)}
    for gate in setup.gates:
        analysis.exclude = [f'desk{gate}']
        found.update({(*pair, gate): shortest(analysis, *pair) for pair in pairs_of(setup, gate)})
    return found


def unlike(said, flows):
    """Each of the three that differs from SETools, with the places that it differs on: its links, and those due.

    SETools is asked for no flow from a desk to itself; 0 is due there."""
    due = {**flows, **{(desk, desk): 0 for desk, *_ in flows}}
    found = {name: {place: (links, due[place]) for place, links in numbers.items() if links != due[place]}
             for name, numbers in said._asdict().items()}
    return {name: places for name, places in found.items() if places}


def differences(program, room, setup, spoil=lambda setup: setup):
    """What is unlike for a setup; the policy can be of another."""
    return unlike(*said_of([setup], lines_of(program, [setup])), flowing(room, spoil(setup)))


# ---- What is shown of a difference.

def without(setup, place, right):
    rights = {**setup.rights, place: setup.rights.get(place, 0) & ~right}
    return setup._replace(rights={place: right for place, right in rights.items() if right})


def cut_down(differ, setup):
    """Drops one right after the other, as long as there is still a difference."""
    for place, right in itertools.product(setup.rights, (R, W)):
        less = without(setup, place, right)
        if less != setup and differ(less):
            setup = less
    return setup


def show(program, room, name, setup):
    least = cut_down(lambda less: name in differences(program, room, less), setup)
    print(f'setools: the first setup that the {name} differs on, cut down:')
    print(f'    {least.desks} desks, {least.classes} classes')
    print(f'    desks of the processes {least.desk_of}, classes of the files {least.class_of}')
    for (desk, kind), right in least.rights.items():
        print(f'    desk {desk} on class {kind}: {PERMISSIONS[right]}')
    for (a, b, *gate), (links, due) in differences(program, room, least)[name].items():
        way = f'from desk {a} to desk {b}' + ''.join(f' around desk {desk}' for desk in gate)
        print(f'    {way}: the {name} has {links} links and not {due}; 0 is no route, -1 no answer')


# ---- The checks: each one's text, and whether it holds.

def kinds_of(flows):
    """What each pair and each triple is counted as, and by which links."""
    for place, links in flows.items():
        route = flows[place[:2]]
        if len(place) == 2:
            yield PAIRS, links
        elif links > 0:
            yield UNGUARDED, links
        elif route > 0:
            yield GUARDED, route
        if links > route:
            yield LONGER, links


def enough(counts):
    for kind, least in LEAST.items():
        few = [links for links in least if counts[kind, links] < least[links]]
        text = ', '.join(f'{links}: {counts[kind, links]}' for links in least)
        yield f'{kind}: {text}' + (f'; too few of {few}' if few else ''), not few


def agree(program, room, setups):
    counts, places, differing = collections.Counter(), collections.Counter(), {name: [] for name in Said._fields}
    for setup, said in zip(setups, said_of(setups, lines_of(program, setups)), strict=True):
        flows = flowing(room, setup)
        counts.update(kinds_of(flows))
        places.update(map(len, flows))
        for name in unlike(said, flows):
            differing[name].append(setup)
    for name, some in differing.items():
        if some:
            show(program, room, name, some[0])
        asked = f'{places[3]} triples' if name == 'gate' else f'{places[2]} pairs'
        yield f'{len(setups)} setups, {asked} of desks: the {name} differs on {len(some)} setups', not some
    yield from enough(counts)


def seen_by_all(program, room, setup, spoil):
    """How many pairs all three differ on where the policy is of another setup, the gate with some gate at least."""
    found = differences(program, room, setup, spoil)
    return len(set.intersection(*({place[:2] for place in found.get(name, ())} for name in Said._fields)))


def see_policies(program, room, whole):
    """A policy that is not the setup's must be seen, and be cut down to the one link that it is about."""
    (first, _), *_, (_, last) = whole.rights  # in the order of the chain, each R or W alone
    drops = [functools.partial(without, place=place, right=right) for place, right in whole.rights.items()]
    seen = sum(seen_by_all(program, room, whole, drop) > 0 for drop in drops)
    yield f'with a right of a chain dropped from the policy, {seen} of {len(drops)} seen', seen == len(drops)
    added = seen_by_all(program, room, whole, lambda s: s._replace(rights={**s.rights, (first, last): W}))
    yield f'with a right added that shortens the chain, {added} pairs seen', added > 0
    turned = seen_by_all(program, room, whole, lambda s: s._replace(rights={k: R + W - v for k, v in s.rights.items()}))
    yield f'with reads for writes and writes for reads, {turned} pairs seen', turned > 0
    least = cut_down(lambda less: seen_by_all(program, room, less, drops[0]), whole).rights
    alone = len({kind for _, kind in least}) == 1 and sorted(least.values()) == [R, W]
    yield f'with a right dropped, the setup is cut down to {len(least)} rights', alone


def without_desk(setup, desk):
    return setup._replace(rights={place: right for place, right in setup.rights.items() if place[0] != desk})


def see_struck_desks(program, room, whole):
    """A policy without a desk's rights must be seen, but not at the gate that this desk is."""
    seen = 0
    for desk in whole.gates:
        found = differences(program, room, whole, functools.partial(without_desk, desk=desk))
        gates = {gate for _, _, gate in found.get('gate', ())}
        seen += 'report' in found and len(gates) > 0 and desk not in gates
    text = f'with a desk left without rights in the policy, {seen} of {len(whole.gates)} seen, and at other gates alone'
    yield text, seen == len(whole.gates)


def see_idle_gates(program, room, whole):
    """A gate that says what the report says, as if it were passed, must be seen."""
    said, flows = *said_of([whole], lines_of(program, [whole])), flowing(room, whole)
    idle = said._replace(gate={place: said.report[place[:2]] for place in said.gate})
    seen = len(unlike(idle, flows).get('gate', ()))
    yield f'with a gate that says what the report says, {seen} triples seen', seen > 0


def spoilt(lines, at):
    """Each way to have one link more in one place of one line."""
    numbers = lines[at].split()
    for place, number in enumerate(numbers):
        other = [*numbers[:place], str(int(number) + 1), *numbers[place + 1:]]
        yield [*lines[:at], ' '.join(other), *lines[at + 1:]]


def see_numbers(program, room, whole):
    """A number of one line that is not the program's must be seen, and in that line alone."""
    lines, flows = lines_of(program, [whole]), flowing(room, whole)
    was = unlike(*said_of([whole], lines), flows)
    for at, name in enumerate(Said._fields):
        now = [unlike(*said_of([whole], other), flows) for other in spoilt(lines, at)]
        moved = [[some for some in Said._fields if found.get(some) != was.get(some)] for found in now]
        seen = moved.count([name])
        yield f'with a link more in the {name} alone, {seen} of {len(now)} seen there alone', 0 < seen == len(now)


def see(program, room, rng):
    whole = every_gate(line(rng, EYED))
    yield from see_policies(program, room, whole)
    yield from see_struck_desks(program, room, whole)
    yield from see_idle_gates(program, room, whole)
    yield from see_numbers(program, room, whole)


def main(program, seed=SEED):
    rng, verdicts = random.Random(int(seed)), []
    print(f'setools: seed {seed}')
    with tempfile.TemporaryDirectory() as room:
        with open(os.path.join(room, 'map'), 'w') as file:
            file.write(MAP)
        for text, holds in itertools.chain(agree(program, room, all_setups(rng)), see(program, room, rng)):
            print(f'setools: {text}' + ('' if holds else ': FAILED'))
            verdicts.append(holds)
    print(f'{verdicts.count(True)} passed, {verdicts.count(False)} failed')
    return 0 if all(verdicts) else 1


if __name__ == '__main__':
    sys.exit(main(*sys.argv[1:]))
