"""Clauses with hints, as a certificate has them, from a proof in the DRAT format: each hint is found by unit propagation. Clauses
that a solver deletes are kept, those of a proof that don't follow by propagation alone are left out, and so are those that the
empty clause doesn't need. A literal that is true whatever is assumed gets a clause of its own once it is needed, so that hints
stay short."""
import collections

Step = collections.namedtuple("Step", "literals hints")


def read_clauses(text):
    """The clauses of a formula in the DIMACS format, or those that a proof adds."""
    lines = (line.split() for line in text.splitlines() if line and line[0] not in "cpd")
    return [[int(word) for word in words[:-1]] for words in lines]


class Propagation:
    """Clauses, each watched at two of its literals, and the literals that are true by them: for good, or while some are assumed."""

    def __init__(self):
        self.clauses, self.watching = [], collections.defaultdict(list)
        self.true, self.reasons, self.trail, self.done = set(), {}, [], 0

    def is_false(self, literal):
        return -literal in self.true

    def enqueue(self, literal, reason):
        self.true.add(literal)
        self.reasons[literal] = reason
        self.trail.append(literal)

    def add(self, literals):
        """Adds a clause, whose place it gives, while nothing is assumed. It is watched where it isn't false."""
        place, literals = len(self.clauses), sorted(set(literals), key=self.is_false)
        self.clauses.append(literals)
        for literal in literals[:2]:
            self.watching[literal].append(place)
        return place

    def other_watch(self, place, literal):
        """Watches a clause elsewhere than at this literal, which is false; whether it could."""
        clause = self.clauses[place]
        if clause[0] == literal:
            clause[0], clause[1] = clause[1], clause[0]
        if clause[0] in self.true:
            return False
        for at in range(2, len(clause)):
            if -clause[at] not in self.true:
                clause[1], clause[at] = clause[at], clause[1]
                self.watching[clause[1]].append(place)
                return True
        return False

    def visit(self, literal):
        """Goes through the clauses watched at a literal that is false: the place of one that is false, if there is one."""
        watching, kept, conflict = self.watching[literal], [], None
        for place in watching:
            if conflict is None and len(self.clauses[place]) > 1 and self.other_watch(place, literal):
                continue
            kept.append(place)
            first = self.clauses[place][0]
            if conflict is None and first not in self.true:
                if -first in self.true:
                    conflict = place
                else:
                    self.enqueue(first, place)
        self.watching[literal] = kept
        return conflict

    def propagate(self):
        while self.done < len(self.trail):
            self.done += 1
            conflict = self.visit(-self.trail[self.done - 1])
            if conflict is not None:
                return conflict
        return None

    def settle(self, place):
        """Makes true what is true for good with a new clause; the place of a clause that is false, if there is one."""
        clause = self.clauses[place]
        if not clause or -clause[0] in self.true:
            return place
        if clause[0] not in self.true and (len(clause) == 1 or -clause[1] in self.true):
            self.enqueue(clause[0], place)
        return self.propagate()

    def forget(self, count):
        """Takes back all literals but so many."""
        for literal in self.trail[count:]:
            self.true.discard(literal)
            del self.reasons[literal]
        del self.trail[count:]
        self.done = count


class Logged:
    """The log of a proof: for each clause its number there, and the steps behind those of the formula."""

    def __init__(self, formula):
        self.found, self.steps = Propagation(), []
        self.count, self.numbers, self.units = len(formula), [], {}
        self.conflict = None
        for literals in formula:
            self.number_next(literals, len(self.numbers) + 1)

    def number_next(self, literals, number):
        self.numbers.append(number)
        place = self.found.add(literals)
        if self.conflict is None:
            self.conflict = self.found.settle(place)

    def put(self, literals, hints):
        self.steps.append(Step(sorted(literals, key=abs), hints))
        return self.count + len(self.steps)

    def unit(self, literal):
        """The number of the clause of a literal that is true for good, whose reasons have clauses of their own before it."""
        ahead = [literal]
        while ahead:
            top = ahead[-1]
            clause = self.found.clauses[self.found.reasons[top]]
            missing = [-other for other in clause if other != top and -other not in self.units]
            if top in self.units or not missing:
                ahead.pop()
                self.put_unit(top, clause)
            else:
                ahead += missing
        return self.units[literal]

    def put_unit(self, literal, clause):
        if literal not in self.units:
            number = self.numbers[self.found.reasons[literal]]
            others = [self.units[-other] for other in clause if other != literal]
            self.units[literal] = self.put([literal], others + [number]) if others else number

    def reached(self, conflict, kept):
        """The literals by whose clauses a conflict comes, those behind so many of the trail in their order, and the others."""
        needed = {-literal for literal in self.found.clauses[conflict]}
        since = []
        for literal in reversed(self.found.trail[kept:]):
            if literal in needed and self.found.reasons[literal] is not None:
                since.append(literal)
                needed.update(-other for other in self.found.clauses[self.found.reasons[literal]] if other != literal)
        return since[::-1], [literal for literal in self.found.trail[:kept] if literal in needed]

    def hints(self, conflict, kept):
        since, before = self.reached(conflict, kept)
        return ([self.unit(literal) for literal in before]
                + [self.numbers[self.found.reasons[literal]] for literal in since] + [self.numbers[conflict]])

    def add(self, literals):
        """Adds a clause of the proof, if it follows and says something new."""
        found, kept = self.found, len(self.found.trail)
        if any(literal in found.true for literal in literals):
            return
        literals = [literal for literal in literals if not found.is_false(literal)]
        for literal in literals:
            found.enqueue(-literal, None)
        conflict = found.propagate()
        hints = None if conflict is None else self.hints(conflict, kept)
        found.forget(kept)
        if hints:
            self.number_next(literals, self.put(literals, hints))


def needed_steps(steps, count):
    """The places of the steps that the last one needs."""
    needed = {len(steps) - 1}
    for place in reversed(range(len(steps))):
        if place in needed:
            needed.update(hint - count - 1 for hint in steps[place].hints if hint > count)
    return sorted(needed)


def trimmed(steps, count):
    places = needed_steps(steps, count)
    numbers = {count + 1 + place: count + 1 + at for at, place in enumerate(places)}
    return [Step(steps[place].literals, [numbers.get(hint, hint) for hint in steps[place].hints]) for place in places]


def refutation(formula, proof):
    """Steps that end in the empty clause, or None where the proof gives none."""
    log = Logged(formula)
    for literals in proof:
        if log.conflict is not None:
            break
        log.add(literals)
    if log.conflict is None:
        return None
    log.put([], log.hints(log.conflict, len(log.found.trail)))
    return trimmed(log.steps, log.count)


def line_of(step):
    return " ".join(["c", *map(str, step.literals), "0", *map(str, step.hints), "0"])
