"""The lines of a derivation as numbers (coq/Decoder.v)."""

import check_derivation as checker


def literal_number(literal):
    """A literal 2 t or 2 t + 1 of the checker, for the term t or its negation, as the decoder reads it."""
    return 2 * ((literal >> 1) + 1) + (1 - (literal & 1))


def literals(clause):
    return [len(clause) + 1] + [literal_number(literal) for literal in clause]


def numbers(items):
    return [len(items) + 1] + [item + 1 for item in items]


STEP_CODES = {checker.refl: 2, checker.sym: 3, checker.trans: 4, checker.cong: 5, checker.inject: 6, checker.select: 7, checker.test: 8,
              checker.expand: 9, checker.equal_in: 10, checker.equal_out: 11, checker.negate: 12, checker.single: 13}
GATE_CODES = {b"true": [2], b"false": [3], b"and-pos": [4], b"and-neg": [5], b"or-pos": [6], b"or-neg": [7], b"then": [10], b"else": [11]}
GATE_WORDS = {rule: word for word, (_, rule) in checker.GATES.items()}


NO_LINE = 2**62


def step_numbers(rule, parts):
    """The numbers of the step of a line."""
    if rule is checker.by_input:
        return [1, parts[0] + 1]
    if rule is checker.by_exhaust:
        return [12, parts[0] + 1]
    if rule is checker.by_learn:
        return [13, len(parts) + 1] + [hint or NO_LINE for hint in parts]
    if rule is checker.by_theory:
        steps, close, entries = parts
        text = [14, len(steps) + 1]
        for step, values in steps:
            text += equality_numbers(step, values)
        return text + closing_numbers(close, entries)
    word = GATE_WORDS[rule]
    if word[:4] in (b"iff-", b"ite-"):
        return [8 if word[:3] == b"iff" else 9, parts[0] + 1, int(word[4:])]
    return GATE_CODES[word] + [part + 1 for part in parts]


def closing_numbers(close, entries):
    if close is checker.clash:
        return [1, entries[0] + 1]
    return [2, len(entries) + 1] + [part + 1 for entry in entries for part in entry]


def equality_numbers(step, values):
    if step is checker.hyp:
        return [1, literal_number(values[0])]
    if step is checker.cong:
        return [5, values[0] + 1, values[1] + 1] + numbers(values[2:])
    if step is checker.unique:
        pair, pairs = values
        text = [14, pair + 1, len(pairs) + 1]
        for left, right, entries in pairs:
            text += [left + 1, right + 1, len(entries) + 1]
            for entry in entries:
                text += [1, entry + 1] if type(entry) is int else [2] + [part + 1 for part in entry]
        return text
    return [STEP_CODES[step]] + [value + 1 for value in values]
