"""The terms and the lines of a derivation in Coq, and the theorem."""

import itertools
import re

import check_derivation as checker

from theorems.declarations import apply, listed
from theorems.expressions import Apply, Call, Definition, Match, Quantifier, Reader, Variable
from theorems.formulas import FormulaWriter
from theorems.numbers import literals, step_numbers


OPERATORS = {checker.NOT: "not", checker.AND: "and", checker.OR: "or", checker.IFF: "iff", checker.EQUAL: "=", checker.ITE: "ite"}
HEADS = {text: head for head, text in OPERATORS.items()}
HEAD = """(** Written by tools/to_coq.py. The theorem `unsat` stands at the end: its hypotheses are the assertions of the script, for all sorts,
    functions and constants, and for all values of selectors that are applied to values of other constructors. *)

(** The terms and the lines of the derivation, as coq/Decoder.v reads them. *)
"""


def comment(label):
    """A label inside a comment: nothing ends there, and no string begins."""
    return re.sub(r'[*"]', "_", label.decode("utf-8", "replace"))


class Writer(FormulaWriter):
    """Writes the file."""

    def __init__(self, derivation, abstract, decoded, core):
        super().__init__(derivation, abstract)
        self.decoded = decoded
        self.core_only = core
        self.reader = Reader(self.script, self.names, self.define)
        self.read_terms = {}
        self.evaluated_calls = {}

    # Terms

    def term(self, number):
        return self.own(number, "term", "t%d" % number)

    def terms(self):
        derivation = self.derivation
        self.called = self.calls()
        for number, head in enumerate(derivation.heads):
            text = self.called.get(number) or self.term_text(head, derivation.under[number])
            self.emit("Definition %s : %s := %s." % (self.term(number), self.sort(derivation.sorts[number]), text))
        self.map("values", "Declarations.value", {
            number + 1: "(%s %s)" % (self.of_sort(sort, "value"), self.term(number)) for number, sort in enumerate(derivation.sorts)})

    def term_text(self, head, under):
        names = [self.term(part) for part in under]
        if head == checker.EQUAL:
            return apply(self.of_sort(self.derivation.sorts[under[0]], "eqb"), names)
        return self.over(OPERATORS.get(head, head), names, None)

    def calls(self):
        """The texts of terms that definitions give, by their numbers: so a definition over terms is a term by its name, and Coq
        need not compare what it stands for, however often it does."""
        count = len(self.derivation.heads)
        texts = {}
        for (definition, *under), number in self.evaluated_calls.items():
            if number is not None and number < count and number not in texts and all(part is not None and part < number for part in under):
                texts[number] = apply(definition.core or definition.name, [self.term(part) for part in under])
        return texts

    def number(self, node, values):
        """The number of the term that an expression is, where its variables are these terms; None where it is none of the derivation
        and its assertions."""
        if type(node) is Variable:
            return values[node.name]
        if type(node) is Call:
            under = [self.number(part, values) for part in node.under]
            key = (node.definition, *under)
            if key not in self.evaluated_calls:
                names = [name for name, _ in node.definition.parameters]
                self.evaluated_calls[key] = self.number(node.definition.body, dict(zip(names, under)))
            return self.evaluated_calls[key]
        if type(node) is Match:
            return self.number_of_match(node, values)
        if type(node) is Quantifier:
            return self.number_of_quantifier(node, values)
        under = [self.number(part, values) for part in node.under]
        if node.head == "=>":
            return self.key(checker.OR, self.key(checker.NOT, under[0]), under[1])
        return self.key(HEADS.get(node.head, node.head), *under)

    def key(self, head, *under):
        return self.derivation.numbers.get((head, *under))

    def number_of_match(self, node, values):
        subject = self.number(node.subject, values)
        number = None
        for constructor, names, body in reversed(node.cases):
            fields = [subject] if constructor is None else [self.key(selector, subject) for selector in constructor.selectors]
            case = self.number(body, {**values, **dict(zip(names, fields))})
            number = case if body is node.cases[-1][2] else self.key(checker.ITE, self.key(constructor.tester, subject), case, number)
        return number

    def number_of_quantifier(self, node, values):
        numbers = []
        for chosen in itertools.product(*[self.numbers_of_sort(sort) for _, sort in node.variables]):
            names = [name for name, _ in node.variables]
            numbers.append(self.number(node.body, {**values, **dict(zip(names, chosen))}))
        return numbers[0] if len(numbers) == 1 else self.key(checker.AND if node.word == b"forall" else checker.OR, *numbers)

    def numbers_of_sort(self, sort):
        """The numbers of the terms that are all values of a sort."""
        return [self.key(constructor, *under) for constructor in sort.constructors
                for under in itertools.product(*map(self.numbers_of_sort, constructor.arguments))]

    def moved(self):
        """The numbers in the derivation of the terms of the script."""
        moved = []
        for head, *under in self.script.terms.numbers:
            moved.append(self.derivation.numbers[(head, *[moved[part] for part in under])])
        return moved

    # The derivation, in numbers

    def data(self):
        rows = [len(self.derivation.heads) + 1]
        for head, under in zip(self.derivation.heads, self.derivation.under):
            rows += self.head_numbers(head) + [len(under) + 1] + [part + 1 for part in under]
        lines = [len(self.derivation.lines) + 1]
        for clause, rule, parts in self.derivation.lines:
            lines += literals(clause)
            lines += step_numbers(rule, list(parts))
        self.emit("From Coq Require Uint63 PArray.\nModule Data.\nImport Uint63 PArray.")
        for name, numbers in (("rows", rows), ("lines", lines)):
            self.emit("Definition %s : array int := ([| %s | 0 |])%%uint63." % (name, "; ".join(map(str, numbers))))
        self.emit("End Data.\n\nFrom Cosmt Require Import Script.\nLocal Open Scope positive_scope.\nLocal Open Scope bool_scope.")

    def head_numbers(self, head):
        if type(head) is checker.Constructor:
            return [1, self.constructors[head]]
        if type(head) is checker.Function:
            return [2, self.functions[head]]
        if type(head) is checker.Selector:
            return [3, self.selectors[head]]
        if type(head) is checker.Tester:
            return [4, self.constructors[head.constructor]]
        return [{checker.EQUAL: 5, checker.NOT: 6, checker.IFF: 7, checker.AND: 8, checker.OR: 9, checker.ITE: 10}[head]]

    # The file

    def write(self):
        self.select()
        for sort in self.sorts:
            self.sort(sort)
            for constructor in sort.constructors:
                self.symbol(constructor)
                for selector in constructor.selectors:
                    self.symbol(selector)
        for function in self.functions:
            self.symbol(function)
        self.emit(HEAD)
        self.data()
        self.emit("\nSection Script.\n\n(** * The declarations *)\n")
        self.types()
        self.emit("\n(** * Their laws *)\n")
        self.rows()
        self.emit("\n(** * The assertions *)\n")
        assertions = self.assertions()
        self.emit("\n(** * The terms of the derivation *)\n")
        self.terms()
        self.theorem(assertions)
        self.emit("\nEnd Script.")
        return "\n".join(self.lines) + "\n"

    def assertions(self):
        """The proposition, the formula and the number of the term of each assertion."""
        moved = self.moved()
        used = {parts[0] for _, rule, parts in self.derivation.lines if rule is checker.by_input}
        found = []
        texts = self.script.texts or [(None, None)] * len(self.script.assertions)
        for (text, label), term in zip(texts, self.script.assertions):
            number = moved[term]
            if self.core_only and number not in used:
                continue
            node = self.read_term(number) if text is None else self.reader.expression(text, {})
            if number in used:
                self.number(node, {})
            found.append((self.statement(node), self.formula(node) if number in used else None, number, label))
        return found

    def read_term(self, number):
        """The expression of an assertion that is a term: what stands in it more than once is a definition."""
        derivation = self.derivation
        times = [0] * (number + 1)
        times[number] = 1
        for term in range(number, -1, -1):
            for part in derivation.under[term] if times[term] else ():
                times[part] += 1
        for term in range(number + 1):
            if times[term] and term not in self.read_terms:
                head = derivation.heads[term]
                made = Apply(OPERATORS.get(head, head), [self.read_terms[part] for part in derivation.under[term]], derivation.sorts[term])
                if times[term] > 1 and made.under:
                    made = Call(Definition(self.names.take("v%d" % term), [], made), [])
                    self.define(made.definition)
                self.read_terms[term] = made
        return self.read_terms[number]

    def theorem(self, assertions):
        part = self.part
        world = [part(name) for name in ("types", "carriers", "constructors", "functions", "testers", "selectors", "equalities", "ranks")]
        types, carriers, constructors, functions, testers, selectors, equalities, ranks = world
        proven = {}
        hypotheses = []
        for place, (statement, formula, number, label) in enumerate(assertions, 1):
            hypotheses.append(self.names.local("H%d" % place))
            if formula is not None and number not in proven:
                name = self.names.take("assertion_%d" % place)
                self.emit("Lemma %s : %s -> %s = true.\nProof. exact_no_check (Formulas.stated %s). Qed." % (
                    name, statement, self.term(number), formula))
                proven[number] = "(%s %s)" % (name, hypotheses[-1])
        self.emit("Definition %s := Eval vm_compute in Decoder.rows_of %s." % (part("rows"), "Data.rows"))
        self.emit("Definition %s := Eval vm_compute in Checker.numbered 1 %s (PM.empty Checker.row)." % (part("row_map"), part("rows")))
        self.emit("Lemma %s : Checker.numbered 1 %s (PM.empty Checker.row) = %s.\nProof. vm_cast_no_check (Logic.eq_refl %s). Qed." % (
            part("numbered"), part("rows"), part("row_map"), part("row_map")))
        evaluate = "(Declarations.evaluate %s %s %s %s %s %s %s %s)" % (
            types, carriers, constructors, functions, testers, selectors, equalities, part("values"))
        self.emit("Lemma %s : Declarations.mapped %s %s = %s.\nProof. exact_no_check (Logic.eq_refl %s). Qed." % (
            part("evaluated"), evaluate, part("row_map"), part("values"), part("values")))
        self.emit("Definition %s : list Checker.line := %sDecoder.lines_of %s." % (
            part("lines"), "Eval vm_compute in " if self.decoded else "", "Data.lines"))
        ones = checker.sorts_with_one_value(list(self.sorts))
        one_value = listed(str(number) for sort, number in self.sorts.items() if sort in ones)
        asserted = listed(str(number + 1) for number in proven)
        self.emit("Lemma %s : Checker.check (Declarations.signature_of %s %s %s %s %s) %s %s %s %s = true.\n"
                  "Proof. vm_cast_no_check (Logic.eq_refl true). Qed." % (
                      part("checked"), types, carriers, constructors, functions, selectors, part("rows"), one_value, asserted, part("lines")))
        proof = "Logic.I"
        for text in reversed(list(proven.values())):
            proof = "(Logic.conj %s %s)" % (text, proof)
        statements = "".join("\n  %s ->%s" % (statement, " (* %s *)" % comment(label) if label else "") for statement, _, _, label in assertions)
        self.emit("\n(** * The theorem *)\n\nTheorem unsat :%s\n  False.\nProof.\n  exact (%sDeclarations.refuted %s %s %s %s %s %s %s %s %s %s %s %s %s %s %s %s %s\n    %s %s)." % (
            statements, "fun %s => " % " ".join(hypotheses) if hypotheses else "",
            types, carriers, constructors, functions, testers, selectors, equalities, ranks, part("lawful"), part("rows"), part("row_map"),
            part("values"), one_value, asserted, part("lines"), part("numbered"), part("evaluated"), proof, part("checked")))
        self.emit("Qed.")
