"""Definitions and assertions in Coq: as values, as propositions, and as formulas that are both (coq/Formulas.v)."""

import check_derivation as checker

from theorems.declarations import DeclarationWriter, apply, letters
from theorems.expressions import Apply, Call, Match, Quantifier, Variable


def congruent(head, proofs):
    text = "(Logic.eq_refl %s)" % head
    for proof in proofs:
        text = "(Formulas.cong %s %s)" % (text, proof)
    return text


class FormulaWriter(DeclarationWriter):
    """Writes definitions, and the texts of assertions."""

    # Expressions as values. Where `core` is true, each `match` stands as choices over tests, as in the terms of a derivation.

    def value(self, node, core=False):
        if type(node) is Variable:
            return node.name
        if type(node) is Apply:
            return self.over(node.head, [self.value(part, core) for part in node.under], node)
        if type(node) is Call:
            definition = node.definition
            return apply(definition.core if core and definition.core else definition.name, [self.value(part, core) for part in node.under])
        if type(node) is Match:
            subject = self.value(node.subject, core)
            return "(let $m := %s in %s)" % (subject, self.choices(node, "$m")) if core else self.matched(node, subject)
        text = "[%s]" % self.value(node.body, core)
        for name, sort in reversed(node.variables):
            text = "flat_map (fun %s : %s => %s) %s" % (name, self.sort(sort), text, self.values(sort))
        return "(Soundness.%s (%s))" % ("conjunction" if node.word == b"forall" else "disjunction", text)

    def over(self, head, under, node):
        """A head over texts."""
        if type(head) is checker.Tester:
            return apply(self.tester(head.constructor), under)
        if type(head) is not str:
            return apply(self.symbol(head), under)
        if head in ("and", "or"):
            text = under[-1]
            for part in under[-2::-1]:
                text = "(%s %s %s)" % (part, "&&" if head == "and" else "||", text)
            return text
        if head == "ite":
            return "(if %s then %s else %s)" % tuple(under)
        if head == "=>":
            return "(negb %s || %s)" % tuple(under)
        return apply({"not": "negb", "iff": "Bool.eqb", "=": None}[head] or self.of_sort(node.under[0].sort, "eqb"), under)

    def matched(self, node, subject):
        """`match` as Coq has it. A variable that stands for the subject itself is bound before: Coq gives one in a pattern the value
        of another constructor each time."""
        cases = []
        seen = set()
        bound = None
        for constructor, names, body in node.cases:
            if constructor in seen:
                continue
            seen.add(constructor)
            if constructor is None:
                pattern = "_"
                bound = names[0] if names[0] in body.free else None
            else:
                pattern = apply(self.pattern(constructor), [name or "_" for name in names or [None] * len(constructor.arguments)], False)
            cases.append("| %s => %s" % (pattern, self.value(body)))
        text = "(match %s with %s end)" % (self.opened(node.subject.sort, bound or subject), " ".join(cases))
        return "(let %s := %s in %s)" % (bound, subject, text) if bound else text

    def choices(self, node, subject):
        """`match` by tests and selectors of a subject, which is a variable."""
        text = None
        for constructor, names, body in reversed(node.cases):
            inner = self.value(body, True)
            values = [subject] if constructor is None else [apply(self.symbol(selector), [subject]) for selector in constructor.selectors]
            for name, value in reversed(list(zip(names, values))):
                if name and name in body.free:
                    inner = "let %s := %s in %s" % (name, value, inner)
            text = "(%s)" % inner if text is None else "(if %s %s then (%s) else %s)" % (self.tester(constructor), subject, inner, text)
        return text

    def values(self, sort):
        """The name of the list of all values of a sort."""
        if sort is self.bool:
            return "[true; false]"
        if ("values", sort) not in self.named:
            parts = []
            proofs = []
            for place, constructor in enumerate(sort.constructors):
                names = letters(constructor)
                text = "[%s]" % apply(self.symbol(constructor), names, False)
                steps = ["apply Script.in_right."] * place
                if place < len(sort.constructors) - 1:
                    steps.append("apply Script.in_left.")
                for name, field in reversed(list(zip(names, constructor.arguments))):
                    text = "flat_map (fun %s => %s) %s" % (name, text, self.values(field))
                steps += ["apply (Script.in_each (%s %s)). cbv beta." % (self.complete(field), name)
                          for name, field in zip(names, constructor.arguments)]
                parts.append("(%s)" % text)
                proofs.append("{ %s left. reflexivity. }" % " ".join(steps))
            name = self.of_sort(sort, "values")
            patterns = " | ".join(" ".join(letters(constructor)) for constructor in sort.constructors)
            self.emit("Definition %s : list %s := %s." % (name, self.sort(sort), " ++ ".join(parts)))
            self.emit("Lemma %s : forall $x : %s, List.In $x %s.\nProof. intro $x. destruct $x as [%s]; cbv delta [%s].\n%s\nQed." % (
                self.of_sort(sort, "all"), self.sort(sort), name, patterns, name, "\n".join(proofs)))
        return self.of_sort(sort, "values")

    def complete(self, sort):
        """The name of the proof that the list of a sort has all its values."""
        if sort is self.bool:
            return "Script.in_bools"
        self.values(sort)
        return self.of_sort(sort, "all")

    def define(self, made):
        """Writes a definition, and where it has a `match` the one without, with the proof that they are equal."""
        binders = "".join(" (%s : %s)" % (name, self.sort(sort)) for name, sort in made.parameters)
        body = made.body
        text = self.value(body)
        self.emit("Definition %s%s : %s := %s." % (made.name, binders, self.sort(body.sort), text))
        if body.matches:
            proof = self.equal(body)
            names = [name for name, _ in made.parameters]
            made.core = self.names.take(made.name + "_core")
            made.lemma = self.names.take(made.name + "_core_is")
            self.emit("Definition %s%s : %s := %s." % (made.core, binders, self.sort(body.sort), self.value(body, True)))
            self.emit("Lemma %s%s : %s = %s.\nProof. exact %s. Qed." % (
                made.lemma, binders, apply(made.name, names, False), apply(made.core, names, False), proof))

    def equal(self, node):
        """The proof that the value of an expression is that of its core."""
        if not node.matches:
            return "(Logic.eq_refl %s)" % self.value(node)
        if type(node) is Match:
            return self.equal_match(node)
        if type(node) is Quantifier:
            proof = "(Logic.f_equal (fun $b => [$b]) %s)" % self.equal(node.body)
            for name, sort in reversed(node.variables):
                proof = "(Formulas.cong_flat_map %s (fun %s : %s => %s))" % (self.values(sort), name, self.sort(sort), proof)
            return "(Logic.f_equal Soundness.%s %s)" % ("conjunction" if node.word == b"forall" else "disjunction", proof)
        under = [self.equal(part) for part in node.under]
        if type(node) is Call:
            proof = congruent(node.definition.name, under)
            if node.definition.core:
                proof = "(Logic.eq_trans %s (%s%s))" % (proof, node.definition.lemma, " _" * len(under))
            return proof
        head = node.head
        if head in ("and", "or"):
            proof = under[-1]
            for part in under[-2::-1]:
                proof = congruent("andb" if head == "and" else "orb", [part, proof])
            return proof
        if head == "=>":
            return congruent("orb", [congruent("negb", under[:1]), under[1]])
        if head == "ite":
            return "(Formulas.cong_choice %s %s %s)" % tuple(under)
        if type(head) is str:
            return congruent({"not": "negb", "iff": "Bool.eqb", "=": None}[head] or self.of_sort(node.under[0].sort, "eqb"), under)
        return congruent(self.tester(head.constructor) if type(head) is checker.Tester else self.symbol(head), under)

    def equal_match(self, node):
        if node.lemma is None:
            self.match_lemma(node)
        arguments = "".join(" " + name for name in node.bound)
        if not node.subject.matches:
            return "(%s%s %s)" % (node.lemma, arguments, self.value(node.subject))
        return "(Logic.eq_trans (Logic.f_equal (fun $x : %s => %s) %s) (%s%s _))" % (
            self.sort(node.subject.sort), self.matched(node, "$x"), self.equal(node.subject), node.lemma, arguments)

    def match_lemma(self, node):
        """Writes the lemma that a `match` is the choices by tests and selectors, whatever its subject is."""
        sort = node.subject.sort
        patterns = []
        cases = []
        for constructor in sort.constructors:
            case, names, body = next(each for each in node.cases if each[0] in (constructor, None))
            given = names if case else [None] * len(constructor.arguments)
            fields = ["$u%d" % place for place in range(len(constructor.arguments))]
            fields[:len(given)] = [name or field for name, field in zip(given, fields)]
            patterns.append(" ".join(fields))
            cases.append((self.equal(body), None if case else names[0], apply(self.symbol(constructor), fields)))
        binders = "".join(" (%s : %s)" % (name, self.sort(kind)) for name, kind in node.bound.items())
        node.lemma = self.names.take("match")
        self.emit("Lemma %s%s ($x : %s) :\n  %s\n  = %s.\nProof. %s. Qed." % (
            node.lemma, binders, self.sort(sort), self.matched(node, "$x"), self.choices(node, "$x"),
            self.by_cases_opened(sort, patterns, cases) if self.is_abstract(sort) else self.by_cases(patterns, cases)))

    def by_cases(self, patterns, cases):
        """The proof by the constructors of the subject, of which each case has a proof. The variable that stands for the subject is
        the value itself."""
        proofs = ["((fun %s => %s) %s)" % (variable, proof, value) if variable else proof for proof, variable, value in cases]
        return "destruct $x as [%s]; [%s]" % (" | ".join(patterns), " | ".join(map("exact {}".format, proofs)))

    def by_cases_opened(self, sort, patterns, cases):
        """The same for types that are not Coq's, whose values are opened. The proof of the case of a variable speaks of the subject too,
        so it is a premise while the subject is opened."""
        unfolded = [self.tester(constructor) for constructor in sort.constructors]
        unfolded += [self.symbol(selector) for constructor in sort.constructors for selector in constructor.selectors]
        steps = ["cbv beta zeta delta [%s]" % " ".join(unfolded), "destruct (%s $x) as [%s]" % (self.of_sort(sort, "open"), " | ".join(patterns))]
        proofs = ["exact %s" % proof for proof, _, _ in cases]
        premise = next(("((fun %s => %s) $x)" % (variable, proof) for proof, variable, _ in cases if variable), None)
        if premise:
            steps.insert(0, "generalize %s" % premise)
            proofs = ["intro $e; exact $e" if variable else "intros _; exact %s" % proof for proof, variable, _ in cases]
        return "%s; [%s]" % (". ".join(steps), " | ".join(proofs))

    # Assertions as propositions

    def statement(self, node):
        if type(node) is Quantifier:
            text = self.statement(node.body)
            if node.word == b"forall":
                return "(forall%s, %s)" % (self.binders_of(node), text)
            for name, sort in reversed(node.variables):
                text = "(exists %s : %s, %s)" % (name, self.sort(sort), text)
            return text
        head = node.head if type(node) is Apply else None
        if head == "not":
            inner = node.under[0]
            if type(inner) is Apply and inner.head == "=":
                return "(%s <> %s)" % tuple(self.value(part) for part in inner.under)
            return "(~ %s)" % self.statement(inner)
        if head in ("and", "or", "=>", "iff"):
            sign = {"and": " /\\ ", "or": " \\/ ", "=>": " -> ", "iff": " <-> "}[head]
            return "(%s)" % sign.join(self.statement(part) for part in node.under)
        if head == "=":
            return "(%s = %s)" % tuple(self.value(part) for part in node.under)
        if head == "ite":
            test, *branches = node.under
            return "(if %s then %s else %s)" % (self.value(test), *map(self.statement, branches))
        return "(%s = true)" % self.value(node)

    def binders_of(self, node):
        return "".join(" (%s : %s)" % (name, self.sort(sort)) for name, sort in node.variables)

    def formula(self, node):
        """The formula of which an assertion is the proposition and its term the truth value."""
        if type(node) is Quantifier:
            text = "(Formulas.Chosen %s)" % self.formula(node.body)
            for name, sort in reversed(node.variables):
                text = "(Formulas.Each %s %s %s (fun %s : %s => %s))" % (
                    self.sort(sort), self.values(sort), self.complete(sort), name, self.sort(sort), text)
            return "(Formulas.%s %s)" % ("Every" if node.word == b"forall" else "Some_of", text)
        head = node.head if type(node) is Apply else None
        kinds = {"not": "Negation", "and": "Conjunction", "or": "Disjunction", "=>": "Implication", "iff": "Equivalence"}
        if head in kinds:
            parts = [self.formula(part) for part in node.under]
            text = parts[-1]
            if head == "not":
                return "(Formulas.Negation %s)" % text
            for part in parts[-2::-1]:
                text = "(Formulas.%s %s %s)" % (kinds[head], part, text)
            return text
        if head == "=":
            return self.equation(node)
        if head == "ite":
            test, *branches = node.under
            parts = [self.value(test), *([self.value(test, True), self.equal(test)] if test.matches else [])]
            return "(Formulas.%s %s %s %s)" % ("Choice" if test.matches else "choice", " ".join(parts), *map(self.formula, branches))
        if node.matches:
            return "(Formulas.Holds %s %s %s)" % (self.value(node), self.value(node, True), self.equal(node))
        return "(Formulas.holds %s)" % self.value(node)

    def equation(self, node):
        sort = node.under[0].sort
        if not node.matches:
            return apply(self.of_sort(sort, "equation"), [self.value(part) for part in node.under])
        sides = " ".join("%s %s" % (self.value(part), self.value(part, True)) for part in node.under)
        return "(Formulas.Equation %s %s %s %s %s)" % (
            self.sort(sort), self.of_sort(sort, "eqb"), self.of_sort(sort, "eqb_spec"), sides, " ".join(map(self.equal, node.under)))
