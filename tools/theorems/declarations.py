"""The declarations of a script in Coq, as rows of a table, and the law of each row (coq/Declarations.v)."""

import re

import check_derivation as checker

from theorems.expressions import Names, plain


def listed(items):
    return "[" + "; ".join(items) + "]"


def tree(kind, entries):
    """The map of these texts by their numbers, as it is written down."""
    if not entries:
        return "(Declarations.leaf %s)" % kind
    lower = tree(kind, {key >> 1: text for key, text in entries.items() if key > 1 and not key & 1})
    upper = tree(kind, {key >> 1: text for key, text in entries.items() if key > 1 and key & 1})
    if 1 in entries:
        return "(Declarations.node %s %s %s %s)" % (kind, lower, entries[1], upper)
    return "(Declarations.fork %s %s %s)" % (kind, lower, upper)


def everywhere(entries):
    """The proof that all entries of a map have what these texts prove."""
    if not entries:
        return "Logic.I"
    lower = everywhere({key >> 1: text for key, text in entries.items() if key > 1 and not key & 1})
    upper = everywhere({key >> 1: text for key, text in entries.items() if key > 1 and key & 1})
    return "(Logic.conj %s (Logic.conj %s %s))" % (lower, entries.get(1, "Logic.I"), upper)


def apply(head, arguments, inner=True):
    if not arguments:
        return head
    text = "%s %s" % (head, " ".join(arguments))
    return "(%s)" % text if inner else text


def letters(constructor):
    """Names of variables for the fields of a constructor."""
    return ["$" + (chr(97 + place) if place < 26 else "a%d" % place) for place in range(len(constructor.arguments))]


def strong_groups(sorts):
    """The sorts that reach each other, group by group; a group comes after what it reaches."""
    found, low, waiting, inside, groups = {}, {}, [], set(), []
    for start in sorts:
        if start in found:
            continue
        found[start] = low[start] = len(found)
        waiting.append(start)
        inside.add(start)
        path = [(start, iter([field for constructor in start.constructors for field in constructor.arguments]))]
        while path:
            sort, fields = path[-1]
            field = next(fields, None)
            if field is None:
                path.pop()
                if path:
                    low[path[-1][0]] = min(low[path[-1][0]], low[sort])
                if low[sort] == found[sort]:
                    place = waiting.index(sort)
                    groups.append(waiting[place:])
                    inside.difference_update(waiting[place:])
                    del waiting[place:]
            elif field not in found:
                found[field] = low[field] = len(found)
                waiting.append(field)
                inside.add(field)
                path.append((field, iter([inner for constructor in field.constructors for inner in constructor.arguments])))
            elif field in inside:
                low[sort] = min(low[sort], found[field])
    return groups


class DeclarationWriter:
    """Writes declarations, their rows and the laws of these."""

    def __init__(self, derivation, abstract):
        self.derivation = derivation
        self.script = derivation.script
        self.abstract = abstract
        self.names = Names()
        self.lines = []
        self.named = {}
        self.bool = self.script.bool

    def emit(self, text):
        """Adds a command; `$x` in it is a name for variables that nothing else has."""
        self.lines.append(re.sub(r"\$(\w+)", lambda match: self.names.local(match[1]), text))

    def own(self, thing, kind, base):
        """The name of something: of this kind, about this thing."""
        key = kind, thing
        if key not in self.named:
            self.named[key] = self.names.take(base)
        return self.named[key]

    # Names of the script

    def sort(self, sort):
        if sort is self.bool:
            return "bool"
        if (None, sort) not in self.named:
            name = sort.name
            if sort.generic is not None:
                name = re.sub("__+", "_", plain(checker.text_of_expression(sort.expression))).strip("_").encode()
            self.named[None, sort] = self.names.take(plain(name))
        return self.named[None, sort]

    def of_sort(self, sort, suffix):
        """The name of what belongs to a sort."""
        return self.own(sort, suffix, self.sort(sort) + "_" + suffix)

    def symbol(self, symbol):
        """The name of a constructor, selector or function."""
        if type(symbol) is checker.Constructor and symbol.result is self.bool:
            return symbol.name.decode()
        if (None, symbol) not in self.named:
            base = plain(symbol.name)
            home = symbol.result if type(symbol) is checker.Constructor else None if type(symbol) is checker.Function else symbol.arguments[0]
            if home is not None and home.generic is not None:
                base += "_" + self.sort(home)
            self.named[None, symbol] = self.names.take(base)
        return self.named[None, symbol]

    def tester(self, constructor):
        if constructor.result is self.bool:
            return "Script.is_" + constructor.name.decode()
        return self.own(constructor, "is", "is_" + self.symbol(constructor))

    def pattern(self, constructor):
        """The constructor that stands in patterns."""
        if self.is_abstract(constructor.result):
            return self.own(constructor, "node", self.symbol(constructor) + "_node")
        return self.symbol(constructor)

    def is_abstract(self, sort):
        return self.abstract and sort.kind == "codatatype"

    def opened(self, sort, text):
        """What is matched, for a value of a sort."""
        return "(%s %s)" % (self.of_sort(sort, "open"), text) if self.is_abstract(sort) else text

    # What the file is about

    def select(self):
        """The sorts, functions and testers that are written: those of the terms, and those of the assertions."""
        self.functions = {}
        self.testers = {}
        self.matching = False  # whether tests are written that no term of the derivation is
        self.sorts = {self.bool: 1}
        waiting = [*self.derivation.sorts, *self.script.instances.values()]
        for head in self.derivation.heads:
            self.see(head, waiting)
        for text, _ in self.script.texts or ():
            self.see_symbols(text, waiting)
        reached = set()
        while waiting:
            sort = waiting.pop()
            if sort not in reached:
                reached.add(sort)
                for constructor in sort.constructors:
                    waiting.extend(constructor.arguments)
        self.groups = [group for group in strong_groups(self.script.all_sorts()) if group[0] in reached and group[0] is not self.bool]
        self.ranks = {self.bool: 1}
        for rank, group in enumerate(self.groups, 2):
            for sort in group:
                self.ranks[sort] = rank
                self.sorts[sort] = len(self.sorts) + 1
        self.constructors = {constructor: number for number, constructor in enumerate(self.bool.constructors, 1)}
        self.selectors = {}
        for sort in self.sorts:
            for constructor in sort.constructors:
                if constructor not in self.constructors:
                    self.constructors[constructor] = len(self.constructors) + 1
                for selector in constructor.selectors:
                    self.selectors[selector] = len(self.selectors) + 1
        self.decidable = all(sort.kind in ("Bool", "datatype") for sort in self.sorts)

    def see(self, head, waiting):
        if type(head) is checker.Function and head not in self.functions:
            self.functions[head] = len(self.functions) + 1
            waiting.extend(head.arguments)
            waiting.append(head.result)
        elif type(head) is checker.Tester:
            self.testers[head.constructor] = None

    def see_symbols(self, text, waiting):
        """The symbols of a text; too many where a variable has the name of one."""
        parts = [text]
        seen = set()
        while parts:
            part = parts.pop()
            if type(part) is list:
                parts.extend(part)
                continue
            self.matching = self.matching or part in (b"match", b"is", b"|is|")
            name = checker.name_of(part)
            if name is not None and name.startswith(b"is-") and name not in self.script.symbols:
                self.matching = True
                name = name.removeprefix(b"is-")
            symbol = self.script.symbols.get(name)
            if symbol is not None and symbol not in seen:
                seen.add(symbol)
                self.see(symbol, waiting)
                if type(symbol) is checker.Definition:
                    waiting.extend(symbol.arguments)
                    parts.append(symbol.text[2])
                elif type(symbol) is checker.Constructor:
                    waiting.append(symbol.result)
            sort = self.script.sorts.get(name)
            if type(sort) is checker.Sort:
                waiting.append(sort)

    # Types, constructors, testers and selectors

    def types(self):
        for group in self.groups:
            kind = group[0].kind
            if kind == "uninterpreted":
                self.emit("Variable %s : Type." % self.sort(group[0]))
            elif self.is_abstract(group[0]):
                self.abstract_types(group)
            else:
                self.inductive("Inductive" if kind == "datatype" else "CoInductive", group, self.sort, self.symbol)
            for sort in group:
                for constructor in sort.constructors:
                    self.operations(sort, constructor)
        for function in self.functions:
            self.emit("Variable %s : %s." % (self.symbol(function), self.arrow(function.arguments, function.result)))

    def arrow(self, arguments, result):
        return " -> ".join([self.sort(sort) for sort in arguments] + [self.sort(result) if type(result) is checker.Sort else result])

    def inductive(self, word, group, name, constructor_name):
        blocks = []
        for sort in group:
            rows = ["| %s : %s" % (constructor_name(constructor), self.arrow(constructor.arguments, name(sort)))
                    for constructor in sort.constructors]
            blocks.append("%s : Type :=\n  %s" % (name(sort), "\n  ".join(rows)))
        self.emit("%s %s." % (word, "\nwith ".join(blocks)))

    def abstract_types(self, group):
        for sort in group:
            self.emit("Variable %s : Type." % self.sort(sort))
        self.inductive("Inductive", group, lambda sort: self.of_sort(sort, "node"), self.pattern)
        for sort in group:
            name, node, make, opened = self.sort(sort), *[self.of_sort(sort, suffix) for suffix in ("node", "make", "open")]
            self.emit("Variable %s : %s -> %s." % (make, node, name))
            self.emit("Variable %s : %s -> %s." % (opened, name, node))
            self.emit("Hypothesis %s : forall $n, %s (%s $n) = $n." % (self.of_sort(sort, "open_make"), opened, make))
            self.emit("Hypothesis %s : forall $x, %s (%s $x) = $x." % (self.of_sort(sort, "make_open"), make, opened))
            for constructor in sort.constructors:
                names = letters(constructor)
                self.emit("Definition %s%s : %s := %s." % (
                    self.symbol(constructor), self.binders(names, constructor.arguments), name,
                    apply(make, [apply(self.pattern(constructor), names)])))

    def binders(self, names, sorts):
        return "".join(" (%s : %s)" % (name, self.sort(sort)) for name, sort in zip(names, sorts))

    def operations(self, sort, constructor):
        """The tester and the selectors of a constructor."""
        others = "" if len(sort.constructors) == 1 else " | _ => false"
        blank = apply(self.pattern(constructor), ["_"] * len(constructor.arguments), False)
        subject = self.opened(sort, "$x")
        name = self.sort(sort)
        if constructor in self.testers or self.matching:
            self.emit("Definition %s ($x : %s) : bool := match %s with %s => true%s end." % (
                self.tester(constructor), name, subject, blank, others))
        for selector in constructor.selectors:
            names = ["$a" if place == selector.place else "_" for place in range(len(constructor.arguments))]
            if others:
                other = self.own(selector, "other", self.symbol(selector) + "_of_others")
                self.emit("Variable %s : %s -> %s." % (other, name, self.sort(selector.result)))
                others = " | _ => %s $x" % other
            self.emit("Definition %s ($x : %s) : %s := match %s with %s => $a%s end." % (
                self.symbol(selector), name, self.sort(selector.result), subject,
                apply(self.pattern(constructor), names, False), others))

    # Rows of declarations, with their laws

    def rows(self):
        emit, own = self.emit, self.part
        sort_texts = {number: self.sort(sort) for sort, number in self.sorts.items()}
        emit("Definition %s : PM.t Type := %s." % (own("types"), tree("Type", sort_texts)))
        for sort, number in self.sorts.items():
            emit("Definition %s ($x : %s) : Declarations.value %s := Declarations.Value %s %d $x." % (
                self.of_sort(sort, "value"), self.sort(sort), own("types"), own("types"), number))
        for group in self.groups:
            self.carriers(group)
        self.map("carriers", "Declarations.carrier", {number: self.carrier(sort) for sort, number in self.sorts.items()})
        self.map("constructors", "Declarations.symbol", {
            number: self.row(constructor.arguments, constructor.result, self.symbol(constructor))
            for constructor, number in self.constructors.items()})
        self.map("functions", "Declarations.symbol", {
            number: self.row(function.arguments, function.result, self.symbol(function)) for function, number in self.functions.items()})
        self.map("selectors", "Declarations.selector", {
            number: "(Declarations.Selector %s %d %d%%nat %s)" % (
                own("types"), self.constructors[selector.constructor], selector.place,
                self.row(selector.arguments, selector.result, self.symbol(selector)))
            for selector, number in self.selectors.items()})
        self.map("testers", "Declarations.symbol", {
            self.constructors[constructor]: self.row([constructor.result], self.bool, self.tester(constructor))
            for constructor in self.testers})
        ranks = {self.ranks[sort]: str(self.ranks[sort]) for sort in self.sorts if sort.kind == "codatatype"}
        emit("Definition %s : PM.t positive := %s." % (own("ranks"), tree("positive", ranks)))
        self.laws()
        self.equalities()
        self.lawful()

    def part(self, name):
        """The name of something that the file has once."""
        return self.own(None, name, name)

    def map(self, name, kind, entries):
        kind = "(%s %s)" % (kind, self.part("types"))
        self.emit("Definition %s : PM.t %s := %s." % (self.part(name), kind, tree(kind, entries)))

    def row(self, arguments, result, text):
        return "(Declarations.Symbol %s %s %d %s)" % (
            self.part("types"), listed(str(self.sorts[sort]) for sort in arguments), self.sorts[result], text)

    def carrier(self, sort):
        if sort is self.bool:
            return "(Declarations.bool_carrier %s)" % self.part("types")
        return self.of_sort(sort, "carrier")

    def carriers(self, group):
        """The view, the size and the carrier of each sort of a group."""
        sizes = []
        for sort in group:
            name, view, size = self.sort(sort), self.of_sort(sort, "view"), self.of_sort(sort, "size")
            pair = "positive * list (Declarations.value %s)" % self.part("types")
            if sort.kind == "uninterpreted":
                self.emit("Definition %s ($x : %s) : %s := (1, [])." % (view, name, pair))
            else:
                self.emit("Definition %s ($x : %s) : %s :=\n  match %s with %s end." % (
                    view, name, pair, self.opened(sort, "$x"), self.cases(sort, lambda constructor, names: "(%d, %s)" % (
                        self.constructors[constructor],
                        listed(self.of_sort(field, "value") + " " + a for field, a in zip(constructor.arguments, names))))))
            if sort.kind == "datatype":
                sizes.append("%s ($x : %s) : nat :=\n  match $x with %s end" % (size, name, self.cases(sort, self.size_of)))
            else:
                self.emit("Definition %s ($x : %s) : nat := 0%%nat." % (size, name))
        if sizes:
            word = "Fixpoint" if any(field in group for sort in group for constructor in sort.constructors for field in constructor.arguments) else "Definition"
            self.emit("%s %s." % (word, "\nwith ".join(sizes)))
        kinds = {"uninterpreted": "Uninterpreted", "datatype": "Datatype", "codatatype": "Codatatype"}
        for sort in group:
            self.emit("Definition %s := Declarations.Carrier %s Checker.%s %d %s %d %s %s." % (
                self.of_sort(sort, "carrier"), self.part("types"), kinds[sort.kind], self.ranks[sort],
                listed(str(self.constructors[constructor]) for constructor in sort.constructors), self.sorts[sort],
                self.of_sort(sort, "view"), self.of_sort(sort, "size")))

    def cases(self, sort, body):
        return " ".join("| %s => %s" % (apply(self.pattern(constructor), names, False), body(constructor, names))
                        for constructor in sort.constructors for names in [letters(constructor)])

    def size_of(self, constructor, names):
        text = "0"
        for field, name in reversed(list(zip(constructor.arguments, names))):
            size = {"Bool": "1", "datatype": "%s %s" % (self.of_sort(field, "size"), name)}.get(field.kind, "0")
            text = "(%s + %s)" % (size, text)
        return "(1 + %s)%%nat" % text

    def laws(self):
        types, carriers, constructors, ranks = map(self.part, ("types", "carriers", "constructors", "ranks"))
        for sort, number in self.sorts.items():
            self.emit("Lemma %s : Declarations.carrier_law %s %s %s %s %d %s.\nProof. %s Qed." % (
                self.of_sort(sort, "law"), types, carriers, constructors, ranks, number, self.carrier(sort), self.carrier_proof(sort)))
        for constructor, number in self.constructors.items():
            if constructor.result is not self.bool:
                self.emit("Lemma %s : Declarations.constructor_law %s %s %d %s.\nProof. %s Qed." % (
                    self.own(constructor, "law", self.symbol(constructor) + "_law"), types, carriers, number,
                    self.row(constructor.arguments, constructor.result, self.symbol(constructor)), self.constructor_proof(constructor)))
        for selector, number in self.selectors.items():
            self.emit("Lemma %s : Declarations.selector_law %s %s %d (Declarations.Selector %s %d %d%%nat %s).\nProof. %s Qed." % (
                self.own(selector, "law", self.symbol(selector) + "_law"), types, constructors, number, types,
                self.constructors[selector.constructor], selector.place,
                self.row(selector.arguments, selector.result, self.symbol(selector)), self.selector_proof(selector)))
        for constructor in self.testers:
            self.emit("Lemma %s : Declarations.tester_law %s %s %s %d %s.\nProof. %s Qed." % (
                self.own(constructor, "is_law", self.own(constructor, "is", "is_" + self.symbol(constructor)) + "_law"), types, carriers, constructors,
                self.constructors[constructor], self.row([constructor.result], self.bool, self.tester(constructor)),
                self.tester_proof(constructor)))
        for group in self.groups:
            if group[0].kind == "codatatype":
                self.coinduction(group)

    def carrier_proof(self, sort):
        if sort is self.bool:
            return "exact (Script.bool_law %s Logic.eq_refl Logic.eq_refl)." % " ".join(
                map(self.part, ("types", "carriers", "constructors", "ranks")))
        if sort.kind == "uninterpreted":
            return "exact (Logic.conj Logic.eq_refl (Logic.conj Logic.I (Logic.conj Logic.I Logic.I)))."
        blank = [apply(self.pattern(constructor), ["_"] * len(constructor.arguments), False) for constructor in sort.constructors]
        if not self.is_abstract(sort):
            steps = ["exact (fun $x => match $x with %s end)." % " ".join("| %s => %s" % (text, proof) for text in blank)
                     for proof in ("Logic.conj Logic.eq_refl Logic.eq_refl", "Logic.eq_refl")]
            if sort.kind == "codatatype":
                steps[1:] = ["exact Logic.I."]
            return "split; [reflexivity|]. split.\n{ %s }\nsplit.\n{ %s } { %s }" % (
                *steps, "reflexivity." if sort.kind == "codatatype" else "exact Logic.I.")
        return ("split; [reflexivity|split; [|split; [exact Logic.I|reflexivity]]]. intro $x. cbv [Declarations.carrier_view %s %s].\n"
                "  generalize (%s $x). destruct (%s $x); intros <-; split; reflexivity." % (
                    self.of_sort(sort, "carrier"), self.of_sort(sort, "view"), self.of_sort(sort, "make_open"), self.of_sort(sort, "open")))

    def rewritten(self, constructor):
        """The proof about types that are not Coq's: what is opened after it was made is the same."""
        names = letters(constructor)
        return "%scbv; rewrite %s; reflexivity." % (
            "intros %s; " % " ".join(names) if names else "", self.of_sort(constructor.result, "open_make"))

    def constructor_proof(self, constructor):
        return self.rewritten(constructor) if self.is_abstract(constructor.result) else self.constant(constructor)

    def selector_proof(self, selector):
        constructor = selector.constructor
        return self.rewritten(constructor) if self.is_abstract(constructor.result) else self.constant(constructor)

    def constant(self, constructor):
        """The proof that computes."""
        names = letters(constructor)
        return "exact (%sLogic.eq_refl)." % ("fun %s => " % " ".join(names) if names else "")

    def tester_proof(self, constructor):
        sort = constructor.result
        if sort is self.bool:
            return "split; [reflexivity|intros []; reflexivity]."
        if self.is_abstract(sort):
            return "split; [reflexivity|]. intro $x. cbv. destruct (%s $x); reflexivity." % self.of_sort(sort, "open")
        blank = [apply(self.pattern(each), ["_"] * len(each.arguments), False) for each in sort.constructors]
        return "split; [reflexivity|]. exact (fun $x => match $x with %s end)." % " ".join("| %s => Logic.eq_refl" % text for text in blank)

    def coinduction(self, group):
        """The principle of coinduction of a group of codatatypes, and the law of their rank."""
        relation = {sort: "$R%s" % ("" if len(group) == 1 else str(place)) for place, sort in enumerate(group, 1)}
        kinds = "".join(" (%s : %s -> %s -> Prop)" % (relation[sort], self.sort(sort), self.sort(sort)) for sort in group)
        relations = " ".join(relation.values())
        blocks = []
        for sort in group:
            rows = []
            for constructor in sort.constructors:
                names = letters(constructor)
                others = [name + "_2" if field in relation else name for name, field in zip(names, constructor.arguments)]
                binders = "".join(" %s" % name for name in names) + "".join(" " + other for other, name in zip(others, names) if other != name)
                premises = "".join("%s %s %s -> " % (relation[field], name, other)
                                   for name, other, field in zip(names, others, constructor.arguments) if field in relation)
                rows.append("| %s :%s %s%s %s (%s) (%s)" % (
                    self.own(constructor, "alike", self.symbol(constructor) + "_alike"), " forall%s," % binders if binders else "", premises,
                    self.of_sort(sort, "alike"), relations, apply(self.symbol(constructor), names, False),
                    apply(self.symbol(constructor), others, False)))
            blocks.append("%s%s : %s -> %s -> Prop :=\n  %s" % (
                self.of_sort(sort, "alike"), kinds, self.sort(sort), self.sort(sort), "\n  ".join(rows)))
        self.emit("Inductive %s." % "\nwith ".join(blocks))
        closed = "".join("(forall $x $y, %s $x $y -> %s %s $x $y) -> " % (relation[sort], self.of_sort(sort, "alike"), relations) for sort in group)
        for sort in group:
            self.emit("%s %s : forall%s, %sforall $x $y, %s $x $y -> $x = $y." % (
                "Hypothesis" if self.abstract else "Axiom", self.of_sort(sort, "coinduction"), kinds, closed, relation[sort]))
        self.rank_law(group)

    def rank_law(self, group):
        rank = self.ranks[group[0]]
        types, carriers, constructors = map(self.part, ("types", "carriers", "constructors"))
        related = {sort: "(fun $x $y => $R (%s $x) (%s $y))" % (self.of_sort(sort, "value"), self.of_sort(sort, "value")) for sort in group}
        relations = " ".join(related.values())
        for sort in group:
            for constructor in sort.constructors:
                names = letters(constructor)
                pattern = "($p & $q)"
                kept = []
                plain_fields = []
                for name, field in reversed(list(zip(names, constructor.arguments))):
                    pattern = "(%s & %s_2 & %s_e & %s)" % (name, name, name, pattern)
                    if field in related:
                        kept.insert(0, name + "_e")
                    else:
                        plain_fields.append("destruct (%s_e : %s = %s_2)." % (name, name, name))
                row = self.own(constructor, "alike", "")
                arguments = names + [name + "_2" for name, field in zip(names, constructor.arguments) if field in related] + kept
                self.emit("Lemma %s ($R : Declarations.value %s -> Declarations.value %s -> Prop) ($x $y : %s) :\n"
                          "  Declarations.alike_by %s %s %s %d $R (%s $x) (%s $y) %d -> %s %s $x $y.\n"
                          "Proof. intros %s. apply Declarations.value_inj in $p, $q. rewrite $p, $q. %s exact (%s). Qed." % (
                              self.own(constructor, "alike_row", self.own(constructor, "alike", "") + "_row"), types, types, self.sort(sort),
                              types, carriers, constructors, rank, self.of_sort(sort, "value"), self.of_sort(sort, "value"),
                              self.constructors[constructor], self.of_sort(sort, "alike"), relations,
                              pattern, " ".join(plain_fields), " ".join([row, relations] + arguments)))
        self.emit("Lemma %s : Declarations.rank_law %s %s %s %d %d.\nProof.\n  split; [reflexivity|]. intros $R $H." % (
            self.own(group[0], "rank_law", self.sort(group[0]) + "_rank_law"), types, carriers, constructors, rank, rank))
        for place, sort in enumerate(group, 1):
            self.emit("  assert ($H%d : forall $x $y, $R (%s $x) (%s $y) -> %s %s $x $y)." % (
                place, self.of_sort(sort, "value"), self.of_sort(sort, "value"), self.of_sort(sort, "alike"), relations))
            steps = " ".join("destruct $i as [<-|$i]; [exact (%s $R $x $y $q)|]." % self.own(constructor, "alike_row", "") for constructor in sort.constructors)
            self.emit("  { intros $x $y $r. destruct ($H %d $x $y Logic.eq_refl Logic.eq_refl $r) as ($c & $i & $q). %s destruct $i. }" % (
                self.sorts[sort], steps))
        # each sort of the rank is one of the group
        self.emit("  intros $s $x $y $K $Q $r.")
        self.emit("  assert ($M : Checker.member $s %s = true) by (exact (Script.sort_of_rank %s %s %s %d $s $K $Q Logic.eq_refl))." % (
            listed(str(self.sorts[sort]) for sort in group), types, carriers, listed(str(self.sorts[sort]) for sort in group), rank))
        self.emit("  apply Soundness.member_in in $M.")
        for place, sort in enumerate(group, 1):
            self.emit("  destruct $M as [<-|$M]; [exact (%s %s %s $x $y $r)|]." % (
                self.of_sort(sort, "coinduction"), relations, " ".join("$H%d" % number for number in range(1, len(group) + 1))))
        self.emit("  destruct $M.\nQed.")

    # Equality, and all laws together

    def equalities(self):
        types, carriers, constructors, ranks = map(self.part, ("types", "carriers", "constructors", "ranks"))
        self.emit("Lemma %s : Declarations.everywhere (Declarations.carrier_law %s %s %s %s) %s Declarations.number.\nProof. exact %s. Qed." % (
            self.part("carriers_lawful"), types, carriers, constructors, ranks, carriers,
            everywhere({number: self.of_sort(sort, "law") for sort, number in self.sorts.items()})))
        if self.decidable:
            self.emit("Lemma %s : Equality.all_trees %s %s.\nProof. exact (Logic.conj %s Logic.eq_refl). Qed." % (
                self.part("all_trees"), types, carriers, everywhere({number: "Logic.eq_refl" for number in self.sorts.values()})))
        entries = {1: "(Declarations.Equality %s 1 Bool.eqb Bool.eqb_true_iff)" % types}
        for sort, number in self.sorts.items():
            if sort is self.bool:
                continue
            name, test, spec = self.sort(sort), self.of_sort(sort, "eqb"), self.of_sort(sort, "eqb_spec")
            value, proof = "Equality.classical", "Equality.classical_spec " + name
            if self.decidable:
                value = "Equality.decided %s %s %d" % (types, carriers, number)
                proof = "Equality.decided_spec %s %s %s %s %s %s %d" % (
                    types, carriers, constructors, ranks, self.part("all_trees"), self.part("carriers_lawful"), number)
            self.emit("Definition %s : %s -> %s -> bool := %s." % (test, name, name, value))
            self.emit("Lemma %s : forall $x $y, %s $x $y = true <-> $x = $y.\nProof. exact (%s). Qed." % (spec, test, proof))
            self.emit("Definition %s : %s -> %s -> Formulas.formula := Formulas.equation %s %s %s." % (
                self.of_sort(sort, "equation"), name, name, name, test, spec))
            entries[number] = "(Declarations.Equality %s %d %s %s)" % (types, number, test, spec)
        self.map("equalities", "Declarations.equality", entries)

    def lawful(self):
        types, carriers, constructors, testers, selectors, equalities, ranks = map(
            self.part, ("types", "carriers", "constructors", "testers", "selectors", "equalities", "ranks"))
        every = {number: "Logic.eq_refl" for number in self.sorts.values()}
        laws = {constructor: self.own(constructor, "law", "") for constructor in self.constructors if constructor.result is not self.bool}
        ranks_lawful = {self.ranks[group[0]]: self.own(group[0], "rank_law", "") for group in self.groups if group[0].kind == "codatatype"}
        parts = [
            ("constructors_lawful", "(Declarations.constructor_law %s %s)" % (types, carriers), constructors,
             {number: laws.get(constructor, "Logic.eq_refl") for constructor, number in self.constructors.items()}),
            ("selectors_lawful", "(Declarations.selector_law %s %s)" % (types, constructors), selectors,
             {number: self.own(selector, "law", "") for selector, number in self.selectors.items()}),
            ("selectors_fit", "(Declarations.selector_fits %s %s)" % (types, constructors), selectors,
             {number: "(Logic.conj Logic.eq_refl Logic.eq_refl)" for number in self.selectors.values()}),
            ("testers_lawful", "(Declarations.tester_law %s %s %s)" % (types, carriers, constructors), testers,
             {self.constructors[constructor]: self.own(constructor, "is_law", "") for constructor in self.testers}),
            ("ranks_lawful", "(Declarations.rank_law %s %s %s)" % (types, carriers, constructors), ranks, ranks_lawful),
            ("equalities_fit", "(fun $s $e => Declarations.equality_sort %s $e = $s)" % types, equalities, every),
            ("every_equality", "(fun $s _ => PM.mem $s %s = true)" % equalities, types, every)]
        for name, law, entries, proofs in parts:
            self.emit("Lemma %s : Declarations.everywhere %s %s Declarations.number.\nProof. exact %s. Qed." % (
                self.part(name), law, entries, everywhere(proofs)))
        names = " ".join([self.part("carriers_lawful")] + [self.part(name) for name, _, _, _ in parts])
        self.emit("Definition %s : Declarations.lawful %s %s %s %s %s %s %s :=\n  Declarations.Build_lawful %s %s %s %s %s %s %s %s"
                  " Logic.eq_refl Logic.eq_refl Logic.eq_refl." % (
                      self.part("lawful"), *[types, carriers, constructors, testers, selectors, equalities, ranks] * 2, names))
