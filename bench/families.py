"""Families of scripts for measuring the search. Each is a function from a size to the commands of a script.

If the answer is known for every size, it is beside the family. `bench/search` runs them.
"""

import os
import random

E = "(declare-datatype E ((a) (b)))"
LIST = "(declare-datatype List ((nil) (cons (head E) (tail List))))"
STREAM = "(declare-codatatype Stream ((scons (shead E) (stail Stream))))"
PROCESS = "(declare-codatatype P ((ch (l P) (r P)) (stop)))"
U = "(declare-sort U 0)"
# Differences of lists of sixteen numbers that a polynomial in 2^64 divided by the golden ratio takes to zero modulo 2^64: the lists that
# are sums of them had one digest when the digest of a list was such a polynomial.
DIFFERENCES = [
    (-2, 5, -1, -8, 3, -11, 5, -3, -8, -2, -11, 5, 17, 1, 0, 6),
    (-12, 8, -5, 0, 2, -15, 9, -2, 12, 7, -6, 4, 3, 3, 0, -4),
    (9, 4, 3, -4, 11, 3, 3, 1, -7, -3, 13, -5, -9, -6, 1, 2),
    (3, -5, 4, 4, -6, 10, -8, -2, -9, -7, -1, 1, -1, 5, -10, -10),
    (-14, 0, -2, 7, 2, -1, 6, 2, 0, 5, -14, -1, 3, 4, 8, -1),
    (0, 2, -4, 1, 9, 3, -6, -3, -9, 6, 2, 4, 6, -12, 5, 8),
    (0, -1, -4, -7, -2, 12, -14, -4, -2, 0, -2, 0, 1, 5, -4, -6),
    (-3, -6, -2, -16, 6, -8, 6, 3, 10, -1, -10, 8, -2, 3, -3, -1),
    (-4, 0, 3, -1, 3, -10, -6, 4, 5, -4, 5, -8, 7, 9, 2, -1),
    (-1, -7, 7, 1, -10, -6, 3, 11, 4, 3, 5, -5, 8, 0, 6, -3),
    (1, 2, 4, -7, 4, 3, -5, 2, 3, 9, -3, -4, 8, -5, -2, 6),
    (9, 3, -2, 7, -8, 4, 0, 7, -1, -12, 5, 1, -7, 6, -5, -3),
    (2, -7, 8, 1, -3, 0, -4, 0, 4, 2, -1, 0, -10, -8, -5, -7),
    (-3, -4, 12, -3, 2, -3, 4, 8, -1, -4, -2, 4, 4, 4, 4, 2),
    (-9, 7, 3, -5, -9, -5, 8, -4, 2, -6, -3, -1, 10, 4, -4, 4),
    (-4, -5, 1, 0, 14, 7, -2, -7, 4, -8, -7, 6, 11, -7, 7, 6),
]


def constants(names, sort):
    """Declarations of these constants."""
    return [f"(declare-const {name} {sort})" for name in names]


def named(letter, count):
    """So many names."""
    return [f"{letter}{i}" for i in range(count)]


def applications(count):
    """The text of assertions of so many terms with `true` and `false`: constants of a sort without constructors, and predicates of them."""
    constants, rest = divmod(count - 2, 8)
    names, predicates = [f"c{n}" for n in range(constants)], [f"p{n}" for n in range(7 + rest)]
    text = "(declare-sort U 0)\n" + "".join(f"(declare-fun {p} (U) Bool)\n" for p in predicates)
    text += "".join(f"(declare-const {c} U)\n" for c in names)
    asserts = [f"(assert ({p} {c}))\n" for c in names for p in predicates[:7]]
    return text + "".join(asserts + [f"(assert ({p} {names[0]}))\n" for p in predicates[7:]])


def clause_chain(n):
    """(or p0 p1), (or p1 p2) .."""
    p = named("p", n)
    return constants(p, "Bool") + [f"(assert (or {x} {y}))" for x, y in zip(p, p[1:])]


def equation_chain(n):
    """Of each two neighbours in a row of constants one equals the next but one."""
    x = named("x", n)
    return [U] + constants(x, "U") + [f"(assert (or (= {u} {v}) (= {u} {w})))" for u, v, w in zip(x, x[1:], x[2:])]


def equality_tower(n):
    """A chain of equations, and its ends differ."""
    x = named("x", n)
    return [U] + constants(x, "U") + [f"(assert (= {u} {v}))" for u, v in zip(x, x[1:])] + [f"(assert (not (= {x[0]} {x[-1]})))"]


def diamonds(n):
    """From each point two ways lead to the next, by one of which it equals it; the first and the last differ."""
    x, y, z = named("x", n + 1), named("y", n), named("z", n)
    ways = [f"(assert (or (and (= x{i} y{i}) (= y{i} x{i + 1})) (and (= x{i} z{i}) (= z{i} x{i + 1}))))" for i in range(n)]
    return [U] + constants(x + y + z, "U") + ways + [f"(assert (not (= x0 x{n})))"]


def pigeons(n):
    """One constant more than an enumeration has values, all different."""
    holes = " ".join(f"(h{i})" for i in range(n))
    x = named("x", n + 1)
    return [f"(declare-datatype H ({holes}))"] + constants(x, "H") + [f"(assert (distinct {' '.join(x)}))"]


def machine(n):
    """A machine of four states that steps n times, by inputs, and cannot have come to the last state and to the first."""
    parts = ["(declare-datatype S ((s0) (s1) (s2) (s3)))"] + constants(named("q", n + 1), "S") + constants(named("i", n), "Bool")
    parts += ["(define-fun step ((s S) (i Bool)) S (match s ((s0 (ite i s1 s0)) (s1 (ite i s2 s0)) (s2 (ite i s3 s1)) (s3 (ite i s3 s2)))))", "(assert (= q0 s0))"]
    parts += [f"(assert (= q{i + 1} (step q{i} i{i})))" for i in range(n)]
    return parts + [f"(assert (or (= q{n} s3) (= q{n} s2)))", f"(assert (not i{n - 1}))", f"(assert (=> (= q{n} s2) (= q{n - 1} s1)))"]


def record(n):
    """Two records of n Booleans that agree in all fields and differ."""
    fields = " ".join(f"(f{i} Bool)" for i in range(n))
    parts = [f"(declare-datatype R ((mk {fields})))"] + constants(["r", "s"], "R")
    return parts + [f"(assert (= (f{i} r) (f{i} s)))" for i in range(n)] + ["(assert (not (= r s)))"]


def towers(n):
    """Two lists of n cells over one another that are equal, whose last heads differ."""
    x, y, c, d = named("x", n + 1), named("y", n + 1), named("c", n), named("d", n)
    parts = [E, LIST] + constants(x + y, "List") + constants(c + d, "E")
    for i in range(n):
        parts += [f"(assert (= x{i + 1} (cons c{i} x{i})))", f"(assert (= y{i + 1} (cons d{i} y{i})))"]
    return parts + [f"(assert (= x{n} y{n}))", "(assert (not (= c0 d0)))"]


def nested_functions(n):
    """f applied n times to each of two equal constants gives different values."""
    parts = [U, "(declare-fun f (U) U)"] + constants(["x", "y"], "U") + constants(named("u", n + 1) + named("v", n + 1), "U")
    parts += ["(assert (= u0 x))", "(assert (= v0 y))"]
    for i in range(n):
        parts += [f"(assert (= u{i + 1} (f u{i})))", f"(assert (= v{i + 1} (f v{i})))"]
    return parts + ["(assert (= x y))", f"(assert (not (= u{n} v{n})))"]


def negations(n):
    """Each Boolean is the negation of the one before, and the first is true."""
    p = named("p", n)
    return constants(p, "Bool") + [f"(assert (= {y} (not {x})))" for x, y in zip(p, p[1:])] + ["(assert p0)"]


def units(n):
    """n Booleans that are asserted."""
    p = named("p", n)
    return constants(p, "Bool") + [f"(assert {x})" for x in p]


def wide_or(n):
    """One disjunction of n Booleans, all but the last of which are false."""
    p = named("p", n)
    return constants(p, "Bool") + [f"(assert (or {' '.join(p)}))"] + [f"(assert (not {x}))" for x in p[:-1]]


def streams(n):
    """n streams, each a cell over the next and the last over the first, all with one head; the first and the middle differ."""
    x = named("x", n)
    return [E, STREAM] + constants(x, "Stream") + [f"(assert (= x{i} (scons a x{(i + 1) % n})))" for i in range(n)] + [f"(assert (not (= x0 x{n // 2})))"]


def stream_choices(n):
    """n streams, each a cell of a or of b over the next; the first and the middle differ, and all heads are a."""
    x = named("x", n)
    parts = [E, STREAM] + constants(x, "Stream")
    for i in range(n):
        after = f"x{(i + 1) % n}"
        parts += [f"(assert (or (= x{i} (scons a {after})) (= x{i} (scons b {after}))))", f"(assert (= (shead x{i}) a))"]
    return parts + [f"(assert (not (= x0 x{n // 2})))"]


def bisimulations(n):
    """Two rings of n and of n + 1 cells with one head, whose firsts differ."""
    parts = [E, STREAM] + constants(named("x", n) + named("y", n + 1), "Stream")
    for letter, count in (("x", n), ("y", n + 1)):
        parts += [f"(assert (= {letter}{i} (scons a {letter}{(i + 1) % count})))" for i in range(count)]
    return parts + ["(assert (not (= x0 y0)))"]


def processes(n):
    """n processes that fork into the next and the one after it; the first and the last differ."""
    x = named("x", n)
    return [PROCESS] + constants(x, "P") + [f"(assert (= x{i} (ch x{(i + 1) % n} x{(i + 2) % n})))" for i in range(n)] + [f"(assert (not (= x0 x{n - 1})))"]


def constructor_problem(n, seed=1):
    """Random clauses of literals over n lists and trees: equations, testers, selectors (as random problems of datatypes are made)."""
    chance = random.Random(seed * 1000 + n)
    parts = ["(declare-datatype N ((zero) (succ (pred N))))", "(declare-datatypes ((L 0) (T 0)) (((null) (cons (car T) (cdr L))) ((node (children L)) (leaf (data N)))))"]
    names = {"N": named("n", n), "L": named("l", n), "T": named("t", n)}
    for sort, some in names.items():
        parts += constants(some, sort)

    def term(sort, depth):
        if depth == 0 or chance.random() < 0.4:
            return chance.choice(names[sort])
        if sort == "N":
            return chance.choice([lambda: "zero", lambda: f"(succ {term('N', depth - 1)})", lambda: f"(pred {term('N', depth - 1)})", lambda: f"(data {term('T', depth - 1)})"])()
        if sort == "L":
            return chance.choice([lambda: "null", lambda: f"(cons {term('T', depth - 1)} {term('L', depth - 1)})", lambda: f"(cdr {term('L', depth - 1)})", lambda: f"(children {term('T', depth - 1)})"])()
        return chance.choice([lambda: f"(node {term('L', depth - 1)})", lambda: f"(leaf {term('N', depth - 1)})", lambda: f"(car {term('L', depth - 1)})"])()

    def literal():
        sort = chance.choice("NLT")
        kind = chance.random()
        if kind < 0.7:
            atom = f"(= {term(sort, 2)} {term(sort, 2)})"
        else:
            atom = f"((_ is {chance.choice({'N': ['zero', 'succ'], 'L': ['null', 'cons'], 'T': ['node', 'leaf']}[sort])}) {term(sort, 1)})"
        return atom if chance.random() < 0.5 else f"(not {atom})"

    for _ in range(3 * n):
        parts.append(f"(assert (or {' '.join(literal() for _ in range(3))}))")
    return parts


def three_sat(n, seed=1):
    """Random clauses of three literals, 4.25 for each variable."""
    chance = random.Random(seed * 1000 + n)
    p = named("p", n)
    parts = constants(p, "Bool")
    for _ in range(round(4.25 * n)):
        some = chance.sample(p, 3)
        parts.append(f"(assert (or {' '.join(x if chance.random() < 0.5 else f'(not {x})' for x in some)}))")
    return parts


def zebra(n):
    """n houses with n features of three kinds, all different of a kind, and neighbours: a puzzle in the manner of the zebra's."""
    houses = " ".join(f"(h{i})" for i in range(n))
    parts = [f"(declare-datatype H ({houses}))"]
    for kind in "abc":
        parts += constants(named(kind, n), "H") + [f"(assert (distinct {' '.join(named(kind, n))}))"]
    next_to = " ".join(f"(and (= x h{i}) (= y h{i + 1}))" for i in range(n - 1))
    parts.append(f"(define-fun right ((x H) (y H)) Bool (or {next_to}))")
    parts += [f"(assert (right a{i} b{i + 1}))" for i in range(0, n - 1)]
    parts += [f"(assert (= b{i} c{(i + 2) % n}))" for i in range(0, n - 1)]
    return parts + ["(assert (not (= a0 h0)))"]


def quasigroup(n):
    """A Latin square of n by n that commutes, with idempotent elements."""
    values = " ".join(f"(v{i})" for i in range(n))
    parts = [f"(declare-datatype V ({values}))", "(declare-fun m (V V) V)"]
    for i in range(n):
        parts.append(f"(assert (distinct {' '.join(f'(m v{i} v{j})' for j in range(n))}))")
        parts.append(f"(assert (distinct {' '.join(f'(m v{j} v{i})' for j in range(n))}))")
        parts.append(f"(assert (= (m v{i} v{i}) v{i}))")
    return parts


def colouring(n, seed=1):
    """A random graph of n points whose lines, 2.3 for each point, are between points of different colours, of three."""
    chance = random.Random(seed * 1000 + n)
    x = named("x", n)
    parts = ["(declare-datatype C ((red) (green) (blue)))"] + constants(x, "C")
    lines = {tuple(sorted(chance.sample(range(n), 2))) for _ in range(round(2.3 * n))}
    return parts + [f"(assert (not (= x{i} x{j})))" for i, j in sorted(lines)]


def sudoku(n, seed=1):
    """A square of n to the fourth cells, in which each row, column and block has all numbers; two fifths of the cells are given."""
    chance = random.Random(seed * 1000 + n)
    width = n * n
    numbers = named("v", width)
    parts = [f"(declare-datatype V ({' '.join(f'({v})' for v in numbers)}))"]
    cells = [[f"x{r}_{c}" for c in range(width)] for r in range(width)]
    parts += constants([cell for row in cells for cell in row], "V")
    blocks = [[cells[n * i + r][n * j + c] for r in range(n) for c in range(n)] for i in range(n) for j in range(n)]
    parts += [f"(assert (distinct {' '.join(group)}))" for group in [*cells, *zip(*cells), *blocks]]
    chance.shuffle(numbers)
    given = [(r, c) for r in range(width) for c in range(width) if chance.random() < 0.4]
    return parts + [f"(assert (= {cells[r][c]} {numbers[(n * r + r // n + c) % width]}))" for r, c in given]


def execution(n):
    """A path of n steps of a program over a state of a register and a stack: it pushes where its input says so, every fourth time,
    and else where its register is not zero; it pops otherwise, and halts where nothing is left. It has not halted, with an empty stack."""
    parts = ["(declare-datatypes ((Val 0) (Stack 0) (State 0)) (((zero) (succ (pred Val))) ((empty) (onto (top Val) (rest Stack))) ((run (acc Val) (stack Stack)) (halt (result Val)))))"]
    parts += ["(define-fun pushed ((s State)) State (run (succ (acc s)) (onto (acc s) (stack s))))"]
    parts += ["(define-fun popped ((s State)) State (match (stack s) ((empty (halt (acc s))) ((onto v r) (run v r)))))"]
    parts += ["(define-fun step ((s State) (c Bool)) State (match s (((halt v) s) ((run v r) (ite c (pushed s) (popped s))))))"]
    parts += constants(named("s", n + 1), "State") + constants(named("i", n), "Bool") + ["(assert (= s0 (run zero empty)))"]
    for k in range(n):
        test = f"i{k}" if k % 4 == 0 else f"(and i{k} ((_ is succ) (acc s{k})))"
        parts.append(f"(assert (= s{k + 1} (step s{k} {test})))")
    return parts + [f"(assert ((_ is run) s{n}))", f"(assert (= (stack s{n}) empty))", f"(assert (= (acc s{n}) zero))"]


def any_order(n, seed=1):
    """The state machine whose assertions stand in any order."""
    chance = random.Random(seed * 1000 + n)
    parts = machine(n)
    asserts = [part for part in parts if part.startswith("(assert")]
    chance.shuffle(asserts)
    return [part for part in parts if not part.startswith("(assert")] + asserts


def interpreter(n):
    """An expression of unknown shape and its negation, evaluated to depth n, give one value."""
    parts = ["(declare-datatype B ((tt) (ff)))", "(declare-datatype X ((lit (val B)) (neg (arg X)) (conj (left X) (right X))))"]
    parts.append("(define-fun not_ ((x B)) B (match x ((tt ff) (ff tt))))")
    parts.append("(define-fun and_ ((x B) (y B)) B (match x ((tt y) (ff ff))))")
    parts.append("(define-fun eval0 ((x X)) B (match x (((lit v) v) ((neg y) tt) ((conj y z) tt))))")
    for i in range(1, n + 1):
        parts.append(f"(define-fun eval{i} ((x X)) B (match x (((lit v) v) ((neg y) (not_ (eval{i - 1} y))) ((conj y z) (and_ (eval{i - 1} y) (eval{i - 1} z))))))")
    parts += constants(["e"], "X")
    return parts + [f"(assert (= (eval{n} e) tt))", f"(assert (= (eval{n} (neg e)) tt))"]

# Families whose scripts need no search: what they take is the floor of a check.


def shapes(n):
    """n shapes in clauses, of which the rectangles share one list of which nothing is known."""
    parts = [U, "(declare-datatype L ((nil) (cons (hd U) (tl L))))", "(declare-datatype R ((rect (w L) (h L)) (disc (r L))))"]
    parts += constants(["z"], "L") + constants(named("s", n), "R") + constants(named("q", n), "Bool")
    for i in range(n):
        parts += [f"(assert (or q{i} ((_ is rect) s{i})))", f"(assert (or (not q{i}) ((_ is disc) s{i})))"]
        parts += [f"(assert (=> ((_ is rect) s{i}) (= (w s{i}) z)))", f"(assert (=> q{i} (= (r s{i}) (cons (hd z) z))))"]
    return parts


def lights(n):
    """Two traffic lights that change n times as a rule says, and at some time are both green."""
    parts = ["(declare-datatype C ((R) (G) (Y)))", "(declare-datatype S ((st (ns C) (ew C) (turn Bool))))"]
    parts.append(
        "(define-fun step ((s S)) S (ite (turn s) (match (ns s) ((R (st G (ew s) true)) (G (st Y (ew s) true)) (Y (st R (ew s) false))))"
        " (match (ew s) ((R (st (ns s) G false)) (G (st (ns s) Y false)) (Y (st (ns s) R true))))))"
    )
    parts.append("(define-fun bad ((s S)) Bool (and (= (ns s) G) (= (ew s) G)))")
    parts += constants(named("s", n + 1), "S") + ["(assert (= s0 (st R R true)))"]
    parts += [f"(assert (= s{i + 1} (step s{i})))" for i in range(n)]
    return parts + [f"(assert (or {' '.join(f'(bad s{i})' for i in range(n + 1))}))"]


def implied_equations(n):
    """n constants, each f of the one before, that equal a fixed point of f; of each that is asked."""
    parts = [U, "(declare-fun f (U) U)", "(declare-fun p (Bool) Bool)"] + constants(["a"] + named("x", n), "U")
    parts += ["(assert (= (f a) a))", "(assert (= x0 a))"] + [f"(assert (= {y} (f {x})))" for x, y in zip(named("x", n), named("x", n)[1:])]
    return parts + [f"(assert (or (not (= {x} a)) (p (= {x} a))))" for x in named("x", n)]


def colliding_lists(n):
    """n applications of a predicate to sixteen constants, whose lists of arguments had one digest when it was a polynomial."""
    used = DIFFERENCES[: max(1, (n - 1).bit_length())]
    start = [-sum(min(0, row[i]) for row in used) for i in range(16)]
    size = max(first + sum(max(0, row[i]) for row in used) for i, first in enumerate(start)) + 1
    c = named("c", size)
    lists = [[start[i] + sum(row[i] for k, row in enumerate(used) if j >> k & 1) for i in range(16)] for j in range(n)]
    functions = [f"(declare-fun {f} ({' '.join(['U'] * count)}) Bool)" for f, count in (("all", size), ("f", 16))]
    return [U] + constants(c, "U") + functions + [f"(assert (all {' '.join(c)}))"] + [f"(assert (f {' '.join(c[t] for t in some)}))" for some in lists]

def distincts(n):
    """Two lists of n constants, all different in each."""
    x, y = named("x", n), named("y", n)
    return [U] + constants(x + y, "U") + [f"(assert (distinct {' '.join(some)}))" for some in (x, y)]


def block(n):
    """A block of n codatatypes in a ring, and one of n with a parameter, each of ten pairs of that and of pairs over the first ones."""
    rings, wide = named("A", n), named("B", n)
    ring = " ".join(f"((a{i} (al{i} {rings[(i + 1) % n]})))" for i in range(n))
    pairs = lambda i: " ".join(f"(bf{i}_{j} (P X (P {rings[i]} {rings[37 * j % n]})))" for j in range(10))
    over = " ".join(f"(par (X) ((b{i} {pairs(i)})))" for i in range(n))
    parts = ["(declare-codatatypes ((P 2)) ((par (X Y) ((p (pf X) (ps Y))))))"]
    return parts + [f"(declare-codatatypes ({' '.join(f'({a} {k})' for a in some)}) ({text}))" for some, k, text in ((rings, 0, ring), (wide, 1, over))]


def records(n):
    """n records, each of two of the one before."""
    return ["(declare-datatype D0 ((c0)))"] + [f"(declare-datatype D{i} ((c{i} (a{i} D{i - 1}) (b{i} D{i - 1}))))" for i in range(1, n)]


def enumeration(n):
    """An enumeration of n constructors, of which a constant is not one."""
    return [f"(declare-datatype E ({' '.join(f'({k})' for k in named('k', n))}))", "(declare-const x E)", "(assert (not ((_ is k0) x)))"]


def cycle(n):
    """n lists, each a cell over the next and the last over the first."""
    parts = [U, "(declare-datatype L ((nil) (cons (hd U) (tl L))))"] + constants(named("x", n), "L") + constants(named("u", n), "U")
    return parts + [f"(assert (= x{i} (cons u{i} x{(i + 1) % n})))" for i in range(n)]


def new_instances(n):
    """n rounds, each with an instance of a pair that was not there before."""
    side = int(n**0.5) + 1
    parts = ["(declare-datatypes ((P 2)) ((par (X Y) ((mk (fst X) (snd Y))))))"] + [f"(declare-sort {s} 0)" for s in named("S", side)]
    for i in range(n):
        parts += ["(push 1)", f"(declare-const v (P S{i // side} S{i % side}))", "(check-sat)", "(pop 1)"]
    return parts


def written(folder, make, size, *more):
    """The path of a new script of this size, which checks and then has these commands too."""
    path = os.path.join(folder, "s.smt2")
    with open(path, "w", encoding="ascii") as file:
        file.write("\n".join(["(set-logic ALL)", *make(size), "(check-sat)", *more]) + "\n")
    return path


# The family, its first size, its verdict where each size has the same one, and whether its search makes no conflict.
FAMILIES = [
    ("chain of clauses", clause_chain, 1000, "sat", True),
    ("chain of equations", equation_chain, 100, "sat", False),
    ("tower of equations", equality_tower, 500, "unsat", True),
    ("towers of constructors", towers, 250, "unsat", True),
    ("nested functions", nested_functions, 250, "unsat", True),
    ("nested negations", negations, 500, "sat", True),
    ("unit facts", units, 1000, "sat", True),
    ("wide or", wide_or, 1000, "sat", True),
    ("record of Booleans", record, 5, "unsat", True),
    ("streams", streams, 50, "unsat", True),
    ("streams of choices", stream_choices, 10, "unsat", False),
    ("bisimulations", bisimulations, 10, "unsat", True),
    ("processes", processes, 10, "unsat", True),
    ("diamonds", diamonds, 5, "unsat", False),
    ("pigeons", pigeons, 3, "unsat", False),
    ("state machine", machine, 25, None, False),
    ("assertions in any order", any_order, 25, None, False),
    ("paths of execution", execution, 5, None, False),
    ("constructor problems", constructor_problem, 5, None, False),
    ("3-SAT", three_sat, 25, None, False),
    ("zebra", zebra, 3, None, False),
    ("quasigroup", quasigroup, 2, None, False),
    ("sudoku", sudoku, 2, "sat", False),
    ("graph colouring", colouring, 10, None, False),
    ("interpreter", interpreter, 1, None, False),
]

# The same of those that need no search.
PLAIN = [
    ("shapes over one list", shapes, 250, "sat", True),
    ("lights", lights, 20, "unsat", True),
    ("chain of implied equations", implied_equations, 250, "sat", True),
    ("two distinct", distincts, 20, "sat", True),
    ("lists that collided", colliding_lists, 512, "sat", True),
    ("blocks of sorts", block, 25, "sat", True),
    ("records over records", records, 250, "sat", True),
    ("enumeration", enumeration, 1000, "sat", True),
    ("cycle of lists", cycle, 625, "unsat", True),
    ("rounds of instances", new_instances, 225, "sat", True),
]
