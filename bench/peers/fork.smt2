; Three processes, each of which forks into two of them.
; unsat: on every path from x and from y the processes go on forking for ever, so x and y are the same infinite tree.
; cvc5 1.0.3 and CVC4 1.8 answer sat; the model of cvc5 gives both the same value.
(set-logic ALL)
(set-info :status unsat)
(declare-codatatype Process ((fork (left Process) (right Process)) (stop)))
(declare-const x Process)
(declare-const y Process)
(declare-const z Process)
(assert (= x (fork y z)))
(assert (= y (fork y x)))
(assert (= z (fork z y)))
(assert (not (= x y)))
(check-sat)
