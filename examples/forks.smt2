; Three processes that fork for ever, each into two of them. No observer can tell them apart.
(declare-codatatype Process ((fork (left Process) (right Process)) (stop)))
(declare-const x Process)
(declare-const y Process)
(declare-const z Process)
(assert (= x (fork y z)))
(assert (= y (fork y x)))
(assert (= z (fork z y)))
(check-sat)
(get-value (x y))
; So x and y cannot differ: the derivation shows why.
(assert (not (= x y)))
(check-sat)
(get-proof)
