; The infinite tree all of whose nodes fork, described one level at a time and two levels at a time.
; unsat: no node of either tree is a leaf, so they agree everywhere.
; cvc5 1.0.3 and CVC4 1.8 answer sat; the model of cvc5 gives both the same value.
(set-logic ALL)
(set-info :status unsat)
(declare-codatatype Tree ((node (left Tree) (right Tree)) (leaf)))
(declare-const x Tree)
(declare-const y Tree)
(assert (= x (node x x)))
(assert (= y (node (node y x) (node x y))))
(assert (not (= x y)))
(check-sat)
