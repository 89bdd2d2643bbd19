; Trees with three children at each node.
; unsat: no node of any of them is a leaf, so all are the same tree.
; cvc5 1.0.3 and CVC4 1.8 answer sat; the model of cvc5 gives both the same value.
(set-logic ALL)
(set-info :status unsat)
(declare-codatatype Tree ((node (left Tree) (middle Tree) (right Tree)) (leaf)))
(declare-const x Tree)
(declare-const y Tree)
(declare-const z Tree)
(assert (= x (node y z x)))
(assert (= y (node z x y)))
(assert (= z (node z y x)))
(assert (not (= x y)))
(check-sat)
