; A function of two trees that are equal.
; unsat: x and y are the same tree, so f has the same result for both.
; cvc5 1.0.3 and CVC4 1.8 answer sat; the model of cvc5 gives both the same value.
(set-logic ALL)
(set-info :status unsat)
(declare-codatatype Tree ((node (left Tree) (right Tree)) (leaf)))
(declare-sort U 0)
(declare-fun f (Tree) U)
(declare-const x Tree)
(declare-const y Tree)
(assert (= x (node x x)))
(assert (= y (node (node y x) (node x y))))
(assert (not (= (f x) (f y))))
(check-sat)
