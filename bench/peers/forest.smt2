; Trees that each have a list of two trees, over two mutually recursive codatatypes.
; unsat: every node of s and of t has two children, for ever.
; cvc5 1.0.3 and CVC4 1.8 answer sat; the model of cvc5 gives both the same value.
(set-logic ALL)
(set-info :status unsat)
(declare-codatatypes ((Tree 0) (Forest 0)) (
    ((node (children Forest)))
    ((empty) (plant (first Tree) (others Forest)))))
(declare-const s Tree)
(declare-const t Tree)
(assert (= s (node (plant t (plant t empty)))))
(assert (= t (node (plant s (plant t empty)))))
(assert (not (= s t)))
(check-sat)
