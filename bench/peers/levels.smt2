; A list that is its own tail, asserted on a level after a check. The sort of lists has a parameter.
; sat, then unsat: lists are finite.
; z3 4.8.12 answers sat to both; with one check and no level it ends by a segmentation fault. It is right where the sort has no parameter.
(set-logic ALL)
(declare-datatype Color ((red) (green)))
(declare-datatype List (par (X) ((nil) (cons (head X) (tail (List X))))))
(declare-const x (List Color))
(declare-const y (List Color))
(assert (= x (cons red y)))
(set-info :status sat)
(check-sat)
(push 1)
(assert (= x y))
(set-info :status unsat)
(check-sat)
(pop 1)
