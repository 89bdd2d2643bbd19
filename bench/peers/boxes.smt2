; Boxes that each hold a clock.
; unsat: there is only one clock, so there is only one box.
; cvc5 1.0.3 answers sat, and does not end when it is asked for a value; CVC4 1.8 does not end.
(set-logic ALL)
(set-info :status unsat)
(declare-codatatype Clock ((tick (rest Clock))))
(declare-datatype Box ((box (content Clock))))
(declare-const x Box)
(declare-const y Box)
(assert (not (= x y)))
(check-sat)
