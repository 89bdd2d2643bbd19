; A clock that ticks for ever, and whose marks are all the same.
; unsat: the codatatype has one value, the infinite sequence of ticks, so no two clocks differ.
; cvc5 1.0.3 answers sat, and does not end when it is asked for a value; CVC4 1.8 does not end.
(set-logic ALL)
(set-info :status unsat)
(declare-datatype Mark ((mark)))
(declare-codatatype Clock ((tick (seen Mark) (rest Clock))))
(declare-const x Clock)
(declare-const y Clock)
(assert (not (= x y)))
(check-sat)
