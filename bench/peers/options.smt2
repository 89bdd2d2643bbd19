; Three options of a clock, all different.
; unsat: there is only one clock, so there are only two options of it.
; cvc5 1.0.3 answers sat; CVC4 1.8 does not end.
(set-logic ALL)
(set-info :status unsat)
(declare-codatatype Clock ((tick (rest Clock))))
(declare-datatype Option ((none) (some (content Clock))))
(declare-const x Option)
(declare-const y Option)
(declare-const z Option)
(assert (distinct x y z))
(check-sat)
