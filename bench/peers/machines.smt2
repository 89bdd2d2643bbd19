; Three machines: each takes a coin, then its user has a choice between tea and coffee, and then another of the machines goes on.
; unsat: no observer can tell which of the machines goes on.
; cvc5 1.0.3 and CVC4 1.8 answer sat; the model of cvc5 gives both the same value.
(set-logic ALL)
(set-info :status unsat)
(declare-datatype Action ((coin) (tea) (coffee)))
(declare-codatatype Machine ((act (action Action) (next Machine)) (branch (one Machine) (other Machine))))
(declare-const p Machine)
(declare-const q Machine)
(declare-const r Machine)
(assert (= p (act coin (branch (act tea p) (act coffee q)))))
(assert (= q (act coin (branch (act tea r) (act coffee p)))))
(assert (= r (act coin (branch (act tea q) (act coffee r)))))
(assert (not (= p q)))
(check-sat)
