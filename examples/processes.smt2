; Two machines that go on for ever. Both take a coin first. Then one gives tea, and the other lets its user choose.
(declare-datatype Action ((coin) (tea) (coffee)))
(declare-codatatype Process ((stop) (act (action Action) (next Process)) (choose (one Process) (other Process))))
(declare-const p Process)
(declare-const q Process)
(assert (= p (act coin (act tea p))))
(assert (= q (act coin (choose (act tea q) (act coffee q)))))
(check-sat)
(get-value (p (= (action p) (action q)) (= (next (one (next q))) q) (= p q)))
; They differ in every model, and so do their continuations after the coin.
(assert (= (next p) (next q)))
(check-sat)
