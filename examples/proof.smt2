; No list is its own tail, and the derivation that shows it. docs/DERIVATIONS.md describes its format.
(declare-sort Item 0)
(declare-datatype List ((nil) (cons (head Item) (tail List))))
(declare-const l List)
(declare-const x Item)
(assert (= l (cons x l)))
(check-sat)
(get-proof)
