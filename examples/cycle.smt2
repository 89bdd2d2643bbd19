; Trees whose children are a list of trees. No tree lies below itself, at any depth.
(declare-sort Label 0)
(declare-datatypes ((Tree 0) (Forest 0)) (
    ((node (label Label) (children Forest)))
    ((empty) (plant (first Tree) (others Forest)))))
(declare-const t Tree)
(declare-const f Forest)
(declare-const l Label)
(assert (= (children t) (plant (node l f) empty)))
(check-sat)
; The rest of f is the forest below t. That is possible if f is empty: then the model chooses what `others` gives.
(assert (= (others f) (children t)))
(check-sat)
(get-value (f))
; If f is not empty, t has a child over f, and the rest of f contains that child.
(assert ((_ is plant) f))
(check-sat)
