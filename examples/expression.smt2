; Expression trees, and a selector applied to a tree of another constructor: it gives some tree, which the model
; chooses, and the same one for equal trees.
(declare-sort Number 0)
(declare-datatype Expression (
    (literal (number Number))
    (negation (inner Expression))
    (sum (left Expression) (right Expression))))
(declare-const e Expression)
(declare-const f Expression)
(assert ((_ is literal) e))
; Nothing prevents the left part of a literal from being a sum over that literal.
(assert (= (left e) (sum e e)))
(check-sat)
(get-value (((_ is sum) e) ((_ is sum) (left e)) (= (left (left e)) e)))
; But two literals of the same number are the same tree, so they have the same left part.
(assert ((_ is literal) f))
(assert (= (number e) (number f)))
(check-sat)
(get-value ((= (left f) (left e))))
(assert (distinct (left f) (sum f f)))
(check-sat)
