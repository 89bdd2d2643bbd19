; Lists are finite, so no list is the tail of itself.
(declare-datatypes ((Color 0) (List 0)) (
    ((red) (green) (blue))
    ((nil) (cons (head Color) (tail List)))))
(declare-const l List)
(assert ((_ is cons) l))
(check-sat)
(assert (= l (tail l)))
(check-sat)
