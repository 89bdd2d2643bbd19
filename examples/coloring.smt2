; The mainland of Australia in three colors: regions with a common border have different colors.
(declare-datatype Region ((wa) (nt) (sa) (qld) (nsw) (vic)))
(declare-datatype Color ((red) (green) (blue)))
(declare-fun color (Region) Color)
(define-fun border ((x Region) (y Region)) Bool
    (match x (
        (wa (or (= y nt) (= y sa)))
        (nt (or (= y sa) (= y qld)))
        (sa (or (= y qld) (= y nsw) (= y vic)))
        (qld (= y nsw))
        (nsw (= y vic))
        (vic false))))
(assert (forall ((x Region) (y Region)) (=> (border x y) (distinct (color x) (color y)))))
(assert (= (color wa) red))
(assert (= (color nt) green))
(check-sat)
(get-value ((color sa) (color qld) (color nsw) (color vic)))
; Two colors are not enough: no color can be left out.
(assert (exists ((c Color)) (forall ((x Region)) (distinct (color x) c))))
(check-sat)
