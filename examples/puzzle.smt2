; Three neighbours live in houses of three colors and have three drinks. Who lives where, and who has what?
(declare-datatype Person ((ann) (bob) (cay)))
(declare-datatype Color ((red) (green) (blue)))
(declare-datatype Drink ((tea) (milk) (coffee)))
(declare-fun house (Person) Color)
(declare-fun drink (Person) Drink)
(assert (distinct (house ann) (house bob) (house cay)))
(assert (distinct (drink ann) (drink bob) (drink cay)))
; There is coffee in the green house, Bob has tea, and Cay lives in the red house.
(define-fun fits ((p Person)) Bool (=> (= (house p) green) (= (drink p) coffee)))
(assert (and (fits ann) (fits bob) (fits cay)))
(assert (= (drink bob) tea))
(assert (= (house cay) red))
(check-sat)
(get-value ((house ann) (house bob) (house cay) (drink ann) (drink bob) (drink cay)))
; There is no other answer.
(assert (not (and
    (= (house ann) green) (= (house bob) blue) (= (house cay) red)
    (= (drink ann) coffee) (= (drink bob) tea) (= (drink cay) milk))))
(check-sat)
