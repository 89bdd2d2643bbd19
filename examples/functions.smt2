; An uninterpreted function: all that is known is that equal arguments give equal results.
(declare-sort Person 0)
(declare-fun mother (Person) Person)
(declare-const ann Person)
(declare-const bob Person)
(assert (distinct (mother ann) (mother bob)))
(check-sat)
(assert (= ann bob))
(check-sat)
