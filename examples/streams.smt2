; Streams never end: each is a head and a tail. Two streams that agree everywhere are equal.
(declare-datatype Color ((red) (green)))
(declare-codatatype Stream ((more (first Color) (rest Stream))))
(declare-const s Stream)
(declare-const t Stream)
; s is red for ever, and so is t, described two elements at a time.
(assert (= s (more red s)))
(assert (= t (more red (more red t))))
(check-sat)
(get-value (s t (first (rest t))))
(assert (distinct s t))
(check-sat)
