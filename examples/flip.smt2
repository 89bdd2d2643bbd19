; A function on streams that flips the head and continues with the rest. Its equation is given at two streams.
(declare-datatype Bit ((zero) (one)))
(declare-codatatype Stream ((cell (bit Bit) (rest Stream))))
(declare-fun flip (Stream) Stream)
(define-fun opposite ((b Bit)) Bit (ite (= b zero) one zero))
(define-fun unfolds ((s Stream)) Bool (= (flip s) (cell (opposite (bit s)) (flip (rest s)))))
; Zero and one in turn.
(declare-const s Stream)
(assert (= s (cell zero (cell one s))))
(assert (unfolds s))
(check-sat)
(get-value ((bit (flip s)) (= (rest (flip s)) (flip (rest s)))))
(assert (unfolds (rest s)))
(check-sat)
(get-value ((flip s) (rest s)))
; Two streams that agree everywhere are equal.
(assert (distinct (flip s) (rest s)))
(check-sat)
