; A step of an induction proof, as a proof assistant passes it on: the chosen instances of the equations of `reverse`
; and `append`, and the negated goal that reversing a list twice gives the list back.
(declare-sort Element 0)
(declare-datatype List ((nil) (cons (head Element) (tail List))))
(declare-fun append (List List) List)
(declare-fun reverse (List) List)
(define-fun single ((e Element)) List (cons e nil))
(declare-const l List)
(assert ((_ is cons) l))
; What `reverse` gives at l.
(assert (= (reverse l) (append (reverse (tail l)) (single (head l)))))
; A lemma at the reversal of the tail: the last element comes first.
(assert (= (reverse (append (reverse (tail l)) (single (head l)))) (cons (head l) (reverse (reverse (tail l))))))
; The negated goal. It does not follow without the induction hypothesis.
(assert (not (= (reverse (reverse l)) l)))
(check-sat)
(get-value ((= (reverse (reverse (tail l))) (tail l))))
; The hypothesis: the goal at the tail.
(assert (= (reverse (reverse (tail l))) (tail l)))
(check-sat)
