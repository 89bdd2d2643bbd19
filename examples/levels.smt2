; A verifier's obligations, one after another. What holds for all of them is asserted at the outermost
; level. The negation of each obligation is asserted at its own level, which is removed afterwards.
(declare-sort Item 0)
(declare-datatype Stack ((empty) (put (top Item) (rest Stack))))
(declare-const before Stack)
(declare-const x Item)
(define-const after Stack (put x before))

; The item that was put is on top.
(push)
(assert (not (= (top after) x)))
(check-sat)
(pop)

; If the stack was not empty, the part below its top is now below the top two.
(push)
(assert ((_ is put) before))
(push)
(declare-const below Stack)
(assert (= below (rest (rest after))))
(assert (not (= below (rest before))))
(get-info :assertion-stack-levels)
(check-sat)
(pop)
; The next obligation of the same branch does not hold: the item below the top need not be x.
(push)
(assert (not (= (top (rest after)) x)))
(check-sat)
(get-value ((= (top before) x) ((_ is empty) before)))
(pop 2)

; Nothing is left of the branch: no assertion, and no name that was declared in it.
(get-info :assertion-stack-levels)
(declare-const below Item)
(assert ((_ is empty) before))
(check-sat)
(get-value (before (rest after)))
