; The lights of a crossing: a function gives the next state for each state, like a table.
(declare-datatype Light ((red) (green) (amber)))
(declare-datatype State ((state (north Light) (east Light))))
(declare-fun next (State) State)
(define-fun safe ((s State)) Bool (or (= (north s) red) (= (east s) red)))
; A safe state is followed by a different safe state, green by amber, and amber by red.
(assert (forall ((s State)) (=> (safe s) (and (safe (next s)) (distinct (next s) s)))))
(define-fun follows ((x Light) (y Light)) Bool
    (match x ((green (= y amber)) (amber (= y red)) (red true))))
(assert (forall ((s State)) (and (follows (north s) (north (next s))) (follows (east s) (east (next s))))))
; Each safe state follows some safe state.
(assert (forall ((s State)) (=> (safe s) (exists ((r State)) (and (safe r) (= (next r) s))))))
(assert (= (next (state red red)) (state green red)))
(check-sat)
(get-value ((next (state amber red)) (next (state red green)) (next (state red amber))))
; So north gets green within four steps, whatever the state.
(define-fun green_within_four ((s State)) Bool
    (let ((s1 (next s)))
    (let ((s2 (next s1)))
    (let ((s3 (next s2)))
    (exists ((t State)) (and (= (north t) green) (or (= t s) (= t s1) (= t s2) (= t s3) (= t (next s3)))))))))
(assert (exists ((s State)) (and (safe s) (not (green_within_four s)))))
(check-sat)
