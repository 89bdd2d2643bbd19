; A goal as Isabelle's Sledgehammer and Nunchaku would write it: lists and pairs over the types of the goal, which are
; uninterpreted sorts, and the functions of the goal with the equations that the proof may use, at the terms that occur.
(set-logic QF_UFDT)
(declare-sort A$ 0)
(declare-sort B$ 0)
(declare-datatypes ((List$ 1)) ((par (X) (
    (nil$)
    (cons$ (hd$ X) (tl$ (List$ X)))))))
(declare-datatypes ((Prod$ 2)) ((par (X Y) (
    (pair$ (fst$ X) (snd$ Y))))))
(declare-const x$ A$)
(declare-const y$ B$)
(declare-const xs$ (List$ A$))
(declare-const ys$ (List$ B$))
(declare-fun zip$ ((List$ A$) (List$ B$)) (List$ (Prod$ A$ B$)))

; zip (x # xs) (y # ys) = (x, y) # zip xs ys, and zip [] ys = []
(assert (! (= (zip$ (cons$ x$ xs$) (cons$ y$ ys$)) (cons$ (pair$ x$ y$) (zip$ xs$ ys$))) :source axiom))
(assert (! (= (zip$ (as nil$ (List$ A$)) ys$) (as nil$ (List$ (Prod$ A$ B$)))) :source axiom))

; The goal, negated: snd (hd (zip (x # xs) (y # ys))) = y.
(push 1)
(assert (not (= (snd$ (hd$ (zip$ (cons$ x$ xs$) (cons$ y$ ys$)))) y$)))
(check-sat)
(pop 1)

; A goal that does not hold: zip (x # xs) (y # ys) = (x, y) # []. The model gives a longer list.
(assert (not (= (zip$ (cons$ x$ xs$) (cons$ y$ ys$)) (cons$ (pair$ x$ y$) (as nil$ (List$ (Prod$ A$ B$)))))))
(check-sat)
(get-value (((_ is nil$) xs$) ((_ is nil$) (zip$ xs$ ys$))))
