; A proof obligation as Why3 would write it: options and tuples of its library, a synonym for the type of a map's bindings, and
; a program that looks up a key in an association list of two bindings.
(set-logic ALL)
(declare-sort key 0)
(declare-sort value 0)
(declare-datatypes ((option 1)) ((par (a) ((None) (Some (Some_proj_1 a))))))
(declare-datatypes ((tuple2 2)) ((par (a a1) ((Tuple2 (Tuple2_proj_1 a) (Tuple2_proj_2 a1))))))
(declare-datatypes ((list 1)) ((par (a) ((Nil) (Cons (Cons_proj_1 a) (Cons_proj_2 (list a)))))))
(define-sort binding () (tuple2 key value))
(define-sort bindings (b) (list b))

(declare-const k key)
(declare-const k1 key)
(declare-const v value)
(declare-const v1 value)
(declare-const m (bindings binding))
(assert (= m (Cons (Tuple2 k1 v1) (Cons (Tuple2 k v) (as Nil (list binding))))))

; find k of a list of at most two bindings
(define-fun find_last ((l (bindings binding))) (option value)
  (match l (
    (Nil (as None (option value)))
    ((Cons b rest) (ite (= (Tuple2_proj_1 b) k) (Some (Tuple2_proj_2 b)) (as None (option value)))))))
(define-fun find ((l (bindings binding))) (option value)
  (match l (
    (Nil (as None (option value)))
    ((Cons b rest) (ite (= (Tuple2_proj_1 b) k) (Some (Tuple2_proj_2 b)) (find_last rest))))))

; A key of the list is found.
(push 1)
(assert (= (find m) (as None (option value))))
(check-sat)
(pop 1)

; The result is the value of the key's last binding only if the keys differ.
(assert (not (= (find m) (Some v))))
(check-sat)
(get-value ((= k k1) (= (find m) (Some v1)) (= v v1)))
