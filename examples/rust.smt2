; A verification condition as a verifier of Rust would write it: nested `Option`, `Result` and a list for `Vec`, and a
; function that pops the first inner list of `Vec<Option<Vec<E>>>`.
(set-logic ALL)
(declare-datatype E ((a) (b) (c)))
(declare-datatypes ((Option 1)) ((par (T) ((none) (some (get T))))))
(declare-datatypes ((Result 2)) ((par (T F) ((ok (value T)) (err (error F))))))
(declare-datatypes ((List 1)) ((par (T) ((nil) (cons (head T) (tail (List T)))))))
(declare-datatype Failure ((Empty) (Missing)))

; fn first(v: &Vec<Option<Vec<E>>>) -> Result<E, Failure>
(define-fun first ((v (List (Option (List E))))) (Result E Failure)
  (match v (
    (nil ((as err (Result E Failure)) Empty))
    ((cons o _) (match o (
      (none ((as err (Result E Failure)) Missing))
      ((some inner) (match inner (
        (nil ((as err (Result E Failure)) Empty))
        ((cons e _) ((as ok (Result E Failure)) e)))))))))))

(declare-const v (List (Option (List E))))

; requires: v begins with Some of a list that begins with b; ensures: the answer is Ok(b)
(push 1)
(assert (= (head (get (head v))) b))
(assert ((_ is cons) v))
(assert ((_ is some) (head v)))
(assert ((_ is cons) (get (head v))))
(assert (not (= (first v) ((as ok (Result E Failure)) b))))
(check-sat)
(pop 1)

; A vector for which the answer is Err(Missing), and a longer one.
(assert (= (first v) ((as err (Result E Failure)) Missing)))
(assert (= (tail v) (cons (some (cons a (as nil (List E)))) (as nil (List (Option (List E)))))))
(check-sat)
(get-value (v))
(get-value ((first v)))
