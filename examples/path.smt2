; A test generator's question: an input that takes a path through a program, and then another path. How the program
; handles a request depends on the state of a connection.
(declare-sort Name 0)
(declare-datatype Request ((open (user Name)) (send (to Name)) (close)))
(declare-datatype State ((idle) (busy (owner Name) (last Request))))
(define-fun handle ((s State) (r Request)) State
    (match s (
        (idle (match r (((open n) (busy n r)) (_ idle))))
        ((busy n before) (match r ((close idle) (_ (busy n r))))))))
(declare-const a Request)
(declare-const b Request)
(define-const after State (handle (handle idle a) b))
; The path: in the end the connection is busy, and the second request sends to somebody other than its owner.
(assert ((_ is busy) after))
(assert ((_ is send) b))
(assert (distinct (to b) (owner after)))
(check-sat)
(get-value (((_ is open) a) (= (last after) b) (= (user a) (owner after)) (= after (busy (user a) (send (to b))))))
; No input ends in the idle state on this path.
(assert (= after idle))
(check-sat)
