; Codatatypes with a parameter: streams and possibly infinite lists, with elements of any sort.
(set-logic ALL)
(declare-datatype Bit ((zero) (one)))
(declare-codatatypes ((Stream 1)) ((par (X) ((scons (shead X) (stail (Stream X)))))))
(declare-codatatypes ((LList 1)) ((par (X) ((lnil) (lcons (lhead X) (ltail (LList X)))))))

; Two streams of bits that satisfy the same equation are equal.
(push 1)
(declare-const s (Stream Bit))
(declare-const t (Stream Bit))
(assert (= s (scons zero (scons one s))))
(assert (= t (scons zero (scons one t))))
(assert (not (= s t)))
(check-sat)
(pop 1)

; A stream of streams: first the stream of ones, and then the stream itself again.
(declare-const rows (Stream (Stream Bit)))
(declare-const ones (Stream Bit))
(assert (= ones (scons one ones)))
(assert (= rows (scons ones rows)))
(check-sat)
(get-value (ones))
(get-value ((shead (stail rows))))

; An infinite list of optional bits.
(declare-datatypes ((Maybe 1)) ((par (X) ((nothing) (just (the X))))))
(declare-const l (LList (Maybe Bit)))
(assert (= (ltail l) l))
(assert ((_ is lcons) l))
(assert (= (lhead l) (just zero)))
(check-sat)
(get-value (l))
