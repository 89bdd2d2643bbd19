; Everything is read by the rules of the language: quoted symbols, strings, numbers. The last
; command is never closed.
(declare-const p Bool)
(assert p)
(check-sat)
(set-info :source |a "script"
that ends too soon|
