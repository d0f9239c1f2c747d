; rvklee leaf 1
; kind steps
; choices .
; path .
; steps 0
; end running
; inputs 2
; nodes 8
; outputs 0
(set-logic QF_ABV)
(declare-fun b0 () (_ BitVec 8))
(declare-fun b1 () (_ BitVec 8))
(declare-fun base () (Array (_ BitVec 8) (_ BitVec 8)))
(define-fun n0 () (_ BitVec 8) b0)
(define-fun n1 () (_ BitVec 8) b1)
(define-fun n2 () (_ BitVec 8) (bvudiv n0 n1))
(define-fun n3 () (_ BitVec 8) (bvurem n0 n1))
(define-fun n4 () (_ BitVec 8) (bvmul n2 n1))
(define-fun n5 () (_ BitVec 8) (bvadd n4 n3))
(define-fun n6 () (_ BitVec 1) (ite (= n5 n0) (_ bv1 1) (_ bv0 1)))
(define-fun n7 () (_ BitVec 1) (bvnot n6))
(assert (= n7 (_ bv1 1)))
(check-sat)
(exit)
