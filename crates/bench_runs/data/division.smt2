; rvklee leaf 1
; kind steps
; choices .
; path .
; steps 0
; end running
; inputs 3
; nodes 15
; outputs 0
(set-logic QF_ABV)
(declare-fun b0 () (_ BitVec 8))
(declare-fun b1 () (_ BitVec 8))
(declare-fun b2 () (_ BitVec 8))
(declare-fun base () (Array (_ BitVec 8) (_ BitVec 8)))
(define-fun n0 () (_ BitVec 8) b0)
(define-fun n1 () (_ BitVec 32) ((_ zero_extend 24) n0))
(define-fun n2 () (_ BitVec 32) (_ bv8 32))
(define-fun n3 () (_ BitVec 32) (bvshl n1 n2))
(define-fun n4 () (_ BitVec 8) b1)
(define-fun n5 () (_ BitVec 32) ((_ zero_extend 24) n4))
(define-fun n6 () (_ BitVec 32) (bvor n3 n5))
(define-fun n7 () (_ BitVec 8) b2)
(define-fun n8 () (_ BitVec 32) ((_ zero_extend 24) n7))
(define-fun n9 () (_ BitVec 32) (bvudiv n6 n8))
(define-fun n10 () (_ BitVec 32) (_ bv7 32))
(define-fun n11 () (_ BitVec 1) (ite (= n9 n10) (_ bv1 1) (_ bv0 1)))
(define-fun n12 () (_ BitVec 32) (bvurem n6 n8))
(define-fun n13 () (_ BitVec 32) (_ bv3 32))
(define-fun n14 () (_ BitVec 1) (ite (= n12 n13) (_ bv1 1) (_ bv0 1)))
(assert (= n11 (_ bv1 1)))
(assert (= n14 (_ bv1 1)))
(check-sat)
(exit)
