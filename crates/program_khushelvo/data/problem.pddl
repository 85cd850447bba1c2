; Two pumps, ready and on. The test wants two doses from pump a.
(define (problem two-doses)
  (:domain bench)
  (:objects a b - pump)
  (:init
    (ready a) (ready b) (on a) (on b)
    (= (lock a) 5) (= (lock b) 5)
    (= (doses a) 0) (= (doses b) 0))
  (:goal (>= (doses a) 2)))
