; Thirty-two pumps, ready and on, for plans that keep 31 of them at work: 31 doses have 62 points, and 64 may wait.
(define (problem thirty-two-pumps)
  (:domain bench)
  (:objects
    p1 p2 p3 p4 p5 p6 p7 p8 p9 p10 p11 p12 p13 p14 p15 p16
    p17 p18 p19 p20 p21 p22 p23 p24 p25 p26 p27 p28 p29 p30 p31 p32 - pump)
  (:init
    (ready p1) (on p1) (ready p2) (on p2) (ready p3) (on p3) (ready p4) (on p4)
    (ready p5) (on p5) (ready p6) (on p6) (ready p7) (on p7) (ready p8) (on p8)
    (ready p9) (on p9) (ready p10) (on p10) (ready p11) (on p11) (ready p12) (on p12)
    (ready p13) (on p13) (ready p14) (on p14) (ready p15) (on p15) (ready p16) (on p16)
    (ready p17) (on p17) (ready p18) (on p18) (ready p19) (on p19) (ready p20) (on p20)
    (ready p21) (on p21) (ready p22) (on p22) (ready p23) (on p23) (ready p24) (on p24)
    (ready p25) (on p25) (ready p26) (on p26) (ready p27) (on p27) (ready p28) (on p28)
    (ready p29) (on p29) (ready p30) (on p30) (ready p31) (on p31) (ready p32) (on p32)
    (= (lock p1) 31) (= (doses p1) 0) (= (lock p2) 31) (= (doses p2) 0) (= (lock p3) 31) (= (doses p3) 0) (= (lock p4) 31) (= (doses p4) 0)
    (= (lock p5) 31) (= (doses p5) 0) (= (lock p6) 31) (= (doses p6) 0) (= (lock p7) 31) (= (doses p7) 0) (= (lock p8) 31) (= (doses p8) 0)
    (= (lock p9) 31) (= (doses p9) 0) (= (lock p10) 31) (= (doses p10) 0) (= (lock p11) 31) (= (doses p11) 0) (= (lock p12) 31) (= (doses p12) 0)
    (= (lock p13) 31) (= (doses p13) 0) (= (lock p14) 31) (= (doses p14) 0) (= (lock p15) 31) (= (doses p15) 0) (= (lock p16) 31) (= (doses p16) 0)
    (= (lock p17) 31) (= (doses p17) 0) (= (lock p18) 31) (= (doses p18) 0) (= (lock p19) 31) (= (doses p19) 0) (= (lock p20) 31) (= (doses p20) 0)
    (= (lock p21) 31) (= (doses p21) 0) (= (lock p22) 31) (= (doses p22) 0) (= (lock p23) 31) (= (doses p23) 0) (= (lock p24) 31) (= (doses p24) 0)
    (= (lock p25) 31) (= (doses p25) 0) (= (lock p26) 31) (= (doses p26) 0) (= (lock p27) 31) (= (doses p27) 0) (= (lock p28) 31) (= (doses p28) 0)
    (= (lock p29) 31) (= (doses p29) 0) (= (lock p30) 31) (= (doses p30) 0) (= (lock p31) 31) (= (doses p31) 0) (= (lock p32) 31) (= (doses p32) 0))
  (:goal (>= (doses p1) 1)))
