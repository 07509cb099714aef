NAME
ROWS
 N  cost
COLUMNS
    a  cost  0
    b  cost  0
    c  cost  0.5
    d  cost  3
    f  cost  1
    g  cost  123456789012345678
    h  cost  1234567890123456780
    i  cost  100000
    j  cost  1e6
    k  cost  125e-21
    l  cost  -0.000000000000000015
    m  cost  1e500
    n  cost  1e500
    o  cost  1e254
    p  cost  1234567890123456789
    q  cost  1234567890123456789e-19
    r  cost  123456789012345678901234567890123456
    s  cost  1e-500
    t  cost  7
    u  cost  1
    v  cost  -1234.56
    w  cost  1.5
ENDATA
