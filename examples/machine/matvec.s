; A matrix of 4 by 4 times a vector: four DOTs, one for each row. Numbers have
; 16 bits of fraction. The matrix stands row by row, the result is in four
; registers. There is no stop instruction: the program ends past its last word,
; which is halt 12.

        .equ    modelview, 0            ; data address of the matrix
        .equ    vector, 16              ; and of the vector
        .reg    MTX, R1
        .reg    VEC, R2
        .reg    V1, R10
        .reg    V2, R11
        .reg    V3, R12
        .reg    W, R13
        .reg    VALUE, R20
        .reg    AT, R21
        .reg    STEP, R22
        .reg    END, R23

; The matrix: 1/2, 1, 3/2, .. row by row.
        LI      STEP, 1
        LSLI    STEP, STEP, 15          ; 1/2
        OR      VALUE, STEP, STEP
        LI      END, 16
        LI      AT, modelview
fill:   ST      AT, VALUE
        ADD     VALUE, VALUE, STEP
        LI      AT, AT(1)
        SUB     R0, AT, END
        JLT     fill

; The vector: 1/65536, 2, 1/65536, -3. A half times 1/65536 is rounded down to
; 0, and so is each product before they are added.
        LI      VALUE, 1
        ST      vector, VALUE
        ST      vector+2, VALUE
        LSLI    VALUE, VALUE, 17
        ST      vector+1, VALUE
        LI      VALUE, -3
        LSLI    VALUE, VALUE, 16
        ST      vector+3, VALUE

; The paper's nine instructions.
        LI      MTX, modelview          ; address of matrix
        LI      VEC, vector             ; address of vector
        DOT     V1, MTX, VEC
        LI      MTX, MTX(4)             ; next row
        DOT     V2, MTX, VEC
        LI      MTX, MTX(4)
        DOT     V3, MTX, VEC
        LI      MTX, MTX(4)
        DOT     W, MTX, VEC
