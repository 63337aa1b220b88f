; A matrix of 4 by 4 times a new one, in place. The sixteen words of the new
; matrix come in one by one and are stored transposed, so that a column is four
; words in a row, as DOT wants them. A row's four products come before its four
; stores.

        .equ    modelview, 0            ; the matrix, row by row
        .equ    tmat1, 16               ; the new one, column by column
        .equ    incoming, 32            ; where its words come from
        .reg    INST, R1
        .reg    POINTER, R2
        .reg    TMPDEST, R3
        .reg    COUNT, R4
        .reg    DEST, R5
        .reg    SRC, R6
        .reg    PROD1, R10
        .reg    PROD2, R11
        .reg    PROD3, R12
        .reg    PROD4, R13
        .reg    VALUE, R20
        .reg    AT, R21
        .reg    ONE, R22
        .reg    END, R23

; What there is at first: 1, 2, .. 16 in the matrix, and in the new one 16, 15, .. 1.
        LI      ONE, 1
        LSLI    ONE, ONE, 16            ; with 16 bits of fraction
        LI      END, 16
        LI      AT, modelview
        OR      VALUE, R0, R0
fill:   ADD     VALUE, VALUE, ONE
        ST      AT, VALUE
        LI      AT, AT(1)
        SUB     R0, AT, END
        JLT     fill
        LI      AT, incoming
        LI      END, incoming+16
down:   ST      AT, VALUE
        SUB     VALUE, VALUE, ONE
        LI      AT, AT(1)
        SUB     R0, AT, END
        JLT     down

        LI      POINTER, incoming
        LI      COUNT, 4                ; number of columns to copy
        LI      TMPDEST, tmat1          ; transpose into tmp matrix
        LI      DEST, modelview
transpose:
        CALL    getinst                 ; get next matrix element
        ST      TMPDEST, INST           ; store the element
        CALL    getinst
        ST      TMPDEST(4), INST
        CALL    getinst
        ST      TMPDEST(8), INST
        CALL    getinst
        ST      TMPDEST(12), INST
        LI      TMPDEST, TMPDEST(1)     ; increment destination
        LI      COUNT, COUNT(-1)        ; decrement count
        JNE     transpose               ; if not done, next elements

        ; Now the transpose of the new matrix is in tmat1.
        LI      COUNT, 4                ; number of rows to multiply
multmatrix:
        LI      SRC, tmat1              ; first column of new matrix
        DOT     PROD1, DEST, SRC        ; row * column
        LI      SRC, tmat1+4
        DOT     PROD2, DEST, SRC
        LI      SRC, tmat1+8
        DOT     PROD3, DEST, SRC
        LI      SRC, tmat1+12
        DOT     PROD4, DEST, SRC
        ST      DEST, PROD1
        ST      DEST(1), PROD2
        ST      DEST(2), PROD3
        ST      DEST(3), PROD4
        LI      DEST, DEST(4)           ; next row of source
        LI      COUNT, COUNT(-1)        ; decrement count
        JNE     multmatrix              ; if not done, next row
        JMP     end

getinst:
        LD      INST, POINTER
        LI      POINTER, POINTER(1)
        JMP     R31(0)                  ; CALL put the next place there
end:
