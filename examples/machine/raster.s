; The rasterization loop: a shaded triangle on a screen of 64 by 48, sixteen
; pixels at a time. First the program works out, from the vertices, what the
; loop wants: for each edge A = -8 dy, B = 8 dx and C, the edge value at pixel
; (0, 0)'s sample point, less 1 where the edge's zeros are outside. Then the
; loop of the paper. It leaves exactly the bytes that examples/scenes/raster.txt
; gives with `merikohin draw`.

; Where in a pixel an edge is sampled, in eighths to the right and down: at
; its centre. Pixel (0, 0)'s sample point is (4, 4). Planes count from pixel
; (0, 0) itself.
        .equ    sample, 4

; Data memory: the vertices, x1 y1 x2 y2 x3 y3 x1 y1; what a row down adds to
; depth, red, green and blue and to the three edges.
        .equ    vertices, 0
        .equ    planes_down, 8
        .equ    edges_down, 12

        .reg    X, R1
        .reg    Y, R2
        .reg    MAXX, R3
        .reg    MAXY, R4
        .reg    MASK, R5
        .reg    TMP, R6
; What a pixel to the right adds.
        .reg    A1, R7
        .reg    A2, R8
        .reg    A3, R9
        .reg    ZA, R10
        .reg    RA, R11
        .reg    GA, R12
        .reg    BA, R13
; Values at the line's start.
        .reg    CC1, R14
        .reg    CC2, R15
        .reg    CC3, R16
        .reg    ZCC, R17
        .reg    RCC, R18
        .reg    GCC, R19
        .reg    BCC, R20
; Values at the group.
        .reg    C1, R21
        .reg    C2, R22
        .reg    C3, R23
        .reg    ZC, R24
        .reg    RC, R25
        .reg    GC, R26
        .reg    BC, R27

; The screen: 64 by 48, so S = 4 * 512 + 48; colours at 0, depths behind them.
        LI      TMP, 6144
        SCRSET  R0, TMP, 2096
        LI      TMP, -1
        LI      X, 0x0842               ; a dark grey
        CLS     X, TMP                  ; the farthest depth

; The vertices, in eighths of a pixel; the first once more at the end.
        LI      TMP, 36
        ST      vertices, TMP
        ST      vertices+6, TMP
        LI      TMP, 20
        ST      vertices+1, TMP
        ST      vertices+7, TMP
        LI      TMP, 496
        ST      vertices+2, TMP
        LI      TMP, 132
        ST      vertices+3, TMP
        LI      TMP, 120
        ST      vertices+4, TMP
        LI      TMP, 376
        ST      vertices+5, TMP

; The three edges, one subroutine: from the vertex at R28 to the next one.
        LI      R28, vertices
        CALL    edge
        OR      A1, R24, R24
        OR      CC1, R26, R26
        ST      edges_down, R25
        LI      R28, vertices+2
        CALL    edge
        OR      A2, R24, R24
        OR      CC2, R26, R26
        ST      edges_down+1, R25
        LI      R28, vertices+4
        CALL    edge
        OR      A3, R24, R24
        OR      CC3, R26, R26
        ST      edges_down+2, R25

; The planes: c at the line's start, a to the right, b down. Colours have 16
; bits of fraction; 1/2 is 1 shifted by 15.
        LI      ZCC, 256                ; depth 256 everywhere
        LSLI    ZCC, ZCC, 16
        LI      RCC, 31                 ; red 31, less by 7/16 a pixel
        LSLI    RCC, RCC, 16
        LI      RA, -7
        LSLI    RA, RA, 12
        LI      GA, 1                   ; green from 0, more by 1/2 a pixel
        LSLI    GA, GA, 15
        LI      TMP, 1                  ; blue from 0, more by 1/2 a row
        LSLI    TMP, TMP, 15
        ST      planes_down+3, TMP      ; the others add 0 a row

; The loop over the box. TREESET's mask has all sixteen leaves take part.
        LI      MASK, -1
        LI      MAXX, 63
        LI      MAXY, 47
yloop:
        LI      X, 0                    ; start of X loop
        OR      ZC, ZCC, ZCC            ; load beginning of line values
        OR      RC, RCC, RCC
        OR      GC, GCC, GCC
        OR      BC, BCC, BCC
        OR      C1, CC1, CC1
        OR      C2, CC2, CC2
        OR      C3, CC3, CC3
xloop:
        TREESET X, Y, MASK              ; set up tree
        TREEIN  C1, A1                  ; first edge
        TREEIN  C2, A2                  ; second edge
        TREEIN  C3, A3                  ; third edge
        TREEVAL ZC, ZA, 0               ; interpolate Z
        TREEVAL RC, RA, 1               ; interpolate red
        TREEVAL GC, GA, 2               ; interpolate green
        TREEVAL BC, BA, 3               ; interpolate blue
        TREEPUT                         ; stick it into memory
        LI      X, X(16)                ; increment X
        SUB     R0, X, MAXX             ; stop at right end of the box
        JLE     xloop
        LD      TMP, planes_down
        ADD     ZCC, ZCC, TMP
        LD      TMP, planes_down+1
        ADD     RCC, RCC, TMP
        LD      TMP, planes_down+2
        ADD     GCC, GCC, TMP
        LD      TMP, planes_down+3
        ADD     BCC, BCC, TMP
        LD      TMP, edges_down
        ADD     CC1, CC1, TMP
        LD      TMP, edges_down+1
        ADD     CC2, CC2, TMP
        LD      TMP, edges_down+2
        ADD     CC3, CC3, TMP
        LI      Y, Y(1)                 ; increment Y
        SUB     R0, Y, MAXY             ; stop at the end of the box
        JLE     yloop
        JMP     end

; From the vertex at R28 to the next: R24 = A, R25 = B, R26 = C. It uses R21 to
; R23, which the loop sets anew.
edge:
        LD      R21, R28(2)
        LD      R23, R28(0)
        SUB     R21, R21, R23           ; dx = x2 - x1
        LD      R22, R28(3)
        LD      R27, R28(1)
        SUB     R22, R22, R27           ; dy = y2 - y1
        LI      R23, R23(-sample)       ; x1 and y1, counted from pixel (0, 0)'s
        LI      R27, R27(-sample)       ; sample point
        MUL     R23, R23, R22           ; x1 dy
        MUL     R27, R27, R21           ; y1 dx
        SUB     R26, R23, R27           ; the value there: x1 dy - y1 dx
        LSLI    R25, R21, 3             ; B = 8 dx
        LSLI    R24, R22, 3
        SUB     R24, R0, R24            ; A = -8 dy
        OR      R22, R22, R22           ; the flags of dy
        JLT     zeros_in                ; dy < 0: zeros are inside
        JNE     zeros_out               ; dy > 0: outside
        OR      R21, R21, R21           ; dy = 0: the flags of dx
        JGT     zeros_in                ; dx > 0: inside
zeros_out:
        LI      R23, 1
        SUB     R26, R26, R23
zeros_in:
        JMP     R31(0)
end:
