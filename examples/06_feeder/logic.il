PROGRAM feeder

VAR_EXTERNAL
    QA1_OPEN : BOOL;
    QB1_OPEN, QB1_CLOSED : BOOL;
    QB2_OPEN, QB2_CLOSED : BOOL;
    QB9_OPEN, QB9_CLOSED : BOOL;
    QC1_OPEN, QC2_OPEN, QC9_OPEN : BOOL;
    COUPLED, VT_DEAD, MEASURES_OK, NO_TRIP : BOOL;
    M1_AA : DINT;
    QA1_ENA_OPN, QA1_ENA_CLS : BOOL;
    QB1_ENA_OPN, QB1_ENA_CLS : BOOL;
    QB2_ENA_OPN, QB2_ENA_CLS : BOOL;
    QB9_ENA_OPN, QB9_ENA_CLS : BOOL;
    QC1_ENA_OPN, QC1_ENA_CLS : BOOL;
    QC2_ENA_OPN, QC2_ENA_CLS : BOOL;
    QC9_ENA_OPN, QC9_ENA_CLS : BOOL;
END_VAR

VAR
    off_load : BOOL;        (* the breaker is open, and no current is measured *)
    moves : BOOL;           (* a disconnector is in no end position *)
    stuck : TON;            (* Q: one of them has been in none for so long *)
    trip : BOOL;            (* the protection trips, or nobody knows *)
    tripped : TOF;          (* Q: there is a trip, or there was one not long ago *)
END_VAR

    LD M1_AA
    LT 5
    AND MEASURES_OK
    AND QA1_OPEN
    ST off_load

    LD QB1_OPEN
    OR QB1_CLOSED
    AND( QB2_OPEN
        OR QB2_CLOSED
    )
    AND( QB9_OPEN
        OR QB9_CLOSED
    )
    STN moves
    CAL stuck(IN := moves, PT := T#15s)
    LDN NO_TRIP
    ST trip
    CAL tripped(IN := trip, PT := T#3s)

    (* The breaker may be opened at any time. *)
    LD TRUE
    ST QA1_ENA_OPN

    (* It may be closed onto one busbar, or onto both while they are coupled; onto no earthing *)
    (* switch; and 3 s after a trip at the earliest. *)
    LD QB1_CLOSED
    AND QB2_OPEN
    OR( QB1_OPEN
        AND QB2_CLOSED
    )
    OR( QB1_CLOSED
        AND QB2_CLOSED
        AND COUPLED
    )
    AND( QB9_OPEN
        OR( QB9_CLOSED
            AND QC9_OPEN
        )
    )
    AND QC1_OPEN
    AND QC2_OPEN
    ANDN tripped.Q
    ST QA1_ENA_CLS

    (* A busbar disconnector is moved off load while the other is open; or, for a change under *)
    (* load, while the other is closed and the busbars are coupled. *)
    LD off_load
    AND QB2_OPEN
    OR( COUPLED
        AND QB2_CLOSED
    )
    AND QC1_OPEN
    AND QC2_OPEN
    ANDN stuck.Q
    ST QB1_ENA_OPN
    ST QB1_ENA_CLS

    LD off_load
    AND QB1_OPEN
    OR( COUPLED
        AND QB1_CLOSED
    )
    AND QC1_OPEN
    AND QC2_OPEN
    ANDN stuck.Q
    ST QB2_ENA_OPN
    ST QB2_ENA_CLS

    (* The feeder disconnector is moved off load, and not closed onto the earthed cable. *)
    LD off_load
    AND QC1_OPEN
    AND QC2_OPEN
    ANDN stuck.Q
    ST QB9_ENA_OPN
    AND QC9_OPEN
    ST QB9_ENA_CLS

    (* The earthing switches at the breaker are moved with all disconnectors open. *)
    LD QB1_OPEN
    AND QB2_OPEN
    AND QB9_OPEN
    ST QC1_ENA_OPN
    ST QC1_ENA_CLS
    ST QC2_ENA_OPN
    ST QC2_ENA_CLS

    (* That of the cable may be opened at any time, and closed onto a dead cable. *)
    LD TRUE
    ST QC9_ENA_OPN
    LD QB9_OPEN
    AND VT_DEAD
    ST QC9_ENA_CLS

END_PROGRAM
