PROGRAM remote_io

VAR_EXTERNAL
    QA1_OPEN : BOOL;
    QB1_OPEN, QB1_CLOSED : BOOL;
    QC1_OPEN : BOOL;
    SPRING, IO2_OK : BOOL;
    M1_AA, M1_AB, M1_AC : DINT;
    QA1_ENA_OPN, QA1_ENA_CLS : BOOL;
    QB1_ENA_OPN, QB1_ENA_CLS : BOOL;
    QC1_ENA_OPN, QC1_ENA_CLS : BOOL;
END_VAR

VAR
    no_current : BOOL;      (* less than 5 A in each phase, measured by a module that is heard *)
END_VAR

    LD M1_AA
    LT 5
    AND( M1_AB
        LT 5
    )
    AND( M1_AC
        LT 5
    )
    AND IO2_OK
    ST no_current

    (* The breaker may always be opened. It may be closed with a charged spring, the disconnector in an end position, and no earth behind it. *)
    LD TRUE
    ST QA1_ENA_OPN
    LD QB1_OPEN
    OR QB1_CLOSED
    AND SPRING
    AND QC1_OPEN
    ST QA1_ENA_CLS

    (* The disconnector can't break a current. *)
    LD QA1_OPEN
    AND QC1_OPEN
    AND no_current
    ST QB1_ENA_OPN
    ST QB1_ENA_CLS

    (* The magnet of the earthing switch frees it between an open breaker and an open disconnector. *)
    LD QA1_OPEN
    AND QB1_OPEN
    AND no_current
    ST QC1_ENA_OPN
    ST QC1_ENA_CLS
END_PROGRAM
