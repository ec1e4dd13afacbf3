PROGRAM line_bay

VAR_EXTERNAL
    QA1_OPEN, QA1_CLOSED : BOOL;
    QB1_OPEN, QB1_CLOSED : BOOL;
    QB7_OPEN, QB7_CLOSED : BOOL;
    QB9_OPEN, QB9_CLOSED : BOOL;
    QC1_OPEN, QC2_OPEN, QC9_OPEN : BOOL;
    VT_DEAD, TA1_CLOSED, TA1_OPEN, TB1_CLOSED, TB7_CLOSED : BOOL;
    QA1_ENA_OPN, QA1_ENA_CLS : BOOL;
    QB1_ENA_OPN, QB1_ENA_CLS : BOOL;
    QB7_ENA_OPN, QB7_ENA_CLS : BOOL;
    QB9_ENA_OPN, QB9_ENA_CLS : BOOL;
    QC1_ENA_OPN, QC1_ENA_CLS : BOOL;
    QC2_ENA_OPN, QC2_ENA_CLS : BOOL;
    QC9_ENA_OPN, QC9_ENA_CLS : BOOL;
END_VAR

VAR
    transfer : BOOL;        (* the transfer bay joins busbar 1 and the transfer busbar *)
    unearthed : BOOL;       (* neither earthing switch at the breaker can be closed *)
    in_service : BOOL;      (* the line is on busbar 1, over the breaker *)
END_VAR

    LD TA1_CLOSED
    ANDN TA1_OPEN         (* both are TRUE where the contacts contradict each other *)
    AND TB1_CLOSED
    AND TB7_CLOSED
    ST transfer
    LD QC1_OPEN
    AND QC2_OPEN
    ST unearthed
    LD QB1_CLOSED
    AND QB9_CLOSED
    ST in_service

    (* The breaker may be opened, but for a bypass of which a disconnector may be on its way. *)
    LD QB7_OPEN
    OR QB1_OPEN
    OR QB9_OPEN
    OR( TA1_OPEN
        ANDN TA1_CLOSED
    )
    OR( QB7_CLOSED
        AND transfer
    )
    ST QA1_ENA_OPN

    (* It may be closed onto no earth, with its disconnectors at rest. *)
    LD QB1_OPEN
    OR QB1_CLOSED
    AND( QB9_OPEN
        OR QB9_CLOSED
    )
    AND( QC9_OPEN
        OR QB9_OPEN
    )
    AND unearthed
    ST QA1_ENA_CLS

    (* The disconnectors of the bay are moved off load. *)
    LD QA1_OPEN
    AND unearthed
    ST QB1_ENA_OPN
    ST QB9_ENA_OPN
    AND QC9_OPEN
    ST QB9_ENA_CLS
    LD QA1_OPEN
    AND unearthed
    AND( QC9_OPEN
        OR QB9_OPEN
    )
    ST QB1_ENA_CLS

    (* The disconnector to the transfer busbar is moved beside the closed bay. *)
    LD in_service
    AND QA1_CLOSED
    AND transfer
    ST QB7_ENA_OPN
    AND unearthed
    AND QC9_OPEN
    ST QB7_ENA_CLS

    (* The breaker is earthed between open disconnectors, the line while it is dead. *)
    LD TRUE
    ST QC1_ENA_OPN
    ST QC2_ENA_OPN
    ST QC9_ENA_OPN
    LD QB1_OPEN
    AND QB9_OPEN
    ST QC1_ENA_CLS
    ST QC2_ENA_CLS
    LD QB9_OPEN
    AND QB7_OPEN
    AND VT_DEAD
    ST QC9_ENA_CLS

END_PROGRAM
