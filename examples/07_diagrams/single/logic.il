PROGRAM single_feeder

VAR_EXTERNAL
    QA1_OPEN : BOOL;
    QB1_OPEN, QB1_CLOSED : BOOL;
    QB9_OPEN, QB9_CLOSED : BOOL;
    QC1_OPEN, QC9_OPEN : BOOL;
    VT_DEAD : BOOL;
    QA1_ENA_OPN, QA1_ENA_CLS : BOOL;
    QB1_ENA_OPN, QB1_ENA_CLS : BOOL;
    QB9_ENA_OPN, QB9_ENA_CLS : BOOL;
    QC1_ENA_OPN, QC1_ENA_CLS : BOOL;
    QC9_ENA_OPN, QC9_ENA_CLS : BOOL;
END_VAR

VAR
    at_rest : BOOL;         (* both disconnectors are in an end position *)
END_VAR

    LD QB1_OPEN
    OR QB1_CLOSED
    AND( QB9_OPEN
        OR QB9_CLOSED
    )
    ST at_rest

    (* The breaker may be opened at any time, and closed onto no earth; with both disconnectors *)
    (* open it may be tested on an earthed bay. *)
    LD TRUE
    ST QA1_ENA_OPN
    LD QC1_OPEN
    OR( QB1_OPEN
        AND QB9_OPEN
    )
    AND( QC9_OPEN
        OR QB9_OPEN
    )
    AND at_rest
    ST QA1_ENA_CLS

    (* The busbar disconnector is moved off load, and closed onto no earth. *)
    LD QA1_OPEN
    AND QC1_OPEN
    ST QB1_ENA_OPN
    AND( QC9_OPEN
        OR QB9_OPEN
    )
    ST QB1_ENA_CLS

    (* So is the cable disconnector. *)
    LD QA1_OPEN
    ST QB9_ENA_OPN
    AND QC1_OPEN
    AND QC9_OPEN
    ST QB9_ENA_CLS

    (* The bay is earthed between open disconnectors, the cable while it is dead. *)
    LD TRUE
    ST QC1_ENA_OPN
    ST QC9_ENA_OPN
    LD QB1_OPEN
    AND QB9_OPEN
    ST QC1_ENA_CLS
    LD QB9_OPEN
    AND VT_DEAD
    ST QC9_ENA_CLS

END_PROGRAM
