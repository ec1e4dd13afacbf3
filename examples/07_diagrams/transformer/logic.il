PROGRAM transformer_bay

VAR_EXTERNAL
    QA1_OPEN : BOOL;
    QB1_OPEN, QB1_CLOSED : BOOL;
    QB2_OPEN, QB2_CLOSED : BOOL;
    QC1_OPEN, QC3_OPEN : BOOL;
    LB1_OPEN, LB1_CLOSED, CA1_CLOSED : BOOL;
    QA1_ENA_OPN, QA1_ENA_CLS : BOOL;
    QB1_ENA_OPN, QB1_ENA_CLS : BOOL;
    QB2_ENA_OPN, QB2_ENA_CLS : BOOL;
    QC1_ENA_OPN, QC1_ENA_CLS : BOOL;
    QC3_ENA_OPN, QC3_ENA_CLS : BOOL;
END_VAR

VAR
    isolated : BOOL;        (* disconnectors part the bay from all that is live *)
END_VAR

    (* The breaker may be opened at any time, and closed onto no earth. *)
    LD TRUE
    ST QA1_ENA_OPN
    LD QB1_OPEN
    OR QB1_CLOSED
    AND( QB2_OPEN
        OR QB2_CLOSED
    )
    AND QC1_OPEN
    AND QC3_OPEN
    ST QA1_ENA_CLS

    (* A busbar disconnector is moved off load, or for a change under load. *)
    LD QA1_OPEN
    AND QB2_OPEN
    OR( CA1_CLOSED
        AND QB2_CLOSED
    )
    AND QC1_OPEN
    ST QB1_ENA_OPN
    AND QC3_OPEN
    ST QB1_ENA_CLS
    LD QA1_OPEN
    AND QB1_OPEN
    OR( CA1_CLOSED
        AND QB1_CLOSED
    )
    AND QC1_OPEN
    ST QB2_ENA_OPN
    AND QC3_OPEN
    ST QB2_ENA_CLS

    (* The transformer is earthed while both its sides are isolated. *)
    LD QB1_OPEN
    AND QB2_OPEN
    AND LB1_OPEN
    ANDN LB1_CLOSED       (* both are TRUE where the contacts contradict each other *)
    ST isolated
    LD TRUE
    ST QC1_ENA_OPN
    ST QC3_ENA_OPN
    LD isolated
    ST QC1_ENA_CLS
    ST QC3_ENA_CLS

END_PROGRAM
