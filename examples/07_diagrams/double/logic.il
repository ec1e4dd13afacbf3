PROGRAM double_feeder

VAR_EXTERNAL
    QA1_OPEN : BOOL;
    QB1_OPEN, QB1_CLOSED : BOOL;
    QB2_OPEN, QB2_CLOSED : BOOL;
    QB9_OPEN, QB9_CLOSED : BOOL;
    QC1_OPEN, QC2_OPEN : BOOL;
    CA1_CLOSED, CB1_CLOSED, CB2_CLOSED : BOOL;
    QA1_ENA_OPN, QA1_ENA_CLS : BOOL;
    QB1_ENA_OPN, QB1_ENA_CLS : BOOL;
    QB2_ENA_OPN, QB2_ENA_CLS : BOOL;
    QB9_ENA_OPN, QB9_ENA_CLS : BOOL;
    QC1_ENA_OPN, QC1_ENA_CLS : BOOL;
    QC2_ENA_OPN, QC2_ENA_CLS : BOOL;
END_VAR

VAR
    coupled : BOOL;         (* the coupler joins the busbars *)
    unearthed : BOOL;       (* no earthing switch of the bay can be closed *)
END_VAR

    LD CA1_CLOSED
    AND CB1_CLOSED
    AND CB2_CLOSED
    ST coupled
    LD QC1_OPEN
    AND QC2_OPEN
    ST unearthed

    (* The breaker may be opened at any time, and closed with all disconnectors at rest. *)
    LD TRUE
    ST QA1_ENA_OPN
    LD QB1_OPEN
    OR QB1_CLOSED
    AND( QB2_OPEN
        OR QB2_CLOSED
    )
    AND( QB9_OPEN
        OR QB9_CLOSED
    )
    AND unearthed
    ST QA1_ENA_CLS

    (* A busbar disconnector is moved off load while the other is open, or for a change under *)
    (* load while the other is closed and the busbars are coupled. *)
    LD QA1_OPEN
    AND QB2_OPEN
    OR( coupled
        AND QB2_CLOSED
    )
    AND unearthed
    ST QB1_ENA_OPN
    ST QB1_ENA_CLS
    LD QA1_OPEN
    AND QB1_OPEN
    OR( coupled
        AND QB1_CLOSED
    )
    AND unearthed
    ST QB2_ENA_OPN
    ST QB2_ENA_CLS

    (* The line disconnector is moved off load. *)
    LD QA1_OPEN
    AND unearthed
    ST QB9_ENA_OPN
    ST QB9_ENA_CLS

    (* The bay is earthed between open disconnectors. *)
    LD TRUE
    ST QC1_ENA_OPN
    ST QC2_ENA_OPN
    LD QB1_OPEN
    AND QB2_OPEN
    AND QB9_OPEN
    ST QC1_ENA_CLS
    ST QC2_ENA_CLS

END_PROGRAM
