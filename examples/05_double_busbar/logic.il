PROGRAM double_busbar

VAR_EXTERNAL
    QA1_OPEN : BOOL;
    QB1_OPEN, QB1_CLOSED : BOOL;
    QB2_OPEN, QB2_CLOSED : BOOL;
    QB9_OPEN, QB9_CLOSED : BOOL;
    QC1_OPEN : BOOL;
    CA1_CLOSED, CB1_CLOSED, CB2_CLOSED, BYPASS : BOOL;
    QA1_ENA_OPN, QA1_ENA_CLS : BOOL;
    QB1_ENA_OPN, QB1_ENA_CLS : BOOL;
    QB2_ENA_OPN, QB2_ENA_CLS : BOOL;
    QB9_ENA_OPN, QB9_ENA_CLS : BOOL;
    QC1_ENA_OPN, QC1_ENA_CLS : BOOL;
END_VAR

VAR
    coupled : BOOL;         (* the coupler joins the busbars *)
END_VAR

    LD CA1_CLOSED
    AND CB1_CLOSED
    AND CB2_CLOSED
    ST coupled

    (* The earthing switch is moved with all disconnectors open. *)
    LD QB1_OPEN
    AND QB2_OPEN
    AND QB9_OPEN
    ST QC1_ENA_OPN
    ST QC1_ENA_CLS

    (* The breaker may be opened at any time. *)
    LD TRUE
    ST QA1_ENA_OPN

    (* The key 'interlocking off' frees breaker and disconnectors, and no earthing switch. *)
    LD BYPASS
    JMPC free

    (* The breaker may be closed onto one busbar, or onto both while they are coupled. *)
    LD QB1_OPEN
    AND QB2_CLOSED
    OR( QB1_CLOSED
        AND QB2_OPEN
    )
    OR( QB1_CLOSED
        AND QB2_CLOSED
        AND coupled
    )
    AND( QB9_OPEN
        OR QB9_CLOSED
    )
    AND QC1_OPEN
    ST QA1_ENA_CLS

    (* A busbar disconnector is moved off load while the other is open; or, for a change under load, while the *)
    (* other is closed and the busbars are coupled. In both cases the earthing switch is open: with it closed the *)
    (* disconnector would put a busbar to earth. *)
    LD QA1_OPEN
    AND QB2_OPEN
    OR( coupled
        AND QB2_CLOSED
    )
    AND QC1_OPEN
    ST QB1_ENA_OPN
    ST QB1_ENA_CLS

    LD QA1_OPEN
    AND QB1_OPEN
    OR( coupled
        AND QB1_CLOSED
    )
    AND QC1_OPEN
    ST QB2_ENA_OPN
    ST QB2_ENA_CLS

    (* The feeder disconnector is moved off load. *)
    LD QA1_OPEN
    AND QC1_OPEN
    ST QB9_ENA_OPN
    ST QB9_ENA_CLS
    RET

free:
    LD TRUE
    ST QA1_ENA_CLS
    ST QB1_ENA_OPN
    ST QB1_ENA_CLS
    ST QB2_ENA_OPN
    ST QB2_ENA_CLS
    ST QB9_ENA_OPN
    ST QB9_ENA_CLS

END_PROGRAM
