PROGRAM served

VAR_EXTERNAL
    QA1_OPEN : BOOL;
    QB1_OPEN, QB1_CLOSED : BOOL;
    QC1_OPEN : BOOL;
    SPRING : BOOL;
    QA1_ENA_OPN, QA1_ENA_CLS : BOOL;
    QB1_ENA_OPN, QB1_ENA_CLS : BOOL;
END_VAR

    (* The breaker may always be opened. It may be closed with a charged spring, the disconnector in an end position, and no earth behind it. *)
    LD TRUE
    ST QA1_ENA_OPN
    LD QB1_OPEN
    OR QB1_CLOSED
    AND SPRING
    AND QC1_OPEN
    ST QA1_ENA_CLS

    (* The disconnector can't break a current. *)
    LD QA1_OPEN
    AND QC1_OPEN
    ST QB1_ENA_OPN
    ST QB1_ENA_CLS
END_PROGRAM
