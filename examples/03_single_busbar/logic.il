PROGRAM single_busbar

VAR_EXTERNAL
    QA1_OPEN : BOOL;
    QB1_OPEN, QB1_CLOSED : BOOL;
    QB9_OPEN, QB9_CLOSED : BOOL;
    QC1_OPEN, QC1_CLOSED : BOOL;
    SPRING, NO_TRIP, RESET : BOOL;
    M1_AA, M1_AB, M1_AC : DINT;
    QA1_ENA_OPN, QA1_ENA_CLS : BOOL;
    QB1_ENA_OPN, QB1_ENA_CLS : BOOL;
    QB9_ENA_OPN, QB9_ENA_CLS : BOOL;
    QC1_ENA_OPN, QC1_ENA_CLS : BOOL;
END_VAR

VAR
    lockout : BOOL := TRUE; (* a trip that has not been reset; the program starts locked *)
    no_current : BOOL;      (* less than 5 A in each phase *)
    at_rest : BOOL;         (* no disconnector or earthing switch is on its way or bad *)
    earth_apart : BOOL;     (* no earth can be reached through the breaker *)
END_VAR

    (* The lockout: a trip sets it, and so does an unknown one; the button resets it once the trip is gone. *)
    LDN NO_TRIP
    S lockout
    LD RESET
    AND NO_TRIP
    R lockout

    LD M1_AA
    LT 5
    AND( M1_AB
        LT 5
    )
    AND( M1_AC
        LT 5
    )
    ST no_current

    LD QB1_OPEN
    OR QB1_CLOSED
    AND( QB9_OPEN
        OR QB9_CLOSED
    )
    AND( QC1_OPEN
        OR QC1_CLOSED
    )
    ST at_rest

    LD QC1_OPEN
    OR( QB1_OPEN
        AND QB9_OPEN
    )
    ST earth_apart

    (* The breaker may be opened at any time. *)
    LD TRUE
    ST QA1_ENA_OPN
    (* It may be closed with a charged spring, without a lockout, with all others at rest, and not onto an earth. *)
    LD SPRING
    ANDN lockout
    AND at_rest
    AND earth_apart
    ST QA1_ENA_CLS

    (* A disconnector is moved without current, the breaker open and the earthing switch open. *)
    LD QA1_OPEN
    AND no_current
    AND QC1_OPEN
    ST QB1_ENA_OPN
    ST QB1_ENA_CLS
    ST QB9_ENA_OPN
    ST QB9_ENA_CLS

    (* The earthing switch is moved with both disconnectors open. *)
    LD QB1_OPEN
    AND QB9_OPEN
    ST QC1_ENA_OPN
    ST QC1_ENA_CLS

END_PROGRAM
