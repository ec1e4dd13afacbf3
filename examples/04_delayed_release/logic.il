PROGRAM delayed_release

VAR_EXTERNAL
    QA1_OPEN : BOOL;
    QB9_POS : INT;
    QB9_OPEN, QC9_OPEN : BOOL;
    U_DEAD, VT_OK, NO_TRIP, RESET : BOOL;
    M1_HZ : DINT;
    QA1_ENA_OPN, QA1_ENA_CLS : BOOL;
    QB9_ENA_OPN, QB9_ENA_CLS : BOOL;
    QC9_ENA_OPN, QC9_ENA_CLS : BOOL;
END_VAR

VAR
    dead : BOOL;                (* relay and meter both say that the cable is dead *)
    dead_time : TON;            (* Q: it has been dead for so long *)
    after_trip : TOF;           (* Q: there is a trip, or there was one not long ago *)
    trip : BOOL;                (* the protection trips, or nobody knows *)
    was_trip : BOOL := TRUE;    (* so it was at the last scan; the program's start is no trip *)
    trips : INT;                (* trips since the last reset *)
END_VAR

    (* The cable counts as dead where the relay says so, its transformers are sound, and no frequency is measured. *)
    LD U_DEAD
    AND VT_OK
    AND( M1_HZ
        EQ 0
    )
    ST dead
    CAL dead_time(IN := dead, PT := T#10s)

    (* Count the trips: each change of NO_TRIP from TRUE to FALSE. *)
    LDN NO_TRIP
    ST trip
    ANDN was_trip
    JMPCN counted
    LD trips
    ADD 1
    ST trips
counted:
    LD trip
    ST was_trip
    CAL after_trip(IN := trip, PT := T#3s)

    LD RESET
    JMPCN kept
    LD 0
    ST trips
kept:

    (* The breaker may be opened at any time. *)
    LD TRUE
    ST QA1_ENA_OPN
    (* It may be closed 3 s after a trip at the earliest, not after three trips, with the disconnector at rest, and *)
    (* not onto the earthed cable. *)
    LD QB9_POS
    EQ 1
    OR( QB9_POS
        EQ 2
        AND QC9_OPEN
    )
    ANDN after_trip.Q
    AND( trips
        LT 3
    )
    ST QA1_ENA_CLS

    (* The disconnector is moved with the breaker and the earthing switch open. *)
    LD QA1_OPEN
    AND QC9_OPEN
    ST QB9_ENA_OPN
    ST QB9_ENA_CLS

    (* The earthing switch may be opened at any time, and closed with the disconnector open once the cable has *)
    (* been dead for 10 s. *)
    LD TRUE
    ST QC9_ENA_OPN
    LD QB9_OPEN
    AND dead_time.Q
    ST QC9_ENA_CLS

END_PROGRAM
