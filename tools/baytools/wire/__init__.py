"""What goes over the wire: BER, the layers below MMS, MMS and its words; clients, and captures."""
