"""The formats of the definitions as ASN.1."""
