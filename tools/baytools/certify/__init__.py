"""What tools/certify is made of: an authority of certificates in a folder, over openssl."""
