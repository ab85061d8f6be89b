"""What checks/worked.py asks: small files, each beside its answer."""
