"""What the checks, the benches and the scripts of examples/ share."""
