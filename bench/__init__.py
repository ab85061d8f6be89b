"""The benches. Each is a module that is run in the folder of the clone, as `python3 -m
bench.convert.run`."""
