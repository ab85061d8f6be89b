"""The checks. Each is a module that is run in the folder of the clone, as `python3 -m
checks.lines.run`; `checks/run` runs them side by side."""
