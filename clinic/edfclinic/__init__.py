"""The night, the morning and the archive of sleep recorders, around edfstore."""
VERSION = "of a clone"      # a package has its own here
