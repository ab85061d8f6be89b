"""Tries edfclinic: nights of three recorders, kills, disks, and an uploader who is hostile."""
