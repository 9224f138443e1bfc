"""What tests/soak is made of: bulk builds of any size with kills, bad lines, bad disks and bad clocks. Each part of the soak is a module
with a function `run(asked)` that returns its figures; what the parts share is in the other modules."""
