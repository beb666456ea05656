"""The parts of the independent model and of its tries on the built program; see ../model.py."""
