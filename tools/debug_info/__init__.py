"""What tools/elf.py and tools/map.py are made of. It is not proved, and nothing that is claimed rests on it."""
