"""The parts of scripts/reference.py: what the sources say, the pages made of it, and the checks of the documents."""
