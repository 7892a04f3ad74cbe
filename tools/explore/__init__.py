"""The parts of ./explore."""
