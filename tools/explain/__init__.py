"""The parts of ./explain."""
