"""The parts of tracedesk-recall."""
