"""What tools/doctor says, as lines or as JSON, and what it finds in traces."""
