"""What ./explain is made of: a report beside its exact values, and words for refusals."""
