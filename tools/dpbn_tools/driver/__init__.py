"""The driver of builds, build-jobs(1)."""
