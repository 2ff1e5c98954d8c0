"""Validations that are spread over several processes: a shapes text in parts, and the report that these
make."""
