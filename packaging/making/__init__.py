"""What bin/make_release is made of: contents.py says what each package holds, package.py makes packages,
wheel.py makes the wheel, and record.py writes RELEASE."""
