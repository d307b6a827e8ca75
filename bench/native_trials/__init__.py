"""What tools/test_native.py and bench/native_trial.py try native runs with."""
