"""What tools/check-settings is made of."""
